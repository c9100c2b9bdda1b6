//! The sheet: its layout, and the numbers 1 to 7. Each number is tested over the whole sheet before the next one.

use super::programs::{self, Statement};
use std::collections::BTreeMap;

pub const NONE: u16 = 0xFFFF;
const TRAILER: usize = 24;
const LONGEST: usize = 27_928;

pub struct Sheet {
    pub tags: Vec<Vec<u8>>,
    pub productions: Vec<Production>,
    /// Every program by the offset of its start.
    pub programs: BTreeMap<usize, Vec<Statement>>,
    pub strings: Vec<u8>,
    pub start: u8,
}

pub struct Production {
    pub nonterminal: u8,
    pub tag: u8,
    /// `None` is the empty expression.
    pub tree: Option<Node>,
    pub first: u16,
    pub second: u16,
}

pub struct Node {
    /// The bracket's number: from 1, in preorder.
    pub bracket: usize,
    pub body: Body,
    pub first: u16,
    pub second: u16,
}

pub enum Body {
    /// An atom with its number (from 1, left to right).
    Nonterminal(usize, u8),
    Character(usize),
    Concatenation(Box<Node>, Box<Node>),
    Union(Box<Node>, Box<Node>),
    Star(Box<Node>),
    /// Its own brackets alone (§6).
    Empty,
}

impl Sheet {
    pub fn read(bytes: &[u8]) -> Result<Sheet, u8> {
        if bytes.len() < TRAILER || bytes.len() > LONGEST {
            return Err(1);
        }
        let parts = Parts::read(bytes).ok_or(2)?;
        let tags = read_tags(parts.tags).ok_or(3)?;
        let records: Vec<Record> = parts.productions.chunks(12).map(Record::read).collect();
        if !records_are_right(&records, tags.len(), parts.nodes.len() / 6) || parts.start > 63 {
            return Err(4);
        }
        let trees = read_trees(&records, parts.nodes).ok_or(5)?;
        let programs = programs::read(parts.programs, tags.len(), parts.strings).ok_or(6)?;
        if !fields_are_right(&records, parts.nodes, &programs) {
            return Err(6);
        }
        let productions = records
            .iter()
            .zip(trees)
            .map(|(r, tree)| Production { nonterminal: r.nonterminal, tag: r.tag, tree, first: r.first, second: r.second })
            .collect();
        let sheet = Sheet { tags, productions, programs, strings: parts.strings.to_vec(), start: parts.start as u8 };
        if sheet.names_are_produced() { Ok(sheet) } else { Err(7) }
    }

    fn names_are_produced(&self) -> bool {
        let produced = |nonterminal: u8| self.productions.iter().any(|p| p.nonterminal == nonterminal);
        let named = self.productions.iter().flat_map(|p| p.atoms());
        produced(self.start) && named.flatten().all(produced)
    }

    /// The production of a nonterminal with a tag. Rule T leaves at most one on a sheet that passes.
    pub fn production(&self, nonterminal: u8, tag: &[u8]) -> Option<usize> {
        self.productions.iter().position(|p| p.nonterminal == nonterminal && self.tags[p.tag as usize] == tag)
    }

    /// The tags that a nonterminal can be, as rule S has it.
    pub fn tags_of(&self, nonterminal: u8) -> Vec<u8> {
        self.productions.iter().filter(|p| p.nonterminal == nonterminal).map(|p| p.tag).collect()
    }
}

impl Production {
    /// The atoms from left to right: a nonterminal, or `None` for a character.
    pub fn atoms(&self) -> Vec<Option<u8>> {
        fn go(node: &Node, atoms: &mut Vec<Option<u8>>) {
            match &node.body {
                Body::Nonterminal(_, nonterminal) => atoms.push(Some(*nonterminal)),
                Body::Character(_) => atoms.push(None),
                Body::Concatenation(left, right) | Body::Union(left, right) => {
                    go(left, atoms);
                    go(right, atoms);
                }
                Body::Star(inner) => go(inner, atoms),
                Body::Empty => {}
            }
        }
        let mut atoms = Vec::new();
        if let Some(tree) = &self.tree {
            go(tree, &mut atoms);
        }
        atoms
    }
}

fn word(bytes: &[u8], at: usize) -> u16 {
    u16::from_le_bytes([bytes[at], bytes[at + 1]])
}

/// The five sections as the trailer has them.
struct Parts<'a> {
    tags: &'a [u8],
    productions: &'a [u8],
    nodes: &'a [u8],
    programs: &'a [u8],
    strings: &'a [u8],
    start: u16,
}

impl<'a> Parts<'a> {
    fn read(bytes: &'a [u8]) -> Option<Parts<'a>> {
        let (sections, trailer) = bytes.split_at(bytes.len() - TRAILER);
        if trailer[22..] != [0x58, 0x53] {
            return None;
        }
        let limits = [(16, 1, 64), (12, 1, 64), (6, 0, 256), (1, 0, 16_384), (1, 0, 8_192)]; // bytes of one, fewest, most
        let mut rest = sections;
        let mut found: Vec<&[u8]> = Vec::new();
        for (i, (size, fewest, most)) in limits.into_iter().enumerate() {
            let offset = word(trailer, 4 * i) as usize;
            let count = word(trailer, 4 * i + 2) as usize;
            if offset != sections.len() - rest.len() || count < fewest || count > most || size * count > rest.len() {
                return None;
            }
            let (section, after) = rest.split_at(size * count);
            found.push(section);
            rest = after;
        }
        if !rest.is_empty() {
            return None; // the trailer follows at once
        }
        let start = word(trailer, 20);
        Some(Parts { tags: found[0], productions: found[1], nodes: found[2], programs: found[3], strings: found[4], start })
    }
}

pub fn is_name_start(byte: u8) -> bool {
    byte.is_ascii_alphabetic() || byte == b'_'
}

pub fn is_name_part(byte: u8) -> bool {
    is_name_start(byte) || byte.is_ascii_digit() || byte == b'.' || byte == b'-'
}

fn read_tags(section: &[u8]) -> Option<Vec<Vec<u8>>> {
    let mut tags: Vec<Vec<u8>> = Vec::new();
    for record in section.chunks(16) {
        let length = record[0] as usize;
        if length < 1 || length > 15 {
            return None;
        }
        let (name, fill) = record[1..].split_at(length);
        let named = is_name_start(name[0]) && name.iter().all(|&b| is_name_part(b));
        if !named || fill.iter().any(|&b| b != 0) || tags.iter().any(|tag| tag == name) {
            return None;
        }
        tags.push(name.to_vec());
    }
    Some(tags)
}

/// A production's record, taken apart and not yet tested.
struct Record {
    nonterminal: u8,
    tag: u8,
    first_node: usize,
    nodes: usize,
    first: u16,
    second: u16,
    zeros: [u8; 3],
}

impl Record {
    fn read(bytes: &[u8]) -> Record {
        Record {
            nonterminal: bytes[0],
            tag: bytes[1],
            first_node: word(bytes, 2) as usize,
            nodes: bytes[4] as usize,
            first: word(bytes, 6),
            second: word(bytes, 8),
            zeros: [bytes[5], bytes[10], bytes[11]],
        }
    }
}

fn records_are_right(records: &[Record], tags: usize, nodes: usize) -> bool {
    let mut used = 0; // the runs follow each other, empty ones too
    for r in records {
        if r.nonterminal > 63 || r.tag as usize >= tags || r.first_node != used || r.nodes > 32 || r.zeros != [0; 3] {
            return false;
        }
        used += r.nodes;
    }
    used == nodes
}

/// The trees of all productions, or `None` if some node or tree is not as document 01 has it.
fn read_trees(records: &[Record], nodes: &[u8]) -> Option<Vec<Option<Node>>> {
    let mut trees = Vec::new();
    for r in records {
        let run = &nodes[6 * r.first_node..6 * (r.first_node + r.nodes)];
        if run.is_empty() {
            trees.push(None);
            continue;
        }
        let mut reader = TreeReader { run, brackets: 0, atoms: 0 };
        let tree = reader.tree(1)?;
        if 6 * reader.brackets != run.len() {
            return None; // the run is one whole tree, not a tree and something behind it
        }
        trees.push(Some(tree));
    }
    Some(trees)
}

struct TreeReader<'a> {
    run: &'a [u8],
    brackets: usize,
    atoms: usize,
}

impl TreeReader<'_> {
    fn tree(&mut self, depth: usize) -> Option<Node> {
        let record = self.run.get(6 * self.brackets..6 * self.brackets + 6)?;
        if depth > 12 {
            return None;
        }
        self.brackets += 1;
        let bracket = self.brackets;
        let (kind, argument, first, second) = (record[0], record[1], word(record, 2), word(record, 4));
        let body = match (kind, argument) {
            (1, 0..=63) => Body::Nonterminal(self.atom(), argument),
            (2, 0) => Body::Character(self.atom()),
            (3, 0) => {
                let left = self.tree(depth + 1)?;
                Body::Concatenation(Box::new(left), Box::new(self.tree(depth + 1)?))
            }
            (4, 0) => {
                let left = self.tree(depth + 1)?;
                Body::Union(Box::new(left), Box::new(self.tree(depth + 1)?))
            }
            (5, 0) => Body::Star(Box::new(self.tree(depth + 1)?)),
            (6, 0) => Body::Empty,
            _ => return None,
        };
        Some(Node { bracket, body, first, second })
    }

    fn atom(&mut self) -> usize {
        self.atoms += 1;
        self.atoms
    }
}

fn fields_are_right(records: &[Record], nodes: &[u8], programs: &BTreeMap<usize, Vec<Statement>>) -> bool {
    let of_productions = records.iter().map(|r| (r.first, r.second));
    let of_nodes = nodes.chunks(6).map(|n| (word(n, 2), word(n, 4)));
    of_productions.chain(of_nodes).all(|(first, second)| {
        let program = |field: u16| programs.get(&(field as usize));
        let first_fits = first == NONE || program(first).is_some_and(|p| !programs::has_second_only(p));
        let second_fits = second == NONE || program(second).is_some_and(|p| !programs::has_first_only(p));
        first_fits && second_fits
    })
}
