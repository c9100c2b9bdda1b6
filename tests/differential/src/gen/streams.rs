//! Random streams of a sheet's grammar, as tokens, so that many are accepted.

use crate::model::sheet::{Body, Node, Production, Sheet};
use crate::random::Random;

const NEVER: usize = usize::MAX;
const SPACES: [&str; 5] = [" ", "\t", "\r", "\n", "\r\n"];
const REFERENCES: [&str; 5] = ["&amp;", "&lt;", "&gt;", "&apos;", "&quot;"];
/// References by number, and what they are written as.
pub const NUMBERS: [(&str, &str); 8] = [
    ("&#13;", "&#13;"), ("&#x00000000000000000000000000d;", "&#13;"), ("&#10;", "\n"), ("&#x20;", " "), ("&#60;", "&lt;"), ("&#x26;", "&amp;"), ("&#8364;", "\u{20AC}"),
    ("&#x10FFFF;", "\u{10FFFF}"),
];
/// Both ends of each length of UTF-8, and characters that a reader may take for something else.
pub const EDGES: [char; 18] = [
    '\u{7F}', '\u{80}', '\u{85}', '\u{7FF}', '\u{800}', '\u{2028}', '\u{20AC}', '\u{D7FF}', '\u{E000}', '\u{FEFF}', '\u{FFFD}',
    '\u{10000}', '\u{1F600}', '\u{10FFFF}', '\'', '"', '/', ';',
];

/// A character of the Char set; one that only a reference can name in a stream only if `markup`.
pub fn literal(random: &mut Random, markup: bool) -> char {
    match random.below(6) {
        0 => *random.pick(&EDGES),
        1 if markup => *random.pick(&['<', '&', '>']),
        1 => *random.pick(&[' ', '\t', '\r', '\n']),
        _ => *random.pick(&['a', 'b', 'Z', '0', '9', '_']),
    }
}

pub fn character(random: &mut Random) -> Vec<u8> {
    match random.below(8) {
        0 => random.pick(&NUMBERS).0.as_bytes().to_vec(),
        1 => random.pick(&REFERENCES).as_bytes().to_vec(),
        2 => b"\r\n".to_vec(),
        _ => literal(random, false).to_string().into_bytes(),
    }
}

/// White space before the closing `>` or `/>`; now and then so much that the token has exactly 32 bytes.
fn tag(random: &mut Random, opening: &str, name: &[u8], closing: &str) -> Vec<u8> {
    let fixed = opening.len() + name.len() + closing.len();
    let spaces = match random.below(24) {
        0 => 32usize.saturating_sub(fixed),
        1 | 2 => random.within(1, 3),
        _ => 0,
    };
    let mut token = [opening.as_bytes(), name].concat();
    token.extend((0..spaces).map(|_| *random.pick(b" \t\r\n")));
    token.extend(closing.as_bytes());
    token
}

/// A token of the sheet's tags, or a character: as it might stand at a wrong place.
pub fn stray(random: &mut Random, sheet: &Sheet) -> Vec<u8> {
    let name = random.pick(&sheet.tags).clone();
    match random.below(5) {
        0 => tag(random, "<", &name, ">"),
        1 => tag(random, "</", &name, ">"),
        2 => tag(random, "<", &name, "/>"),
        3 => tag(random, "<", b"unknown.tag-with_length", ">"),
        _ => character(random),
    }
}

/// A stream of tokens from the start. It is cut where it has `tokens` of them; below `deepest` open elements it takes the shortest way.
pub fn stream(random: &mut Random, sheet: &Sheet, deepest: usize, tokens: usize) -> Vec<Vec<u8>> {
    let heights = heights(sheet);
    let mut writer = Writer { random, sheet, heights, deepest, most: tokens, tokens: Vec::new() };
    writer.space();
    writer.element(sheet.start, 1);
    writer.space();
    writer.tokens
}

struct Writer<'a> {
    random: &'a mut Random,
    sheet: &'a Sheet,
    heights: [usize; 64],
    deepest: usize,
    most: usize,
    tokens: Vec<Vec<u8>>,
}

impl Writer<'_> {
    fn space(&mut self) {
        while self.random.once_in(5) {
            let space = self.random.pick(&SPACES).as_bytes().to_vec();
            self.tokens.push(space);
        }
    }

    fn element(&mut self, nonterminal: u8, depth: usize) {
        if self.tokens.len() >= self.most || depth > 40 {
            return;
        }
        let sheet = self.sheet;
        let mut choices: Vec<&Production> = sheet.productions.iter().filter(|p| p.nonterminal == nonterminal).collect();
        if depth >= self.deepest {
            choices.sort_by_key(|p| height(p.tree.as_ref(), &self.heights));
            choices.truncate(1);
        }
        let production = *self.random.pick(&choices);
        let name = &sheet.tags[production.tag as usize];
        let before = self.tokens.len();
        self.tokens.push(tag(self.random, "<", name, ">"));
        let spaced = production.tree.is_some() && !production.atoms().contains(&None);
        // Where the production has no nodes white space is refused.
        if spaced || production.tree.is_none() && self.random.below(40) == 0 {
            self.space();
        }
        if let Some(tree) = &production.tree {
            self.node(tree, depth, spaced);
        }
        if self.tokens.len() >= self.most {
            return;
        }
        if self.tokens.len() == before + 1 && self.random.once_in(2) {
            self.tokens[before] = tag(self.random, "<", name, "/>");
        } else {
            self.tokens.push(tag(self.random, "</", name, ">"));
        }
    }

    fn node(&mut self, node: &Node, depth: usize, spaced: bool) {
        match &node.body {
            Body::Nonterminal(_, nonterminal) => {
                self.element(*nonterminal, depth + 1);
                if spaced {
                    self.space();
                }
            }
            Body::Character(_) => {
                let character = character(self.random);
                self.tokens.push(character);
            }
            Body::Concatenation(left, right) => {
                self.node(left, depth, spaced);
                self.node(right, depth, spaced);
            }
            Body::Union(left, right) => {
                let side = if depth >= self.deepest {
                    height(Some(left), &self.heights) > height(Some(right), &self.heights)
                } else {
                    self.random.once_in(2)
                };
                self.node(if side { right } else { left }, depth, spaced);
            }
            Body::Star(inner) => {
                let rounds = if depth >= self.deepest { 0 } else { *self.random.pick(&[0, 1, 1, 2, 3]) };
                for _ in 0..rounds {
                    self.node(inner, depth, spaced);
                }
            }
            Body::Empty => {}
        }
    }
}

/// How many elements the lowest tree of each nonterminal is high.
pub fn heights(sheet: &Sheet) -> [usize; 64] {
    let mut heights = [NEVER; 64];
    for _ in 0..sheet.productions.len() {
        for p in &sheet.productions {
            let lowest = height(p.tree.as_ref(), &heights).saturating_add(1);
            let known = &mut heights[p.nonterminal as usize];
            *known = lowest.min(*known);
        }
    }
    heights
}

pub fn height(tree: Option<&Node>, heights: &[usize; 64]) -> usize {
    match tree.map(|node| &node.body) {
        None | Some(Body::Character(_) | Body::Star(_) | Body::Empty) => 0,
        Some(Body::Nonterminal(_, nonterminal)) => heights[*nonterminal as usize],
        Some(Body::Concatenation(left, right)) => height(Some(left), heights).max(height(Some(right), heights)),
        Some(Body::Union(left, right)) => height(Some(left), heights).min(height(Some(right), heights)),
    }
}
