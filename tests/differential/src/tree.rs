//! The model's run against the paper's Definition 8. A random attributed tree is walked in depth-first order: each node is visited on the
//! way in and on the way out, and the walk itself writes the stream, the output and the count of visits. The model, which only sees
//! the stream, must come to the same. Programs are run here straight from their bytes.

use crate::gen::{sheets, streams};
use crate::model::run::run;
use crate::model::sheet::{Body, Node, Sheet, NONE};
use crate::model::state::{State, ATTRIBUTES};
use crate::random::Random;

struct Walk<'a> {
    random: &'a mut Random,
    sheet: &'a Sheet,
    programs: &'a [u8],
    heights: [usize; 64],
    stream: Vec<u8>,
    output: Vec<u8>,
    attributes: [u8; ATTRIBUTES],
    echo: bool,
    visits: u64,
    /// After a reject the walk only goes on writing the stream.
    rejected: bool,
}

#[test]
fn runs_are_walks_over_trees() {
    let mut random = Random::new(28);
    let (mut accepted, mut rejected) = (0, 0);
    for _ in 0..4000 {
        let plan = sheets::plan(&mut random, true);
        let bytes = plan.bytes();
        let sheet = Sheet::read(&bytes).ok().unwrap();
        let heights = streams::heights(&sheet);
        if sheet.productions.iter().any(|p| streams::height(p.tree.as_ref(), &heights) > 20) {
            continue; // some production has no finite tree, or none that is low enough
        }
        let mut walk = Walk {
            random: &mut random,
            sheet: &sheet,
            programs: &plan.programs.concat(),
            heights,
            stream: Vec::new(),
            output: Vec::new(),
            attributes: [0; ATTRIBUTES],
            echo: false,
            visits: 0,
            rejected: false,
        };
        walk.element(sheet.start, 1);
        let call = run(&bytes, &State::fresh().write(), &walk.stream, true, 1 << 20);
        let case = format!("sheet {bytes:02x?}\nstream {}", String::from_utf8_lossy(&walk.stream));
        if walk.rejected {
            assert_eq!(call.number, 25, "{case}");
            assert!(walk.output.starts_with(&call.output), "{case}");
            rejected += 1;
        } else {
            assert_eq!((call.number, call.taken, call.visits), (0, walk.stream.len(), Some(walk.visits)), "{case}");
            assert_eq!(String::from_utf8(call.output), String::from_utf8(walk.output), "{case}");
            accepted += 1;
        }
    }
    assert!(accepted > 1000 && rejected > 50, "{accepted} accepted, {rejected} rejected");
}

impl Walk<'_> {
    fn element(&mut self, nonterminal: u8, depth: usize) {
        let sheet = self.sheet;
        let mut choices: Vec<_> = sheet.productions.iter().filter(|p| p.nonterminal == nonterminal).collect();
        if depth > 3 {
            choices.sort_by_key(|p| streams::height(p.tree.as_ref(), &self.heights));
            choices.truncate(1);
        }
        let production = *self.random.pick(&choices);
        let name = &sheet.tags[production.tag as usize];
        let (start, end) = ([b"<", &name[..], b">"].concat(), [b"</", &name[..], b">"].concat());
        self.stream.extend(&start);
        let echo_before = self.echo;
        let after_first = self.visit(production.first, None);
        self.echoed(&start);
        if let Some(tree) = &production.tree {
            self.node(tree, depth);
        }
        self.stream.extend(&end);
        self.visit(production.second, Some(after_first));
        self.echoed(&end);
        self.echo = echo_before;
    }

    fn node(&mut self, node: &Node, depth: usize) {
        let echo_before = self.echo;
        let after_first = self.visit(node.first, None);
        match &node.body {
            Body::Nonterminal(_, nonterminal) => self.element(*nonterminal, depth + 1),
            Body::Character(_) => {
                let mut character = streams::character(self.random);
                if character == b"\r" {
                    character.push(b'\n'); // alone it would be one character with an LF behind it
                }
                self.stream.extend(&character);
                let echoed = match &character[..] {
                    b"&apos;" => b"'".to_vec(),
                    b"&quot;" => b"\"".to_vec(),
                    b"\r\n" => b"\n".to_vec(),
                    other => match streams::NUMBERS.iter().find(|(spelled, _)| spelled.as_bytes() == other) {
                        Some((_, written)) => written.as_bytes().to_vec(),
                        None => other.to_vec(),
                    },
                };
                self.echoed(&echoed);
            }
            Body::Concatenation(left, right) => {
                self.node(left, depth);
                self.node(right, depth);
            }
            Body::Union(left, right) => {
                let side = self.side(left, right, depth);
                self.node(side, depth);
            }
            Body::Star(inner) => {
                for _ in 0..if depth > 3 { 0 } else { self.random.below(3) } {
                    self.node(inner, depth);
                }
            }
            Body::Empty => {}
        }
        self.visit(node.second, Some(after_first));
        self.echo = echo_before;
    }

    fn side<'n>(&mut self, left: &'n Node, right: &'n Node, depth: usize) -> &'n Node {
        let heights = [left, right].map(|side| streams::height(Some(side), &self.heights));
        let to_the_right = if depth > 3 { heights[0] > heights[1] } else { self.random.once_in(2) };
        if to_the_right { right } else { left }
    }

    /// One visit, with or without a program; gives the attributes after it.
    fn visit(&mut self, program: u16, after_first: Option<[u8; ATTRIBUTES]>) -> [u8; ATTRIBUTES] {
        self.visits += 1;
        if program != NONE && !self.rejected {
            self.list(program as usize, after_first, true);
        }
        self.attributes
    }

    fn echoed(&mut self, bytes: &[u8]) {
        if self.echo && !self.rejected {
            self.output.extend(bytes);
        }
    }

    /// Runs the list at an offset, or only goes past it; gives the offset behind its closing 0.
    fn list(&mut self, mut at: usize, after_first: Option<[u8; ATTRIBUTES]>, runs: bool) -> usize {
        loop {
            let [a, b] = [1, 2].map(|i| self.programs.get(at + i).copied().unwrap_or(0));
            let length = match self.programs[at] {
                0 => return at + 1,
                1 | 2 | 3 => 3,
                5 | 6 => 2,
                7 => 4,
                4 | 8 | 9 => 1,
                _ => {
                    let (holds, then) = self.condition(at + 1, after_first);
                    let otherwise = self.list(then, after_first, runs && holds);
                    at = self.list(otherwise, after_first, runs && !holds);
                    continue;
                }
            };
            if runs && !self.rejected {
                match self.programs[at] {
                    1 => self.attributes[a as usize] = b,
                    2 => self.attributes[a as usize] = self.attributes[b as usize],
                    3 => self.attributes[a as usize] = after_first.unwrap()[b as usize],
                    4 => self.rejected = true,
                    5 => self.output.extend([b"<", &self.sheet.tags[a as usize][..], b">"].concat()),
                    6 => self.output.extend([b"</", &self.sheet.tags[a as usize][..], b">"].concat()),
                    7 => self.text(a as usize + 256 * b as usize, self.programs[at + 3] as usize),
                    kind => self.echo = kind == 8,
                }
            }
            at += length;
        }
    }

    fn text(&mut self, offset: usize, length: usize) {
        for byte in &self.sheet.strings[offset..offset + length] {
            match byte {
                b'&' => self.output.extend(b"&amp;"),
                b'<' => self.output.extend(b"&lt;"),
                b'>' => self.output.extend(b"&gt;"),
                b'\r' => self.output.extend(b"&#13;"),
                other => self.output.push(*other),
            }
        }
    }

    fn condition(&self, at: usize, after_first: Option<[u8; ATTRIBUTES]>) -> (bool, usize) {
        let operand = |at: usize| match (self.programs[at], self.programs[at + 1]) {
            (0, value) => value,
            (1, attribute) => self.attributes[attribute as usize],
            (_, attribute) => after_first.unwrap()[attribute as usize],
        };
        match self.programs[at] {
            0 => (operand(at + 1) == operand(at + 3), at + 5),
            1 => {
                let (holds, behind) = self.condition(at + 1, after_first);
                (!holds, behind)
            }
            kind => {
                let (left, between) = self.condition(at + 1, after_first);
                let (right, behind) = self.condition(between, after_first);
                (if kind == 2 { left && right } else { left || right }, behind)
            }
        }
    }
}
