//! Random programs, well-formed ones, and the strings they print.

use super::streams;
use crate::model::state::{ATTRIBUTES, HIGHEST};
use crate::random::Random;

/// Which visits a program may serve.
#[derive(Clone, Copy, PartialEq)]
pub enum Visit {
    First,
    Second,
    Both,
}

pub struct Strings {
    pub bytes: Vec<u8>,
    /// Where a character begins, and the end.
    boundaries: Vec<usize>,
}

impl Strings {
    pub fn random(random: &mut Random) -> Strings {
        let mut strings = Strings { bytes: Vec::new(), boundaries: vec![0] };
        for _ in 0..random.pick(&[0, 1, 5, 30]) + random.below(3) {
            strings.bytes.extend(streams::literal(random, true).to_string().into_bytes());
            strings.boundaries.push(strings.bytes.len());
        }
        strings
    }

    fn range(&self, random: &mut Random) -> (usize, usize) {
        let start = random.below(self.boundaries.len());
        let end = random.within(start, (start + 6).min(self.boundaries.len() - 1));
        (self.boundaries[start], self.boundaries[end] - self.boundaries[start])
    }
}

pub fn program(random: &mut Random, visit: Visit, tags: usize, strings: &Strings) -> Vec<u8> {
    loop {
        let mut writer = Writer { random, visit, tags, strings, bytes: Vec::new() };
        writer.list(0);
        if writer.bytes.len() <= 256 {
            return writer.bytes;
        }
    }
}

struct Writer<'a> {
    random: &'a mut Random,
    visit: Visit,
    tags: usize,
    strings: &'a Strings,
    bytes: Vec<u8>,
}

impl Writer<'_> {
    fn put(&mut self, byte: usize) {
        self.bytes.push(byte as u8);
    }

    fn attribute(&mut self) {
        let attribute = self.random.below(ATTRIBUTES);
        self.put(attribute);
    }

    /// Small values meet each other, and the highest one is met too.
    fn value(&mut self) {
        let value = *self.random.pick(&[0, 1, 1, 2, 3, HIGHEST as usize]);
        self.put(value);
    }

    fn list(&mut self, depth: usize) {
        for _ in 0..self.random.below(4) {
            self.statement(depth);
        }
        self.put(0);
    }

    fn statement(&mut self, depth: usize) {
        match self.random.below(12) {
            0 | 1 => {
                self.put(1);
                self.attribute();
                self.value();
            }
            2 | 3 => {
                let kind = if self.visit == Visit::Second && self.random.once_in(2) { 3 } else { 2 };
                self.put(kind);
                self.attribute();
                self.attribute();
            }
            4 if depth > 0 && self.random.once_in(3) => self.put(4),
            4 | 5 => self.print_tag(),
            6 | 7 => {
                let (offset, length) = self.strings.range(self.random);
                self.put(7);
                self.bytes.extend((offset as u16).to_le_bytes());
                self.put(length);
            }
            8 | 9 if self.visit == Visit::First => {
                let kind = *self.random.pick(&[8, 8, 9]);
                self.put(kind);
            }
            _ if depth < 8 => {
                self.put(10);
                self.condition(depth + 1);
                self.list(depth + 1);
                self.list(depth + 1);
            }
            _ => self.print_tag(),
        }
    }

    fn print_tag(&mut self) {
        let (kind, tag) = (5 + self.random.below(2), self.random.below(self.tags));
        self.put(kind);
        self.put(tag);
    }

    /// A condition inside `depth` of if, not, and, or.
    fn condition(&mut self, depth: usize) {
        match self.random.below(6) {
            1 if depth < 8 => {
                self.put(1);
                self.condition(depth + 1);
            }
            kind @ (2 | 3) if depth < 8 => {
                self.put(kind);
                self.condition(depth + 1);
                self.condition(depth + 1);
            }
            _ => {
                self.put(0);
                self.operand();
                self.operand();
            }
        }
    }

    fn operand(&mut self) {
        match self.random.below(5) {
            0 | 1 => {
                self.put(0);
                self.value();
            }
            2 if self.visit == Visit::Second => {
                self.put(2);
                self.attribute();
            }
            _ => {
                self.put(1);
                self.attribute();
            }
        }
    }
}
