//! Programs: reading a section of them (the part of number 6 that does not speak of fields), and what they hold.

use super::state::{ATTRIBUTES, HIGHEST};
use super::tokens;
use std::collections::BTreeMap;

pub enum Statement {
    Constant { attribute: u8, value: u8 },
    Current { attribute: u8, from: u8 },
    AfterFirst { attribute: u8, from: u8 },
    Reject,
    PrintStart(u8),
    PrintEnd(u8),
    PrintText { offset: usize, length: usize },
    EchoOn,
    EchoOff,
    If(Condition, Vec<Statement>, Vec<Statement>),
}

pub enum Condition {
    Equal(Operand, Operand),
    Not(Box<Condition>),
    And(Box<Condition>, Box<Condition>),
    Or(Box<Condition>, Box<Condition>),
}

pub enum Operand {
    Constant(u8),
    Current(u8),
    AfterFirst(u8),
}

const LONGEST: usize = 256;
const DEEPEST: usize = 8;

/// The programs that fill the section, by the offsets of their starts; `None` if something is not as document 01 has it.
pub fn read(section: &[u8], tags: usize, strings: &[u8]) -> Option<BTreeMap<usize, Vec<Statement>>> {
    let mut programs = BTreeMap::new();
    let mut reader = Reader { section, at: 0, tags, strings };
    while reader.at < section.len() {
        let start = reader.at;
        let program = reader.list(0)?;
        if reader.at - start > LONGEST {
            return None;
        }
        programs.insert(start, program);
    }
    Some(programs)
}

struct Reader<'a> {
    section: &'a [u8],
    at: usize,
    tags: usize,
    strings: &'a [u8],
}

impl Reader<'_> {
    fn byte(&mut self) -> Option<u8> {
        let byte = *self.section.get(self.at)?;
        self.at += 1;
        Some(byte)
    }

    fn at_most(&mut self, most: u8) -> Option<u8> {
        self.byte().filter(|&b| b <= most)
    }

    fn attribute(&mut self) -> Option<u8> {
        self.at_most(ATTRIBUTES as u8 - 1)
    }

    fn value(&mut self) -> Option<u8> {
        self.at_most(HIGHEST)
    }

    fn tag(&mut self) -> Option<u8> {
        let tags = self.tags;
        self.byte().filter(|&t| (t as usize) < tags)
    }

    /// A list of statements with its closing 0, inside `depth` of if, not, and, or.
    fn list(&mut self, depth: usize) -> Option<Vec<Statement>> {
        let mut list = Vec::new();
        loop {
            let statement = match self.byte()? {
                0 => return Some(list),
                1 => Statement::Constant { attribute: self.attribute()?, value: self.value()? },
                2 => Statement::Current { attribute: self.attribute()?, from: self.attribute()? },
                3 => Statement::AfterFirst { attribute: self.attribute()?, from: self.attribute()? },
                4 => Statement::Reject,
                5 => Statement::PrintStart(self.tag()?),
                6 => Statement::PrintEnd(self.tag()?),
                7 => self.print()?,
                8 => Statement::EchoOn,
                9 => Statement::EchoOff,
                10 => {
                    let inside = deeper(depth)?;
                    Statement::If(self.condition(inside)?, self.list(inside)?, self.list(inside)?)
                }
                _ => return None,
            };
            list.push(statement);
        }
    }

    fn print(&mut self) -> Option<Statement> {
        let offset = u16::from_le_bytes([self.byte()?, self.byte()?]) as usize;
        let length = self.byte()? as usize;
        let printed = self.strings.get(offset..offset + length)?;
        whole_characters(printed).then_some(Statement::PrintText { offset, length })
    }

    fn condition(&mut self, depth: usize) -> Option<Condition> {
        Some(match self.byte()? {
            0 => Condition::Equal(self.operand()?, self.operand()?),
            1 => Condition::Not(Box::new(self.condition(deeper(depth)?)?)),
            2 => {
                let inside = deeper(depth)?;
                Condition::And(Box::new(self.condition(inside)?), Box::new(self.condition(inside)?))
            }
            3 => {
                let inside = deeper(depth)?;
                Condition::Or(Box::new(self.condition(inside)?), Box::new(self.condition(inside)?))
            }
            _ => return None,
        })
    }

    fn operand(&mut self) -> Option<Operand> {
        Some(match self.byte()? {
            0 => Operand::Constant(self.value()?),
            1 => Operand::Current(self.attribute()?),
            2 => Operand::AfterFirst(self.attribute()?),
            _ => return None,
        })
    }
}

fn deeper(depth: usize) -> Option<usize> {
    (depth < DEEPEST).then_some(depth + 1)
}

/// Whole UTF-8 characters, each of the Char set. `<`, `&` and `>` are of the Char set too and come out escaped.
fn whole_characters(bytes: &[u8]) -> bool {
    std::str::from_utf8(bytes).is_ok_and(|text| text.chars().all(tokens::is_char))
}

/// Whether some statement or operand is of the second visit only.
pub fn has_second_only(program: &[Statement]) -> bool {
    any(program, &|s| matches!(s, Statement::AfterFirst { .. }), &|o| matches!(o, Operand::AfterFirst(_)))
}

/// Whether some statement is of the first visit only.
pub fn has_first_only(program: &[Statement]) -> bool {
    any(program, &|s| matches!(s, Statement::EchoOn | Statement::EchoOff), &|_| false)
}

type Of<'a, T> = &'a dyn Fn(&T) -> bool;

fn any(list: &[Statement], statement: Of<Statement>, operand: Of<Operand>) -> bool {
    list.iter().any(|s| {
        statement(s)
            || match s {
                Statement::If(c, l, m) => any_operand(c, operand) || any(l, statement, operand) || any(m, statement, operand),
                _ => false,
            }
    })
}

fn any_operand(condition: &Condition, operand: Of<Operand>) -> bool {
    match condition {
        Condition::Equal(x, y) => operand(x) || operand(y),
        Condition::Not(c) => any_operand(c, operand),
        Condition::And(c, d) | Condition::Or(c, d) => any_operand(c, operand) || any_operand(d, operand),
    }
}
