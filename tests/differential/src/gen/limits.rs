//! Every limit of the sheet, met and missed by one.

use crate::model::state::{ATTRIBUTES, HIGHEST};
use crate::plan::*;

fn rule(expression: Option<Expression>) -> Rule {
    Rule { nonterminal: 0, tag: 0, expression, visits: Visits::default() }
}

pub fn one() -> Plan {
    Plan { tags: vec![b"a".to_vec()], productions: vec![rule(None)], ..Plan::default() }
}

pub fn with_program(program: Vec<u8>, strings: &[u8]) -> Vec<u8> {
    let mut plan = Plan { programs: vec![program], strings: strings.to_vec(), ..one() };
    plan.productions[0].visits.first = Some(0);
    plan.bytes()
}

pub fn with_expression(expression: Expression) -> Vec<u8> {
    let mut plan = one();
    plan.productions[0].expression = Some(expression);
    plan.bytes()
}

/// So many tags of `length` bytes each.
pub fn tags(count: usize, length: usize) -> Vec<Vec<u8>> {
    (0..count).map(|i| format!("t{i:0width$}", width = length - 1).into_bytes()).collect()
}

pub fn stars(depth: usize) -> Expression {
    (1..depth).fold(character(), |inner, _| star(inner))
}

/// A comb of concatenations and single atoms with exactly so many nodes, at most 12 deep.
pub fn nodes(count: usize) -> Expression {
    match count {
        1 => character(),
        2 => star(character()),
        _ => then(nodes((count - 1) / 2), nodes(count - 1 - (count - 1) / 2)),
    }
}

/// The fullest sheet: 27,928 bytes, with 64 programs of 256 bytes and 64 productions of 4 nodes.
pub fn fullest() -> Plan {
    let mut program = [1, ATTRIBUTES as u8 - 1, HIGHEST].repeat(85);
    program.push(0);
    let strings = "\u{10FFFF}".repeat(2048).into_bytes();
    let mut plan = Plan { tags: tags(64, 15), programs: vec![program; 64], strings, ..Plan::default() };
    for i in 0..64 {
        let expression = Some(then(n(i), star(n(63 - i))));
        plan.productions.push(Rule { nonterminal: i, tag: i, expression, visits: Visits { first: Some(i as usize), second: None } });
    }
    plan
}

pub fn nested_ifs(depth: usize) -> Vec<u8> {
    let inner = (0..depth).fold(Vec::new(), |inner, _| [&[10, 0, 0, 0, 0, 0][..], &inner, &[0, 0]].concat());
    [&inner[..], &[0]].concat()
}

/// An if, and inside its condition so many of not, and, or.
pub fn nested_conditions(depth: usize) -> Vec<u8> {
    let equal = [0, 0, 1, 1, 2];
    let condition = (0..depth).fold(equal.to_vec(), |inner, i| match i % 3 {
        0 => [&[1][..], &inner].concat(),
        1 => [&[2][..], &inner, &equal].concat(),
        _ => [&[3][..], &equal, &inner].concat(),
    });
    [&[10][..], &condition, &[0, 0, 0]].concat()
}

pub fn long_program(length: usize) -> Vec<u8> {
    let mut program = vec![5, 0].repeat((length - 1) / 2);
    if length % 2 == 0 {
        program.push(4);
    }
    program.push(0);
    program
}

/// The sheets. Which number each must get is the model's business.
pub fn sheets() -> Vec<Vec<u8>> {
    let mut sheets = sections();
    sheets.extend(trees());
    sheets.extend(programs());
    sheets.extend(statements());
    sheets.extend(prints());
    sheets.extend(names());
    sheets
}

/// The length of the sheet, the sections' counts, and the start.
fn sections() -> Vec<Vec<u8>> {
    let mut sheets = vec![vec![], vec![0; 23], vec![0; 24], one().bytes(), vec![0; 27_928], vec![0; 27_929], vec![0; 40_000]];
    for count in [0, 63, 64, 65] {
        sheets.push(Plan { tags: tags(count, 3), ..one() }.bytes());
        sheets.push(Plan { productions: vec![rule(None); count], ..one() }.bytes());
    }
    for (count, last) in [(63, 256), (64, 256), (64, 1), (65, 1)] {
        let mut programs = vec![long_program(256); count - 1];
        programs.push(long_program(last));
        sheets.push(Plan { programs, ..one() }.bytes()); // up to 16,384 and 16,385 bytes
    }
    for length in [8_191, 8_192, 8_193] {
        sheets.push(Plan { strings: vec![b'x'; length], ..one() }.bytes());
    }
    let mut over = fullest();
    sheets.push(over.bytes());
    over.strings.push(b'x');
    sheets.push(over.bytes());
    for start in [1, 63, 64, 255, 256, 65535] {
        sheets.push(Plan { start, ..one() }.bytes());
    }
    sheets
}

/// Node runs, trees, and the numbers of nonterminals and tags.
fn trees() -> Vec<Vec<u8>> {
    let mut sheets = Vec::new();
    for last in [31, 32, 33] {
        let mut plan = one();
        plan.productions = (0..8).map(|i| rule(Some(nodes(if i == 7 { last } else { 32 })))).collect();
        sheets.push(plan.bytes()); // 255, 256, 257 nodes, and a run of 33
        sheets.push(with_expression(nodes(last)));
    }
    for depth in [11, 12, 13] {
        sheets.push(with_expression(stars(depth)));
        sheets.push(with_expression((1..depth).fold(n(0), |left, _| then(left, character()))));
    }
    for nonterminal in [1, 62, 63, 64, 255] {
        sheets.push(with_expression(n(nonterminal)));
        let mut plan = one();
        plan.productions.push(Rule { nonterminal, ..rule(None) });
        sheets.push(plan.bytes());
        plan.productions[1] = Rule { tag: nonterminal, ..rule(None) };
        sheets.push(plan.bytes());
    }
    sheets
}

/// How deep a program nests and how long it is, named by a field or not.
fn programs() -> Vec<Vec<u8>> {
    let mut sheets = Vec::new();
    for depth in [7, 8, 9] {
        sheets.push(with_program(nested_ifs(depth), b""));
        sheets.push(with_program(nested_conditions(depth - 1), b""));
    }
    for length in [1, 255, 256, 257] {
        sheets.push(with_program(long_program(length), b""));
        sheets.push(Plan { programs: vec![long_program(length)], ..one() }.bytes());
    }
    sheets
}

/// Each statement, condition and operand with the highest argument and the next one, in the first visit and in the second.
fn statements() -> Vec<Vec<u8>> {
    let mut sheets = Vec::new();
    for kind in 0..=12 {
        for a in [0, 3, 4, 7, 8] {
            for v in [0, 3, 4, 7, 8, 15, 16, 63, 64] {
                let plain = [vec![kind, a, v, 0], vec![kind, a, 0], vec![kind, 0]];
                let branching = [vec![10, 0, kind, v, 1, a, 0, 0, 0], vec![10, kind, 0, a, 0, v, 0, 0, 0]];
                for program in plain.into_iter().chain(branching) {
                    let mut plan = Plan { programs: vec![program], ..one() };
                    sheets.push(plan.bytes());
                    plan.productions[0].visits.first = Some(0);
                    sheets.push(plan.bytes());
                    plan.productions[0].visits = Visits { first: None, second: Some(0) };
                    sheets.push(plan.bytes());
                }
            }
        }
    }
    sheets
}

/// Ranges at the ends of the strings, inside characters, and of what is no character of the Char set.
fn prints() -> Vec<Vec<u8>> {
    let right: [&[u8]; 5] = [b"", b"abc", "\u{20AC}\u{10FFFF}".as_bytes(), b"\xEF\xBF\xBD", b"\x7F\xC2\x85<&>"];
    let wrong: [&[u8]; 3] = [b"\xED\xA0\x80", b"\xEF\xBF\xBE", b"a\x00b"];
    let mut sheets = Vec::new();
    for text in right.into_iter().chain(wrong) {
        for offset in 0..=text.len() as u8 + 1 {
            for length in 0..=text.len() as u8 + 1 {
                sheets.push(with_program(vec![7, offset, 0, length, 0], text));
            }
        }
        sheets.push(with_program(vec![7, 0xFF, 0xFF, 1, 0], text));
        sheets.push(with_program(vec![7, 0, 1, 0, 0], text));
    }
    sheets.push(with_program(vec![7, 1, 0, 255, 0], &[b'x'; 256]));
    sheets.push(with_program(vec![7, 2, 0, 255, 0], &[b'x'; 256]));
    sheets
}

/// Tag records: each byte as a name's first, second and last, each length, and fill that is not zero.
fn names() -> Vec<Vec<u8>> {
    let mut sheets = Vec::new();
    let base = Plan { tags: vec![b"abc".to_vec(), b"abcd".to_vec()], ..one() }.bytes();
    for byte in 0..=255u8 {
        for at in [0, 1, 2, 3, 4, 15, 20] {
            let mut sheet = base.clone();
            sheet[at] = byte;
            sheets.push(sheet);
        }
    }
    sheets
}
