//! Days of records for the salvage run: sheets of its shape, or nearly, streams with damaged records, and harmed states.

use super::{damage, sheets, streams};
use crate::model::salvage;
use crate::model::sheet::Sheet;
use crate::model::state;
use crate::plan::*;
use crate::random::Random;

/// A sheet whose root holds records, each of which holds what a random sheet's start is; once in a while the shape is missed.
pub fn sheet(random: &mut Random) -> Vec<u8> {
    loop {
        let mut plan = sheets::plan(random, true);
        if plan.tags.len() > 60 || plan.productions.len() > 60 || plan.productions.iter().any(|rule| rule.nonterminal == 40 || rule.nonterminal == 41) {
            continue;
        }
        put_records_around(random, &mut plan);
        if crate::model::check(&plan.bytes()).0 == 0 {
            return plan.bytes();
        }
    }
}

/// Nonterminal 40 becomes the root, 41 the record. Now and then another production has a tag or a nonterminal of theirs, and the shape is missed.
fn put_records_around(random: &mut Random, plan: &mut Plan) {
    let tag = plan.tags.len() as u8;
    plan.tags.extend([b"day-1".to_vec(), b"P".to_vec()]);
    let inner = n(plan.start as u8);
    let inside = match random.below(3) {
        0 => star(inner),
        1 => or(inner, empty()),
        _ => inner,
    };
    let echo = plan.programs.len();
    plan.programs.extend([vec![8, 0], vec![1, 0, 3, 5, tag, 0]]);
    let first = |program: usize| Visits { first: Some(program), second: None };
    let mut records: Expression = star(n(41));
    if random.once_in(3) {
        records.visits = first(echo + 1);
    }
    let root = Rule { nonterminal: 40, tag, expression: Some(records), visits: if random.once_in(6) { Visits::default() } else { first(echo) } };
    let record = Rule { nonterminal: 41, tag: tag + 1, expression: Some(inside), visits: if random.once_in(4) { first(echo + 1) } else { Visits::default() } };
    plan.productions.extend([root, record]);
    plan.start = 40;
    match random.below(24) {
        0 => plan.productions[0].tag = tag + 1,
        1 => plan.productions[0].expression = Some(star(n(41))),
        2 => plan.start = plan.productions[0].nonterminal as u16,
        _ => {}
    }
}

/// Records of the sheet, each damaged or not, between the root's tags.
pub fn stream(random: &mut Random, sheet: &[u8]) -> Vec<u8> {
    let sheet = Sheet::read(sheet).unwrap();
    let Some((root, record)) = salvage::shape(&sheet) else { return b"<a><b/></a>".to_vec() };
    let (deepest, most) = (*random.pick(&[3, 4, 8, 33]), *random.pick(&[20, 60, 200]));
    let whole = streams::stream(random, &sheet, deepest, most);
    let start = [b"<", &record[..], b">"].concat();
    let mut tokens: Vec<Vec<u8>> = Vec::new();
    for token in whole {
        let begins = token.starts_with(&start[..start.len() - 1]);
        if begins && random.once_in(6) {
            tokens.push(b"\r\n".to_vec());
        }
        tokens.push(if begins && !random.once_in(10) { start.clone() } else { token });
        if random.once_in(25) {
            tokens.push(stray(random, &sheet, &root, &record));
        }
        if random.once_in(40) {
            tokens.pop();
        }
    }
    let mut stream = tokens.concat();
    if random.once_in(6) {
        damage::bytes(random, &mut stream);
    }
    if random.once_in(10) {
        stream.truncate(random.below(stream.len() + 1));
    }
    stream
}

/// What should not stand in a record, or nearly ends one.
fn stray(random: &mut Random, sheet: &Sheet, root: &[u8], record: &[u8]) -> Vec<u8> {
    match random.below(9) {
        0 => b"&".to_vec(),
        1 => b"<".to_vec(),
        2 => [b"<", record, b">"].concat(),
        3 => [b"<", record, b" >"].concat(),
        4 => [b"<", record, b"/>"].concat(),
        5 => [b"</", root, b">"].concat(),
        6 => [b"</", root, b" >"].concat(),
        7 => [b"</", record, b">"].concat(),
        _ => streams::stray(random, sheet),
    }
}

/// Changes a byte of a salvage state: behind a state's own bytes, in its head, or anywhere; or brings its count of visits near the limit.
pub fn harm(random: &mut Random, bytes: &mut [u8]) {
    let at = match random.below(4) {
        0 => state::LENGTH + random.below(salvage::LENGTH - state::LENGTH),
        1 => random.below(state::FRAMES + 2 * state::FRAME),
        2 => state::LENGTH + random.below(26),
        _ => {
            let near = state::MOST_VISITS - random.below(60) as u64;
            bytes[state::COUNT..state::ROOTED].copy_from_slice(&near.to_le_bytes());
            return;
        }
    };
    bytes[at] = *random.pick(&[0, 1, 2, 3, 20, 25, 63, 64, 255]);
}
