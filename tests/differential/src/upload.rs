//! An upload: one sheet, one stream, and calls over its parts until the state is closed. Each call is a case.

use crate::compare::{Compare, Lent, Spare};
use crate::gen::corners::Case;
use crate::gen::{damage, days, declarations, sheets, streams};
use crate::model::salvage;
use crate::model::sheet::Sheet;
use crate::model::state::{State, FRAMES, LENGTH};
use crate::random::Random;

const MOST_CALLS: usize = 24;

/// The checker on a random sheet, well-formed or damaged, with lists around the length it needs.
pub fn check(random: &mut Random, compare: &mut Compare) -> Result<(), String> {
    let passing = random.once_in(3);
    let mut sheet = sheets::plan(random, passing).bytes();
    if random.once_in(2) {
        damage::sheet(random, &mut sheet);
    }
    let needed = 4 * crate::model::check(&sheet).1.len();
    let room = match random.below(6) {
        0 => needed.saturating_sub(random.within(1, 5)),
        1 => needed,
        2 => needed + random.below(9),
        3 => random.below(16),
        _ => 1024,
    };
    compare.check(random, &sheet, room)
}

pub fn fresh(random: &mut Random, compare: &mut Compare) -> Result<(), String> {
    let room = *random.pick(&[0, 1, FRAMES - 1, FRAMES, LENGTH - 1, LENGTH, LENGTH + 1, 4000]);
    compare.fresh(random, room).map(|_| ())
}

/// Declarations, with rooms around the length that their sheet needs.
pub fn models(random: &mut Random, compare: &mut Compare) -> Result<(), String> {
    let text = declarations::text(random);
    let needed = crate::model::declarations::read(&text).sheet.len();
    let room = match random.below(6) {
        0 => needed.saturating_sub(random.within(1, 30)),
        1 => needed,
        2 => needed + random.below(9),
        _ => 3352,
    };
    compare.models(random, &text, room)
}

/// A sheet at a limit: checked, and run on one stream as a whole.
pub fn limit(random: &mut Random, compare: &mut Compare, sheet: &[u8]) -> Result<(), String> {
    compare.check(random, sheet, 65_536)?;
    let (state, part) = (State::fresh().write(), stream(random, sheet));
    compare.run(random, &Lent { sheet, state: &state, part: &part, ended: true, room: 60_000 })?;
    Ok(())
}

pub fn corner(random: &mut Random, compare: &mut Compare, case: &Case) -> Result<(), String> {
    let Case { sheet, state, part, ended, room } = case;
    compare.run(random, &Lent { sheet, state, part, ended: *ended, room: *room }).map(|_| ())
}

/// How the stream is handed over in one upload.
struct Habit {
    /// Every other part is at most so long.
    part: usize,
    /// Rooms are below this; the whole output fits into the largest.
    room: usize,
    /// Once in so many calls the state is damaged.
    damage: usize,
}

pub fn run(random: &mut Random, compare: &mut Compare) -> Result<(), String> {
    let passing = !random.once_in(30);
    let sheet = sheets::plan(random, passing).bytes();
    let stream = stream(random, &sheet);
    let habit = Habit {
        part: *random.pick(&[1, 10, 40, 200, 100_000, 100_000, 100_000, 100_000]),
        room: *random.pick(&[1, 20, 60, 60_000, 60_000, 60_000, 60_000, 60_000]),
        damage: *random.pick(&[3, 1000, 1000]),
    };
    let mut state = if random.once_in(20) { compare.fresh(random, LENGTH)? } else { State::fresh().write() };
    if random.once_in(10) {
        damage::state(random, &mut state);
    }
    let (mut at, mut wider) = (0, 0);
    for _ in 0..MOST_CALLS {
        let left = &stream[at..];
        let longest = *random.pick(&[habit.part, left.len()]);
        let part = &left[..left.len().min(random.below(longest + 1) + wider)];
        let ended = part.len() == left.len() && !random.once_in(4);
        let room = random.below(habit.room) + wider;
        let lent = Lent { sheet: &sheet, state: &state, part, ended, room };
        let (number, taken, after) = compare.run(random, &lent)?;
        if number != 16 && number != 17 {
            return after_the_end(random, compare, &Lent { state: &after, part: left, ..lent });
        }
        // with nothing taken the begun token, or the one without room, is presented again with more
        wider = if taken == 0 { 2 * wider + 1 } else { 0 };
        (at, state) = (at + taken, after);
        if random.once_in(habit.damage) {
            damage::state(random, &mut state);
        }
        if random.once_in(30) {
            aside(random, compare, &sheet, &state, &stream[at..])?;
        }
    }
    Ok(())
}

pub fn salvage_fresh(random: &mut Random, compare: &mut Compare) -> Result<(), String> {
    let room = *random.pick(&[0, 1, LENGTH, salvage::LENGTH - 1, salvage::LENGTH, salvage::LENGTH + 1]);
    compare.salvage_fresh(random, room)
}

/// A salvage run over a day of records, some of them damaged, in parts and with rooms.
pub fn salvage(random: &mut Random, compare: &mut Compare) -> Result<(), String> {
    let sheet = days::sheet(random);
    let stream = days::stream(random, &sheet);
    let longest = *random.pick(&[1, 6, 40, 100_000, 100_000]);
    let room = *random.pick(&[1, 20, 60, 60_000, 60_000, 60_000]);
    let area = *random.pick(&[0, 8, 30, 4_000, 4_000, 4_000]);
    let entries = *random.pick(&[0, 24, 47, 1_000, 1_000]);
    let harm = *random.pick(&[3, 1000, 1000]);
    let (mut state, mut waiting) = (salvage::fresh(), (0..area).map(|_| random.byte()).collect::<Vec<u8>>());
    let (mut at, mut wider) = (0, 0);
    for _ in 0..MOST_CALLS {
        let left = &stream[at..];
        let part = &left[..left.len().min(random.below(longest + 1) + wider)];
        let ended = part.len() == left.len() && !random.once_in(4);
        let lent = Lent { sheet: &sheet, state: &state, part, ended, room: random.below(room) + wider };
        let spare = Spare { waiting: &waiting, report: random.below(entries + 1) + wider };
        let (number, taken, after, left_waiting) = compare.salvage(random, &lent, &spare)?;
        if number != 16 && number != 17 {
            let again = Lent { state: &after, ..lent };
            return compare.salvage(random, &again, &Spare { waiting: &left_waiting, report: 48 }).map(|_| ());
        }
        wider = if taken == 0 { 2 * wider + 1 } else { 0 };
        (at, state, waiting) = (at + taken, after, left_waiting);
        waiting.resize(waiting.len() + wider.min(64), 0);
        if random.once_in(harm) {
            days::harm(random, &mut state);
        }
    }
    Ok(())
}

/// A stream for the sheet, damaged or not. For a sheet that is none any bytes will do.
fn stream(random: &mut Random, sheet: &[u8]) -> Vec<u8> {
    let Ok(sheet) = Sheet::read(sheet) else { return b"<a/>".to_vec() };
    let deepest = *random.pick(&[2, 3, 5, 8, 31, 33, 36]);
    let most = *random.pick(&[10, 60, 200]);
    let mut tokens = streams::stream(random, &sheet, deepest, most);
    if random.once_in(4) {
        damage::tokens(random, &sheet, &mut tokens);
    }
    let mut stream = tokens.concat();
    match random.below(16) {
        0 | 1 => damage::bytes(random, &mut stream),
        2 => damage::soup(random, &mut stream),
        _ => {}
    }
    stream
}

/// A call that follows the last: it repeats the number or gives 28, whatever it is handed.
fn after_the_end(random: &mut Random, compare: &mut Compare, lent: &Lent) -> Result<(), String> {
    if random.once_in(6) {
        let part = &lent.part[..random.below(lent.part.len() + 1)];
        let (ended, room) = (random.once_in(2), random.below(100));
        compare.run(random, &Lent { part, ended, room, ..*lent })?;
    }
    Ok(())
}

/// A call that is no part of the upload: another sheet, a damaged sheet, or a state of another length.
fn aside(random: &mut Random, compare: &mut Compare, sheet: &[u8], state: &[u8], left: &[u8]) -> Result<(), String> {
    let (mut sheet, mut state) = (sheet.to_vec(), state.to_vec());
    match random.below(4) {
        0 => sheet = sheets::plan(random, true).bytes(),
        1 => damage::sheet(random, &mut sheet),
        2 => state.truncate(random.below(LENGTH)),
        _ => state.extend(vec![0; random.within(1, 9)]),
    }
    compare.run(random, &Lent { sheet: &sheet, state: &state, part: left, ended: true, room: 60_000 }).map(|_| ())
}
