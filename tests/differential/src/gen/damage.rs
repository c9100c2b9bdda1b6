//! Damage: to sheets, streams and states.

use super::streams::stray;
use crate::model::sheet::Sheet;
use crate::model::state::{ATTRIBUTES, CLOSING, COUNT, DEPTH, FRAME, FRAMES, HIGHEST, LENGTH, MOST_VISITS, ROOTED, SET, SETS};
use crate::random::Random;

/// Changes some bytes anywhere, or the length.
pub fn bytes(random: &mut Random, bytes: &mut Vec<u8>) {
    for _ in 0..*random.pick(&[1, 1, 1, 2, 4]) {
        let at = random.below(bytes.len().max(1));
        match random.below(8) {
            0 if !bytes.is_empty() => bytes.truncate(at),
            1 if !bytes.is_empty() => {
                bytes.remove(at);
            }
            2 => bytes.insert(at, random.byte()),
            3 | 4 if !bytes.is_empty() => bytes[at] ^= 1 << random.below(8),
            5 if !bytes.is_empty() => bytes[at] = *random.pick(&[0, 1, 2, 3, 4, 5, 10, 15, 16, 63, 64, 255]),
            6 if !bytes.is_empty() => bytes[at] = bytes[at].wrapping_add(*random.pick(&[1, 255])),
            _ if !bytes.is_empty() => bytes[at] = random.byte(),
            _ => {}
        }
    }
}

/// Changes a sheet where a change is likely to meet one rule only: a word of the trailer, a production, a node, a program byte.
pub fn sheet(random: &mut Random, sheet: &mut Vec<u8>) {
    if sheet.len() < 24 {
        return bytes(random, sheet);
    }
    let trailer = sheet.len() - 24;
    let section = random.below(7);
    let within = match section {
        5 => trailer..sheet.len(),
        6 => 0..sheet.len(),
        _ => {
            let word = |at: usize| u16::from_le_bytes([sheet[trailer + at], sheet[trailer + at + 1]]) as usize;
            let size = [16, 12, 6, 1, 1][section];
            let start = word(4 * section).min(sheet.len());
            start..(start + size * word(4 * section + 2)).min(sheet.len())
        }
    };
    if within.is_empty() || random.once_in(8) {
        return bytes(random, sheet);
    }
    let at = random.within(within.start, within.end - 1);
    let old = sheet[at];
    sheet[at] = match random.below(5) {
        0 => old.wrapping_add(1),
        1 => old.wrapping_sub(1),
        2 => random.byte(),
        3 => sheet[random.within(within.start, within.end - 1)],
        _ => *random.pick(&[0, 1, 2, 3, 4, 5, 6, 7, 8, 9, 10, 15, 16, 63, 64, 255]),
    };
}

/// Bytes that are no token, or only begin one.
const WRONG: [&[u8]; 28] = [
    b">", b"<", b"&", b"&amp", b"&#0;", b"&#xD800;", b"&#x110000;", b"&#;", b"&#", b"&#x", b"&#X41;", b"&#4294967361;", b"&#xFFFF;", b"<!--", b"<?x?>", b"<a / >", b"</a/>", b"< a>", b"</ a>", b"<1>", b"\x00", b"\x0B",
    b"\xED\xA0\x80", b"\xEF\xBF\xBE", b"\xC0\x80", b"\xE2\x82", b"\xF4\x90\x80\x80", b"\xFF",
];

/// Changes the order or choice of tokens.
pub fn tokens(random: &mut Random, sheet: &Sheet, tokens: &mut Vec<Vec<u8>>) {
    let at = random.below(tokens.len() + 1);
    match random.below(9) {
        0 if at < tokens.len() => {
            tokens.remove(at);
        }
        1 if at < tokens.len() => tokens.insert(at, tokens[at].clone()),
        2 if at + 1 < tokens.len() => tokens.swap(at, at + 1),
        3 if at < tokens.len() => tokens[at] = stray(random, sheet),
        4 => tokens.insert(at, random.pick(&WRONG).to_vec()),
        5 | 6 => widen(random, tokens),
        7 => tokens.insert(at, long_number(random)),
        _ => tokens.insert(at, stray(random, sheet)),
    }
}

/// Puts bytes that stand in tokens, in any order, into a stream.
pub fn soup(random: &mut Random, stream: &mut Vec<u8>) {
    let at = random.below(stream.len() + 1);
    let alphabet = *random.pick(&[
        &b"<>/a "[..],
        b"&;ampltgquos",
        b"&&##xx000009AfdD;;",
        b"\r\n\r\n&#13;x",
        b"\xE2\x82\xAC\xF0\x9F\xED\xEF\xBF\xBD\xC2\x80\xF4\x8F",
        b"<</aA_-.0 \t\r\n>>&;\x7F\x01\xC3\xA4",
    ]);
    for _ in 0..random.within(1, 40) {
        stream.insert(at, *random.pick(alphabet));
    }
}

/// A reference by number about as long as a token may be, or the beginning of one.
fn long_number(random: &mut Random) -> Vec<u8> {
    let mark = *random.pick(&["", "x"]);
    let digits = *random.pick(&["", "1", "2", "9", "11", "32", "65", "d", "D800", "1114111", "1114112"]);
    let zeros = random.within(20, 29);
    let end = *random.pick(&["", ";"]);
    format!("&#{mark}{}{digits}{end}", "0".repeat(zeros)).into_bytes()
}

/// Makes a tag about as long as a token may be, by white space or by its name.
fn widen(random: &mut Random, tokens: &mut [Vec<u8>]) {
    let tags: Vec<usize> = (0..tokens.len()).filter(|&i| tokens[i][0] == b'<' && tokens[i].ends_with(b">")).collect();
    if tags.is_empty() {
        return;
    }
    let tag = &mut tokens[*random.pick(&tags)];
    let length = *random.pick(&[31, 32, 33, 33, 34, 40]);
    let closing = if tag.ends_with(b"/>") { tag.len() - 2 } else { tag.len() - 1 };
    let byte = *random.pick(b"  \n\ta-");
    while tag.len() < length {
        tag.insert(closing, byte);
    }
}

/// Changes a state at a place that means something, or where nothing is in use.
pub fn state(random: &mut Random, state: &mut Vec<u8>) {
    if state.len() != LENGTH {
        return;
    }
    let depth = (state[DEPTH] as usize).min(32);
    let frame = FRAMES + FRAME * random.below(depth.max(1));
    match random.below(14) {
        0 => state[random.below(ATTRIBUTES)] = *random.pick(&[0, 1, 15, HIGHEST, HIGHEST + 1, 255]),
        1 => state[ATTRIBUTES] = *random.pick(&[0, 1, 2, 255]),
        2 | 3 => {
            let near = (MOST_VISITS + 3).wrapping_sub(random.below(60) as u64);
            let count = *random.pick(&[near, near, MOST_VISITS, MOST_VISITS + 1, u64::MAX, 1 << 63]);
            state[COUNT..ROOTED].copy_from_slice(&count.to_le_bytes());
        }
        4 => state[ROOTED] = *random.pick(&[0, 1, 2, 255]),
        5 => state[CLOSING] = *random.pick(&[0, 1, 15, 16, 17, 19, 20, 21, 22, 23, 24, 25, 26, 27, 28, 29, 30, 31, 254, 255]),
        6 => state[DEPTH] = *random.pick(&[0, 1, 2, 31, 32, 33, 255]),
        7 => state[DEPTH + 1 + random.below(7)] = *random.pick(&[1, 128]),
        8 => state[frame] = state[frame].wrapping_add(*random.pick(&[1, 255, 64])),
        9 => state[frame + 1] = state[frame + 1].wrapping_add(*random.pick(&[1, 255, 2])),
        10 => state[frame + 2] = *random.pick(&[0, 1, 2, 3, 12, 13, 14, 255]),
        11 => {
            let in_use = (state[frame + 2] as usize).clamp(1, SETS);
            state[frame + 3 + random.below(SET * in_use)] = *random.pick(&[0, 1, 15, HIGHEST, HIGHEST + 1, 255]);
        }
        12 => unused(random, state, depth),
        13 if random.once_in(4) => state.iter_mut().for_each(|byte| *byte = random.byte()),
        _ => *state.get_mut(random.below(LENGTH)).unwrap() = random.byte(),
    }
}

/// Changes everything that is not in use: no answer may depend on it.
fn unused(random: &mut Random, state: &mut [u8], depth: usize) {
    for frame in 0..32 {
        let start = FRAMES + FRAME * frame;
        let in_use = if frame < depth { 3 + SET * (state[start + 2] as usize).min(SETS) } else { 0 };
        state[start + in_use..start + FRAME].iter_mut().for_each(|byte| *byte = random.byte());
    }
}
