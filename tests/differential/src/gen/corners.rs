//! Calls that random uploads meet too seldom: the order of the numbers for one token, every short front, every byte of a state.

use super::streams;
use crate::model::run::run;
use crate::model::state::{State, FRAME, FRAMES, MOST_VISITS};
use crate::model::tokens::{self, Answer};
use crate::plan::*;

pub struct Case {
    pub sheet: Vec<u8>,
    pub state: Vec<u8>,
    pub part: Vec<u8>,
    pub ended: bool,
    pub room: usize,
}

pub fn cases() -> Vec<Case> {
    let mut cases = orders();
    cases.extend(empty_tags());
    cases.extend(fronts());
    cases.extend(characters());
    cases.extend(states());
    cases
}

/// The state after the beginning of a stream.
fn after(sheet: &[u8], beginning: &str) -> State {
    let call = run(sheet, &State::fresh().write(), beginning.as_bytes(), false, 1 << 16);
    assert_eq!((call.number, call.taken), (16, beginning.len()));
    call.state.unwrap()
}

/// If attribute a is 1, reject.
fn reject_if_1(a: u8) -> Vec<u8> {
    vec![10, 0, 1, a, 0, 1, 4, 0, 0]
}

fn rule(nonterminal: u8, tag: u8, expression: Option<Expression>, first: Option<usize>) -> Rule {
    Rule { nonterminal, tag, expression, visits: Visits { first, second: None } }
}

/// One token where several numbers could be given: the depth, a program that may reject in a bracket, visits left, room.
fn orders() -> Vec<Case> {
    let mut atom = n(0);
    atom.visits.first = Some(0);
    let program = [reject_if_1(0), vec![5, 0, 0]].concat();
    let sheet = Plan {
        tags: vec![b"r".to_vec(), b"s".to_vec()],
        productions: vec![rule(0, 0, Some(star(atom)), Some(1))],
        programs: vec![program, vec![8, 0]],
        ..Plan::default()
    }
    .bytes();
    let mut cases = Vec::new();
    for depth in [0, 1, 31, 32] {
        for (rejects, visits_left) in [0, 1].into_iter().flat_map(|r| [0, 1, 2, 3, 4, 5, 6, 1 << 30].map(|v| (r, v))) {
            let mut state = after(&sheet, &"<r>".repeat(depth));
            state.attributes[0] = rejects;
            state.visits = MOST_VISITS - visits_left;
            for part in ["<r>", "<r/>", "</r>", "<s>", "<s/>", "</s>", " ", "x"] {
                for room in [0, 3, 6, 12] {
                    let (sheet, state, part) = (sheet.clone(), state.write(), part.as_bytes().to_vec());
                    cases.push(Case { sheet, state, part, ended: room == 3, room });
                }
            }
        }
    }
    cases
}

/// Empty tags whose start or end may be refused: by the expression, by a program of the element, of a bracket, of its closing.
fn empty_tags() -> Vec<Case> {
    let mut optional = star(n(2));
    optional.visits.second = Some(2);
    let mut plan = Plan {
        tags: ["r", "s", "t", "u"].map(|tag| tag.as_bytes().to_vec()).to_vec(),
        productions: vec![
            rule(0, 0, Some(star(or(n(1), or(n(2), n(3))))), None),
            rule(1, 1, Some(n(2)), Some(0)), // <s/> starts and cannot end
            rule(2, 2, None, Some(0)),
            rule(3, 3, Some(optional), Some(0)),
        ],
        programs: vec![[reject_if_1(0), vec![5, 0, 0]].concat(), [reject_if_1(1), vec![6, 0, 0]].concat(), [reject_if_1(2), vec![6, 1, 0]].concat()],
        ..Plan::default()
    };
    plan.productions.iter_mut().for_each(|rule| rule.visits.second = Some(1));
    let sheet = plan.bytes();
    let mut cases = Vec::new();
    for bits in 0..8 {
        for part in ["<s/>", "<t/>", "<u/>", "<s>", "<s></s>", "<u></u>", "<s><t/></s>", "</r>", "</r> <", "</r> x"] {
            for room in [0, 3, 7, 20] {
                let mut state = after(&sheet, "<r>");
                state.attributes[..3].copy_from_slice(&[bits & 1, bits >> 1 & 1, bits >> 2 & 1]);
                let (sheet, part) = (sheet.clone(), part.as_bytes().to_vec());
                cases.push(Case { sheet, state: state.write(), part, ended: true, room });
            }
        }
    }
    cases
}

/// Every front up to five bytes of an alphabet, as far as it takes to decide it.
fn fronts() -> Vec<Case> {
    let alphabet = b"</>a1- \r\n&#x0d;lt\xED\xA0\xE2\x82\xAC\xEF\xBF\xBE\xF4\x8F\x7F\x0B";
    let sheet = Plan {
        tags: vec![b"r".to_vec(), b"a".to_vec()],
        productions: vec![rule(0, 0, Some(star(or(character(), n(1)))), Some(0)), rule(1, 1, None, None)],
        programs: vec![vec![8, 0]],
        ..Plan::default()
    }
    .bytes();
    let state = after(&sheet, "<r>").write();
    let mut begun: Vec<Vec<u8>> = vec![vec![]];
    let mut strings = begun.clone();
    for _ in 0..5 {
        let longer: Vec<Vec<u8>> = begun.iter().flat_map(|s| alphabet.iter().map(move |&b| [&s[..], &[b]].concat())).collect();
        begun = longer.iter().filter(|s| tokens::read(s, false) == Answer::Begun).cloned().collect();
        strings.extend(longer);
    }
    let case = |(i, part): (usize, Vec<u8>)| Case { sheet: sheet.clone(), state: state.clone(), part, ended: i % 2 == 0, room: 100 };
    strings.into_iter().enumerate().map(case).collect()
}

/// Each of the first characters, and others that a reader may take for something else, before, in and after the root.
fn characters() -> Vec<Case> {
    let sheet = Plan {
        tags: vec![b"r".to_vec(), b"t".to_vec()],
        productions: vec![rule(0, 0, Some(star(n(1))), Some(0)), rule(1, 1, Some(star(character())), None)],
        programs: vec![vec![8, 0]],
        ..Plan::default()
    }
    .bytes();
    let mut cases = Vec::new();
    for beginning in ["", "<r>", "<r><t>", "<r/>"] {
        let state = after(&sheet, beginning).write();
        for character in ('\0'..'\u{100}').chain(streams::EDGES).chain(['\u{2003}', '\u{3000}', '\u{FFFE}', '\u{FFFF}']) {
            let (sheet, state, part) = (sheet.clone(), state.clone(), character.to_string().into_bytes());
            cases.push(Case { sheet, state, part, ended: true, room: 100 });
        }
    }
    cases
}

/// A state three elements deep with each byte in use changed, or a frame's first three bytes, and the stream going on.
fn states() -> Vec<Case> {
    let sheet = Plan {
        tags: ["r", "a", "b"].map(|tag| tag.as_bytes().to_vec()).to_vec(),
        productions: vec![
            rule(0, 0, Some(star(n(1))), Some(0)),
            rule(1, 1, Some(then(star(n(2)), or(n(1), star(character())))), None),
            rule(2, 2, Some(star(then(character(), n(1)))), None),
        ],
        programs: vec![vec![8, 0]],
        ..Plan::default()
    }
    .bytes();
    let state = after(&sheet, "<r><a><b>x<a/>y").write();
    let changed = |at: usize, bytes: &[u8]| {
        let mut state = state.clone();
        state[at..at + bytes.len()].copy_from_slice(bytes);
        Case { sheet: sheet.clone(), state, part: b"<a/></b>z</a></r>".to_vec(), ended: true, room: 100 }
    };
    let mut cases = Vec::new();
    for at in 0..FRAMES + 3 * FRAME {
        for value in [0, 1, 2, 3, 4, 13, 14, 15, 16, 19, 20, 27, 28, 30, 31, 32, 33, 63, 64, 128, 255] {
            cases.push(changed(at, &[value]));
        }
    }
    for frame in [FRAMES, FRAMES + FRAME, FRAMES + 2 * FRAME] {
        for (production, place) in (0..4).flat_map(|production| (0..5).map(move |place| (production, place))) {
            cases.extend((1..6).map(|sets| changed(frame, &[production, place, sets])));
        }
    }
    cases
}
