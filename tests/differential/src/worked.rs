//! The model against document 01: its worked examples, its slips, its limits, and rule S read off the words themselves.

use crate::gen::limits;
use crate::model::run::{run, Call};
use crate::model::salvage;
use crate::model::sheet::{Body, Node, Sheet};
use crate::model::state::State;
use crate::model::tokens::{self, Answer, Event};
use crate::model::words::Symbol;
use crate::model::{check, faults};
use crate::plan::*;
use crate::random::Random;
use std::collections::{BTreeMap, BTreeSet};

fn rule(nonterminal: u8, tag: u8, expression: Option<Expression>) -> Rule {
    Rule { nonterminal, tag, expression, visits: Visits::default() }
}

fn names(tags: &[&str]) -> Vec<Vec<u8>> {
    tags.iter().map(|t| t.as_bytes().to_vec()).collect()
}

/// Tags r, a, b; nonterminal 0 is r with the expression, 1 is a, 2 is b, both empty.
fn over_a_and_b(expression: Expression) -> Plan {
    Plan {
        tags: names(&["r", "a", "b"]),
        productions: vec![rule(0, 0, Some(expression)), rule(1, 1, None), rule(2, 2, None)],
        ..Plan::default()
    }
}

fn faults_of(expression: Expression) -> Vec<[u8; 4]> {
    check(&over_a_and_b(expression).bytes()).1
}

fn whole(sheet: &[u8], stream: &str) -> Call {
    run(sheet, &State::fresh().write(), stream.as_bytes(), true, 65536)
}

fn said(call: &Call) -> (u8, usize, String, Option<u64>) {
    (call.number, call.taken, String::from_utf8(call.output.clone()).unwrap(), call.visits)
}

#[test]
fn worked_expressions() {
    assert_eq!(faults_of(then(star(n(1)), n(1))), [[9, 0, 0, 1], [9, 0, 1, 1]]);
    assert_eq!(faults_of(or(star(n(1)), star(n(2)))), [[9, 0, 0, 255]]);
    assert_eq!(faults_of(or(then(n(1), star(n(1))), star(n(2)))), [[0; 4]; 0]);
    assert_eq!(faults_of(star(then(star(n(1)), n(2)))), [[0; 4]; 0]);
    let places = [[9, 0, 0, 1], [9, 0, 1, 1], [9, 0, 2, 1]];
    assert_eq!(faults_of(then(then(star(or(n(1), n(2))), n(1)), star(n(1)))), places);
    assert_eq!(faults_of(then(star(or(n(1), n(2))), then(n(1), star(n(1))))), places);
    // the empty node (§6)
    assert_eq!(faults_of(or(n(1), empty())), [[0; 4]; 0]);
    assert_eq!(faults_of(or(star(n(1)), empty())), [[9, 0, 0, 255]]);
    assert_eq!(faults_of(star(or(n(1), empty()))), [[9, 0, 0, 1], [9, 0, 0, 255], [9, 0, 1, 1], [9, 0, 1, 255]]);
}

#[test]
fn worked_star_of_star() {
    let plan = Plan {
        tags: names(&["r", "a"]),
        productions: vec![rule(0, 0, Some(star(star(n(1))))), rule(1, 1, None)],
        ..Plan::default()
    };
    let list = vec![[9, 0, 0, 1], [9, 0, 0, 255], [9, 0, 1, 1], [9, 0, 1, 255]];
    assert_eq!(check(&plan.bytes()), (9, list));
}

#[test]
fn worked_books() {
    let mut plan = Plan {
        tags: names(&["bib", "book", "article"]),
        productions: vec![rule(0, 0, Some(or(n(1), n(2)))), rule(1, 1, None), rule(2, 1, None)],
        ..Plan::default()
    };
    assert_eq!(check(&plan.bytes()), (9, vec![[9, 0, 0, 1]]));
    plan.productions = vec![rule(0, 0, Some(star(n(1)))), rule(1, 1, None), rule(1, 2, None)];
    assert_eq!(check(&plan.bytes()), (0, vec![]));
    plan.productions.extend([rule(1, 2, None), rule(1, 2, None)]);
    assert_eq!(check(&plan.bytes()), (8, vec![[8, 1, 2, 0]]));
}

#[test]
fn worked_smallest_sheet() {
    let plan = Plan { tags: names(&["a"]), productions: vec![rule(0, 0, None)], ..Plan::default() };
    let mut bytes = vec![0x01, 0x61];
    bytes.resize(16, 0);
    bytes.extend([0, 0, 0, 0, 0, 0, 0xFF, 0xFF, 0xFF, 0xFF, 0, 0]);
    bytes.extend([0, 0, 1, 0, 0x10, 0, 1, 0, 0x1C, 0, 0, 0, 0x1C, 0, 0, 0, 0x1C, 0, 0, 0, 0, 0, 0x58, 0x53]);
    assert_eq!(bytes.len(), 52);
    assert_eq!(plan.bytes(), bytes);
    assert_eq!(check(&bytes), (0, vec![]));
    assert_eq!(said(&whole(&bytes, "<a/>")), (0, 4, String::new(), Some(2)));
}

/// Example 28 of the paper: books with their title, first author and year; further authors are dropped.
fn example_28() -> Plan {
    let pcdata = || Some(star(character()));
    let mut further = star(n(3));
    further.visits.first = Some(1);
    let book = then(then(then(n(2), n(3)), further), n(4));
    let mut plan = Plan {
        tags: names(&["bib", "book", "title", "author", "year"]),
        productions: vec![
            rule(0, 0, Some(star(n(1)))),
            rule(1, 1, Some(book)),
            rule(2, 2, pcdata()),
            rule(3, 3, pcdata()),
            rule(4, 4, pcdata()),
        ],
        programs: vec![vec![8, 0], vec![9, 0]],
        ..Plan::default()
    };
    plan.productions[0].visits.first = Some(0);
    plan
}

#[test]
fn worked_example_29() {
    let sheet = example_28().bytes();
    assert_eq!(check(&sheet), (0, vec![]));
    let output = "<bib><book><title></title><author></author><year></year></book></bib>";
    let stream = "<bib><book><title/><author/><author/><author/><year/></book></bib>";
    assert_eq!(said(&whole(&sheet, stream)), (0, stream.len(), output.into(), Some(46)));
    let indented = "<bib>\n  <book>\n    <title/><author/><author/><author/><year/>\n  </book>\n</bib>\n";
    assert_eq!(said(&whole(&sheet, indented)), (0, indented.len(), output.into(), Some(46)));
}

/// Example 27 of the paper, with its book program: books that do not follow an article are dropped or rejected.
fn example_27(book: Vec<u8>) -> Vec<u8> {
    let mut plan = Plan {
        tags: names(&["bib", "book", "article"]),
        productions: vec![rule(0, 0, Some(star(or(n(1), n(2))))), rule(1, 1, None), rule(2, 2, None)],
        programs: vec![vec![5, 0, 0], vec![6, 0, 0], book, vec![5, 2, 6, 2, 1, 0, 2, 0]],
        ..Plan::default()
    };
    plan.productions[0].visits = Visits { first: Some(0), second: Some(1) };
    plan.productions[1].visits.first = Some(2);
    plan.productions[2].visits.first = Some(3);
    plan.bytes()
}

#[test]
fn worked_example_27() {
    let stream = "<bib><article/><book/><book/></bib>";
    let dropping = example_27(vec![10, 0, 1, 0, 0, 2, 5, 1, 6, 1, 0, 0, 1, 0, 1, 0]); // if prev = a then print; prev := b
    let output = "<bib><article></article><book></book></bib>";
    let call = whole(&dropping, stream);
    assert_eq!((call.number, String::from_utf8(call.output).unwrap()), (0, output.to_string()));
    // if prev = a then (print; prev := b) else if prev = b then reject else prev := b
    let then_print = [10, 0, 1, 0, 0, 2, 5, 1, 6, 1, 1, 0, 1, 0];
    let or_reject = [10, 0, 1, 0, 0, 1, 4, 0, 1, 0, 1, 0, 0, 0];
    let rejecting = example_27([then_print, or_reject].concat());
    assert_eq!(check(&rejecting), (0, vec![]));
    let call = whole(&rejecting, stream);
    assert_eq!(call.number, 25);
    assert_eq!(&stream[call.taken..], "<book/></bib>");
    assert_eq!(call.output, b"<bib><article></article><book></book>");
}

fn text_sheet() -> Vec<u8> {
    let mut plan = Plan {
        tags: names(&["r", "title"]),
        productions: vec![rule(0, 0, Some(star(n(1)))), rule(1, 1, Some(star(character())))],
        programs: vec![vec![8, 0]],
        ..Plan::default()
    };
    plan.productions[0].visits.first = Some(0);
    plan.bytes()
}

#[test]
fn slips() {
    let sheet = text_sheet();
    let stream = "<r><title>a&lt;/title&gt;&amp;&apos;&quot; \u{20AC}</title><title></title> <title/></r>";
    let output = "<r><title>a&lt;/title&gt;&amp;'\" \u{20AC}</title><title></title><title></title></r>";
    let call = whole(&sheet, stream);
    assert_eq!((call.number, String::from_utf8(call.output).unwrap()), (0, output.to_string()));
    // the second visit has the values from after the first: a0 := 5 before, a0 := a0 after the first visit, if a0 = 5 then print
    let mut plan = over_a_and_b(n(1));
    plan.programs = vec![vec![1, 0, 5, 0], vec![3, 1, 0, 10, 0, 1, 1, 0, 5, 5, 2, 0, 0, 0], vec![5, 0, 4, 0], vec![1, 0, 9, 0]];
    plan.productions[0].visits = Visits { first: Some(0), second: Some(1) };
    plan.productions[1].visits = Visits { first: Some(3), second: None };
    let call = whole(&plan.bytes(), "<r><a/></r>");
    assert_eq!((call.number, call.output), (0, b"<b>".to_vec()));
    // a rejecting token's prints are not written
    plan.productions[1].visits.first = Some(2);
    let call = whole(&plan.bytes(), "<r><a/></r>");
    assert_eq!((call.number, call.taken, call.output), (25, 3, vec![]));
}

#[test]
fn limits_of_tokens_and_depth() {
    let sheet = text_sheet();
    let tag = |bytes: usize| format!("<r{}>", " ".repeat(bytes - 3));
    assert_eq!(whole(&sheet, &(tag(32) + "</r>")).number, 0);
    assert_eq!(said(&whole(&sheet, &(tag(33) + "</r>"))), (21, 0, String::new(), Some(0)));
    let plan = Plan { tags: names(&["r"]), productions: vec![rule(0, 0, Some(star(n(0))))], ..Plan::default() };
    let nested = |depth: usize| "<r>".repeat(depth) + &"</r>".repeat(depth);
    assert_eq!(whole(&plan.bytes(), &nested(32)).number, 0);
    let call = whole(&plan.bytes(), &nested(33));
    assert_eq!((call.number, call.taken), (24, 96));
    assert_eq!(call.state.unwrap().stack.len(), 32);
}

#[test]
fn places_of_refusals() {
    let sheet = text_sheet();
    let number = |stream: &str| whole(&sheet, stream).number;
    for (stream, expected) in [
        ("", 27), (" \t\r\n", 27), ("</r>", 22), ("x", 23), ("&lt;", 23), ("<title/>", 23), ("<unknown/>", 23), ("<r", 27),
        ("<r/>", 0), (" <r/> ", 0), ("<r/><r/>", 26), ("<r/>x", 26), ("<r/></r>", 26), ("<r/>>", 20), ("<r/><", 27), ("<r></title>", 22),
        ("<r>x", 23), ("<r><title><r/>", 23), ("<r><title></r>", 22), ("<a / >", 20), ("< a>", 20), ("</ a>", 20), ("</a/>", 20),
        ("\u{FEFF}<r/>", 23), ("<r><title>\u{FEFF}\u{85}\u{7F}</title></r>", 0), ("<r>\u{85}</r>", 23), ("<r>&", 27), ("<r>&x", 20),
    ] {
        assert_eq!(number(stream), expected, "{stream:?}");
    }
}

/// The change requests' section 2: line ends, and references by number.
#[test]
fn line_ends_and_numbers() {
    let sheet = text_sheet();
    let fresh = State::fresh().write();
    let title = |text: &str| format!("<r><title>{text}</title></r>");
    for (text, written) in [
        ("x\r\ny\rz\n", "x\ny\nz\n"), ("\r\r\n\n", "\n\n\n"), ("&#13;&#10;&#xd;\r", "&#13;\n&#13;\n"), ("&#13;\n", "&#13;\n"), ("\r&#10;", "\n\n"),
        ("&#32;&#9;", " \t"), ("&#60;&#38;&#x3E;", "&lt;&amp;&gt;"), ("&#x20aC;&#8364;", "\u{20AC}\u{20AC}"), ("&#00000000000000000000000000065;", "A"),
    ] {
        let call = whole(&sheet, &title(text));
        assert_eq!((call.number, call.output), (0, title(written).into_bytes()), "{text:?}");
    }
    let ended = |part: &str, ended: bool| {
        let call = run(&sheet, &fresh, part.as_bytes(), ended, 100);
        (call.number, call.taken)
    };
    assert_eq!((ended("<r/>\r", false), ended("<r/>\r", true), ended("<r>\r", true)), ((16, 4), (0, 5), (27, 4)));
    assert_eq!((ended("<r><title>\r", false), ended("<r>&#32;</r>", true), ended("&#32;<r/>", true), ended("<r/>&#10;", true)), ((16, 10), (23, 3), (23, 0), (26, 4)));
    for (text, expected) in [
        ("&#0;", 20), ("&#xD800;", 20), ("&#xFFFE;", 20), ("&#x110000", 20), ("&#X41;", 20), ("&#;", 20), ("&#x;", 20), ("&#+1;", 20), ("&#4294967361;", 20), ("&#xD800", 16),
        ("&#11", 16), ("&#", 16), ("&#x", 16), ("&#0000000000000000000000000000", 16), ("&#00000000000000000000000000000", 21), ("&#0000000000000000000000000001", 16),
        ("&#0000000000000000000000000002", 21), ("&#x000000000000000000000000001", 21), ("&#000000000000000000000000000065;", 21),
    ] {
        assert_eq!(ended(&format!("<r><title>{text}"), false), (expected, 10), "{text}");
    }
}

#[test]
fn parts_rooms_and_repeats() {
    let sheet = text_sheet();
    let fresh = State::fresh().write();
    let call = run(&sheet, &fresh, b"<r><tit", false, 3);
    assert_eq!((call.number, call.taken, &call.output[..]), (16, 3, &b"<r>"[..]));
    let state = call.state.unwrap().write();
    let short = run(&sheet, &state, b"<title></title>", false, 14);
    assert_eq!((short.number, short.taken, short.output.len(), short.visits), (17, 7, 7, Some(6 - 2)));
    let none = run(&sheet, &state, b"<title/></r>", true, 0);
    assert_eq!((none.number, none.taken, none.state.unwrap().write() == state), (17, 0, true));
    let done = run(&sheet, &state, b"<title/></r>", true, 100);
    assert_eq!((done.number, done.taken, done.visits), (0, 12, Some(10)));
    let done = done.state.unwrap().write();
    assert_eq!(run(&sheet, &done, b"", true, 0).number, 28);
    let bad = run(&sheet, &state, b"<title/>x", false, 100).state.unwrap().write();
    let again = run(&sheet, &bad, b"</r>", true, 100);
    assert_eq!((again.number, again.taken, again.state.is_none()), (23, 0, true));
}

#[test]
fn the_count_ends_at_two_to_the_62() {
    let sheet = text_sheet();
    let mut state = State::fresh();
    state.visits = (1 << 62) - 4; // <r/> has the root's two visits and the star's two
    assert_eq!(run(&sheet, &state.write(), b"<r/>", true, 100).number, 0);
    state.visits += 1;
    let call = run(&sheet, &state.write(), b"<r/>", true, 0);
    assert_eq!((call.number, call.taken, call.visits), (30, 0, Some(state.visits)));
    assert_eq!(run(&sheet, &call.state.unwrap().write(), b"<r/>", true, 100).number, 30);
    state.visits = (1 << 62) + 1;
    assert_eq!(run(&sheet, &state.write(), b"<r/>", true, 100).number, 29);
}

#[test]
fn limits_of_the_sheet() {
    let number = |bytes: &[u8]| check(bytes).0;
    let fullest = limits::fullest();
    assert_eq!((fullest.bytes().len(), number(&fullest.bytes())), (27_928, 0));
    assert_eq!((number(&[0; 23]), number(&[0; 24]), number(&[0; 27_928]), number(&[0; 27_929])), (1, 2, 2, 1));
    let one = limits::one;
    let tags = |count: usize| number(&Plan { tags: limits::tags(count, 3), ..one() }.bytes());
    assert_eq!((tags(0), tags(64), tags(65)), (2, 0, 2));
    let strings = |length: usize| number(&Plan { strings: vec![0; length], ..one() }.bytes());
    assert_eq!((strings(8_192), strings(8_193)), (0, 2));
    let programs = |count: usize| number(&Plan { programs: vec![vec![0]; count], ..one() }.bytes());
    assert_eq!((programs(16_384), programs(16_385)), (0, 2));
    let start = |start: u16| number(&Plan { start, ..one() }.bytes());
    assert_eq!((start(0), start(1), start(63), start(64), start(256)), (0, 7, 7, 4, 4));
    let tree = |expression: Expression| number(&limits::with_expression(expression));
    assert_eq!((tree(limits::nodes(33)), tree(limits::stars(13)), tree(n(63)), tree(n(64))), (4, 5, 7, 5));
    assert!([0, 9].contains(&tree(limits::nodes(32))) && tree(limits::stars(12)) == 9);
    let program = |program: Vec<u8>| number(&limits::with_program(program, b"\xE2\x82\xAC"));
    assert_eq!((program(limits::long_program(256)), program(limits::long_program(257))), (0, 6));
    assert_eq!((program(limits::nested_ifs(8)), program(limits::nested_ifs(9))), (0, 6));
    assert_eq!((program(limits::nested_conditions(7)), program(limits::nested_conditions(8))), (0, 6));
    let print = |offset: u8, length: u8| program(vec![7, offset, 0, length, 0]);
    assert_eq!([print(0, 3), print(0, 2), print(1, 2), print(1, 0), print(3, 0), print(4, 0), print(3, 1)], [0, 6, 6, 0, 0, 6, 6]);
    assert_eq!([program(vec![3, 0, 0, 0]), program(vec![10, 0, 2, 0, 0, 0, 0, 0, 0]), program(vec![])], [6, 6, 6]);
}

#[test]
fn states_that_do_not_fit() {
    let sheet = example_28().bytes();
    let given = run(&sheet, &State::fresh().write(), b"<bib><book><title/><author>x", false, 100).state.unwrap().write();
    let number = |at: usize, byte: u8| {
        let mut state = given.clone();
        state[at] = byte;
        run(&sheet, &state, b"", false, 0).number
    };
    let (root, book, author) = (27, 147, 267); // the frames of <bib>, <book> and <author>
    for (at, byte, expected) in [
        (0, 63, 16), (3, 64, 29), (7, 63, 16), (7, 64, 29), (8, 7, 16), (16, 0x3F, 16), (16, 0x40, 29), (17, 9, 16), (18, 0, 28), (18, 1, 29), (18, 20, 20),
        (18, 27, 27), (18, 28, 29), (18, 30, 30), (18, 254, 29), (19, 2, 16), (19, 33, 29), (20, 1, 29), (26, 128, 29), (root, 1, 29), (root, 5, 29),
        (root + 1, 0, 29), (root + 1, 2, 29), (root + 2, 2, 29), (root + 2, 14, 29), (book, 2, 29), (book + 1, 1, 29), (author, 2, 29),
        (author + 1, 0, 29), (author + 1, 2, 29), (author + 3, 63, 16), (author + 3, 64, 29), (author + 10, 64, 29),
        (author + 3 + 9 * 3, 64, 16), (author + 120, 99, 16),
    ] {
        assert_eq!(number(at, byte), expected, "byte {at} is {byte}");
    }
    assert_eq!(run(&sheet, &given[1..], b"", false, 0).number, 29);
    assert_eq!(run(&sheet, &[&given[..], &[0]].concat(), b"", false, 0).number, 29);
}

#[test]
fn a_state_is_written_as_it_is_read() {
    let sheet = example_28().bytes();
    let call = run(&sheet, &State::fresh().write(), b"<bib><book><title/><author>x", false, 100);
    let state = call.state.unwrap();
    assert_eq!(State::read(&state.write()).as_ref(), Some(&state));
    assert!(state.fits(&Sheet::read(&sheet).ok().unwrap()));
    assert_eq!(state.stack.iter().map(|f| (f.place, f.sets.len())).collect::<Vec<_>>(), [(1, 3), (2, 5), (1, 3)]);
}

#[test]
fn every_beginning_of_a_character_begins_one_of_the_char_set() {
    let mut beginnings = BTreeSet::new();
    for c in ('\0'..=char::MAX).filter(|&c| tokens::is_char(c) && !"<&>\r".contains(c)) {
        let bytes = c.to_string().into_bytes();
        assert_eq!(tokens::read(&bytes, false), Answer::Token(Event::Literal(c), bytes.len()));
        (1..bytes.len()).for_each(|length| {
            beginnings.insert(bytes[..length].to_vec());
        });
    }
    for a in 0..=255u8 {
        for b in 0..=255u8 {
            for front in [vec![a], vec![a, b], vec![a, b, 0x80], vec![a, b, 0xBF], vec![0xF0, a, b], vec![0xF4, a, b]] {
                let begun = beginnings.contains(&front) || front[0] == b'<' || front[0] == b'&' || front == b"\r";
                assert!(tokens::read(&front, false) != Answer::Begun || begun, "{front:?}");
                assert!(tokens::read(&front, false) == Answer::Begun || !beginnings.contains(&front), "{front:?}");
            }
        }
    }
}

/// Rule S as it is written: all words up to a length, and each two of them.
#[test]
fn rule_s_by_listing_words() {
    let mut random = Random::new(7);
    let mut with_faults = 0;
    for _ in 0..300 {
        let expression = small(&mut random, 3);
        if expression.nodes() > 6 {
            continue;
        }
        let bytes = over_a_and_b(expression).bytes();
        let sheet = Sheet::read(&bytes).ok().unwrap();
        let listed = faults_by_words(&sheet);
        assert_eq!(faults::list(&sheet).into_iter().collect::<BTreeSet<_>>(), listed, "{bytes:02x?}");
        with_faults += !listed.is_empty() as usize;
    }
    assert!(with_faults > 50);
}

fn small(random: &mut Random, depth: usize) -> Expression {
    match if depth == 0 { random.below(4) } else { random.below(8) } {
        0 => n(1),
        1 => n(2),
        2 => character(),
        3 => empty(),
        4 => then(small(random, depth - 1), small(random, depth - 1)),
        5 => or(small(random, depth - 1), small(random, depth - 1)),
        _ => star(small(random, depth - 1)),
    }
}

fn faults_by_words(sheet: &Sheet) -> BTreeSet<[u8; 4]> {
    let production = &sheet.productions[0];
    let next_of: BTreeMap<u8, BTreeSet<Symbol>> = faults::next_symbols(sheet, &production.atoms());
    let words = words_of(production.tree.as_ref().unwrap(), 22); // two rounds of the longest of six nodes
    // for each beginning up to a place: the bracket strings that go on to each next symbol
    let mut strings: BTreeMap<(Vec<Symbol>, u8), BTreeSet<Vec<Symbol>>> = BTreeMap::new();
    for word in &words {
        let atoms: Vec<usize> = (0..word.len()).filter(|&i| matches!(word[i], Symbol::Atom(_))).collect();
        for k in 0..=atoms.len() {
            let beginning = if k == 0 { 0 } else { atoms[k - 1] + 1 };
            let end = atoms.get(k).copied().unwrap_or(word.len());
            let reached = word.get(end).copied().unwrap_or(Symbol::End);
            for (next, _) in next_of.iter().filter(|(_, targets)| targets.contains(&reached)) {
                strings.entry((word[..beginning].to_vec(), *next)).or_default().insert(word[beginning..end].to_vec());
            }
        }
    }
    let place = |beginning: &[Symbol]| match beginning.last() {
        Some(Symbol::Atom(atom)) => *atom as u8,
        _ => 0,
    };
    strings.iter().filter(|(_, s)| s.len() > 1).map(|((beginning, next), _)| [9, 0, place(beginning), *next]).collect()
}

/// The words of a node up to a length, from the definition: `[i`, a word of what the node's kind makes of its children's, `]i`.
fn words_of(node: &Node, longest: usize) -> BTreeSet<Vec<Symbol>> {
    let Some(room) = longest.checked_sub(2) else { return BTreeSet::new() };
    let inner: BTreeSet<Vec<Symbol>> = match &node.body {
        Body::Nonterminal(atom, _) | Body::Character(atom) => [vec![Symbol::Atom(*atom)]].into(),
        Body::Concatenation(left, right) => joined(&words_of(left, room), &words_of(right, room), room),
        Body::Union(left, right) => words_of(left, room).union(&words_of(right, room)).cloned().collect(),
        Body::Star(inner) => {
            let round = words_of(inner, room);
            let mut rounds: BTreeSet<Vec<Symbol>> = [vec![]].into();
            loop {
                let more: BTreeSet<_> = rounds.union(&joined(&rounds, &round, room)).cloned().collect();
                if more.len() == rounds.len() {
                    break rounds;
                }
                rounds = more;
            }
        }
        Body::Empty => [vec![]].into(),
    };
    let open = [vec![Symbol::Open(node.bracket)]].into();
    let close = [vec![Symbol::Close(node.bracket)]].into();
    joined(&joined(&open, &inner, longest), &close, longest)
}

fn joined(left: &BTreeSet<Vec<Symbol>>, right: &BTreeSet<Vec<Symbol>>, longest: usize) -> BTreeSet<Vec<Symbol>> {
    let pairs = left.iter().flat_map(|l| right.iter().map(move |r| [&l[..], &r[..]].concat()));
    pairs.filter(|word| word.len() <= longest).collect()
}

/// day, echoed, holds p*; p holds t; t holds characters.
fn day() -> Vec<u8> {
    let mut root = rule(0, 0, Some(star(n(1))));
    root.visits.first = Some(0);
    Plan {
        tags: names(&["day", "p", "t"]),
        productions: vec![root, rule(1, 1, Some(n(2))), rule(2, 2, Some(star(character())))],
        programs: vec![vec![8, 0]],
        ..Plan::default()
    }
    .bytes()
}

#[test]
fn worked_salvage() {
    let (one, two) = ("<day><p><t>A</t></p>", "<p><t>C</t></p></day>");
    let kept = format!("{one}{two}");
    let rows = [
        ("<day>\n<p><t>A</t></p>\n<p><t>B<t></p>\n<p><t>C</t></p>\n</day>\n", 0, &kept[..], 28, vec![(22, 36, 23)]),
        ("<day>\n<p><t>A</t></p>\n<p><t>B</t>\n<p><t>C</t></p>\n</day>\n", 0, &kept[..], 28, vec![(22, 33, 23)]),
        ("<day><p><t>A</t></p><p><t>B<p/><p ><t>C</t></p></day>", 0, "<day><p><t>A</t></p></day>", 16, vec![(20, 46, 23)]),
        ("<day><p><t>A</t></p><p><t>B", 27, one, 13, vec![(20, 26, 27)]),
        ("<day><p><t>A</t></p><p><t>B<x></p> </day >", 27, one, 13, vec![(20, 41, 23)]),
        ("<day><p><t>A</t></p></p><p><t>B</t></p></day>", 22, one, 13, vec![]),
    ];
    for (stream, number, output, visits, report) in rows {
        let call = salvage::salvage(&day(), &salvage::fresh(), stream.as_bytes(), true, 1000, &[0; 100], 10);
        let told: Vec<(u64, u64, u8)> = call.report.iter().map(|lost| (lost.first, lost.last, lost.number)).collect();
        let answer = (call.number, String::from_utf8(call.output).unwrap(), call.visits, told);
        assert_eq!(answer, (number, output.to_string(), Some(visits), report), "{stream}");
    }
}

fn declared(text: &str) -> (u8, usize) {
    let told = crate::model::declarations::read(text.as_bytes());
    (told.number, told.count)
}

fn row(count: usize, sign: &str) -> String {
    (0..count).map(|i| format!("n{i}")).collect::<Vec<_>>().join(sign)
}

#[test]
fn worked_declarations() {
    let told = [
        ("<!ELEMENT a ANY>", (50, 12)), ("<!ELEMENT a ANYTHING>", (55, 12)), ("<!ENTITY x 'y'>", (51, 3)), ("<!ELEMENT a (%x;)>", (51, 13)),
        ("<!ATTLIST a b CDATA #IMPLIED>", (52, 2)), ("<!ELEMENT a ((((b)+)+)+)+>", (53, 24)), ("", (55, 0)), ("<!ELEMENT a (b,c|d)>", (55, 16)),
        ("<!ELEMENT a (#PCDATA|b)>", (55, 23)), ("<!ELEMENT a (b) *>", (55, 16)), ("<!ELEMENT a(b)>", (55, 11)), ("<!ELEMENT a ()>", (55, 13)),
        ("<!ELEMENT name (year,title,author+)>", (0, 100)), ("<!ELEMENT a EMPTY>", (0, 52)), ("<!ELEMENT a (#PCDATA|a|b)*>", (0, 88)), ("<!ELEMENT a (a?)>", (0, 70)),
    ];
    for (text, answer) in told {
        assert_eq!(declared(text), answer, "{text}");
    }
    for sign in [",", "|"] {
        let thirteen = format!("<!ELEMENT a ({})>", row(13, sign));
        assert_eq!(declared(&thirteen), (54, thirteen.rfind(sign).unwrap()));
        assert_eq!(declared(&format!("<!ELEMENT a ({})>", row(12, sign))).0, 0);
    }
    let mixed = |count: usize| declared(&format!("<!ELEMENT a (#PCDATA|{})*>", row(count, "|"))).0;
    let repeated = |count: usize| declared(&format!("<!ELEMENT a ({})+>", row(count, ","))).0;
    let nested = |count: usize| declared(&format!("<!ELEMENT a {}b{}>", "(".repeat(count), ")".repeat(count)));
    assert_eq!((mixed(10), mixed(11), repeated(8), repeated(9)), (0, 54, 0, 53));
    assert_eq!((nested(32).0, nested(33)), (0, (54, 44)));
    assert_eq!((declared(&"<!ELEMENT a EMPTY>".repeat(64)).0, declared(&"<!ELEMENT a EMPTY>".repeat(65))), (0, (56, 18 * 65 - 1)));
}
