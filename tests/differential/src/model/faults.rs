//! Rules T and S.

use super::sheet::Sheet;
use super::words::{place, Symbol, Words};
use std::collections::{BTreeMap, BTreeSet};

const CHARACTER: u8 = 254;
const END: u8 = 255;

/// The whole list, rising by bytes, each fault once.
pub fn list(sheet: &Sheet) -> Vec<[u8; 4]> {
    let mut faults = BTreeSet::new();
    for (i, p) in sheet.productions.iter().enumerate() {
        if sheet.productions[..i].iter().any(|q| q.nonterminal == p.nonterminal && q.tag == p.tag) {
            faults.insert([8, p.nonterminal, p.tag, 0]);
        }
    }
    for production in 0..sheet.productions.len() {
        add_s_faults(sheet, production, &mut faults);
    }
    faults.into_iter().collect()
}

fn add_s_faults(sheet: &Sheet, production: usize, faults: &mut BTreeSet<[u8; 4]>) {
    let p = &sheet.productions[production];
    let words = Words::of(p.tree.as_ref());
    let atoms = p.atoms();
    for (next, targets) in next_symbols(sheet, &atoms) {
        let leading = words.leading_to(&targets);
        for at in 0..=atoms.len() {
            if two_strings(&words, place(at), &targets, &leading) {
                faults.insert([9, production as u8, at as u8, next]);
            }
        }
    }
}

/// Each next symbol, with the atoms that can be it (or the end).
pub fn next_symbols(sheet: &Sheet, atoms: &[Option<u8>]) -> BTreeMap<u8, BTreeSet<Symbol>> {
    let mut next: BTreeMap<u8, BTreeSet<Symbol>> = BTreeMap::new();
    for (i, atom) in atoms.iter().enumerate() {
        let can_be = match atom {
            Some(nonterminal) => sheet.tags_of(*nonterminal),
            None => vec![CHARACTER],
        };
        for symbol in can_be {
            next.entry(symbol).or_default().insert(Symbol::Atom(i + 1));
        }
    }
    next.entry(END).or_default().insert(Symbol::End);
    next
}

/// Whether two different bracket strings lead from a place to the targets. We follow the symbols that lead on to a target
/// (`leading`). Each of them can be completed, so where two of them may follow there are two strings, and where never more than one
/// may, there is at most one string, and it has an end. Every place lies in a word and every symbol leads to the end of one, so two
/// such strings belong to two words that agree up to the place.
fn two_strings(words: &Words, place: Symbol, targets: &BTreeSet<Symbol>, leading: &BTreeSet<Symbol>) -> bool {
    let mut at = place;
    loop {
        let choices: Vec<Symbol> = words.after(at).filter(|s| leading.contains(s)).collect();
        match choices[..] {
            [] => return false,
            [only] if targets.contains(&only) => return false,
            [only] => at = only,
            _ => return true,
        }
    }
}
