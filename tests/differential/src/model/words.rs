//! The words of a bracketed expression. Each symbol (an opening or closing bracket of a numbered node, an atom with its number)
//! stands once in the bracketed expression, so a word belongs to it exactly when it begins with a symbol that can be first, ends
//! with one that can be last, and each symbol can follow the one before it (the paper's Definition 1).

use super::sheet::{Body, Node};
use std::collections::{BTreeMap, BTreeSet};

#[derive(Clone, Copy, Debug, PartialEq, Eq, PartialOrd, Ord)]
pub enum Symbol {
    /// Before everything: what follows it can be first.
    Start,
    Open(usize),
    Atom(usize),
    Close(usize),
    /// Behind everything: it follows what can be last.
    End,
}

use Symbol::*;

impl Symbol {
    pub fn is_bracket(self) -> bool {
        matches!(self, Open(_) | Close(_))
    }
}

/// What can follow each symbol.
pub struct Words {
    follow: BTreeMap<Symbol, BTreeSet<Symbol>>,
}

/// A part of the expression from outside: the symbols that its words can begin and end with. With its brackets no part has the
/// empty word, so nothing is ever skipped.
struct Edges {
    first: BTreeSet<Symbol>,
    last: BTreeSet<Symbol>,
}

impl Words {
    pub fn of(tree: Option<&Node>) -> Words {
        let mut words = Words { follow: BTreeMap::new() };
        match tree {
            None => words.join(&[Start].into(), &[End].into()), // the empty expression has no bracket
            Some(tree) => {
                let edges = words.add(tree);
                words.join(&[Start].into(), &edges.first);
                words.join(&edges.last, &[End].into());
            }
        }
        words
    }

    /// Adds what can follow what inside a node, and gives the edges of `[i body ]i`.
    fn add(&mut self, node: &Node) -> Edges {
        let open: BTreeSet<Symbol> = [Open(node.bracket)].into();
        let close: BTreeSet<Symbol> = [Close(node.bracket)].into();
        match &node.body {
            Body::Nonterminal(atom, _) | Body::Character(atom) => {
                let atom: BTreeSet<Symbol> = [Atom(*atom)].into();
                self.join(&open, &atom);
                self.join(&atom, &close);
            }
            Body::Concatenation(left, right) => {
                let (left, right) = (self.add(left), self.add(right));
                self.join(&open, &left.first);
                self.join(&left.last, &right.first);
                self.join(&right.last, &close);
            }
            Body::Union(left, right) => {
                for side in [left, right] {
                    let side = self.add(side);
                    self.join(&open, &side.first);
                    self.join(&side.last, &close);
                }
            }
            Body::Star(inner) => {
                let inner = self.add(inner);
                self.join(&open, &close); // no round
                self.join(&open, &inner.first);
                self.join(&inner.last, &inner.first); // another round
                self.join(&inner.last, &close);
            }
            Body::Empty => self.join(&open, &close),
        }
        Edges { first: open, last: close }
    }

    fn join(&mut self, before: &BTreeSet<Symbol>, after: &BTreeSet<Symbol>) {
        for &symbol in before {
            self.follow.entry(symbol).or_default().extend(after);
        }
    }

    pub fn after(&self, symbol: Symbol) -> impl Iterator<Item = Symbol> + '_ {
        self.follow.get(&symbol).into_iter().flatten().copied()
    }

    /// The symbols from which a bracket string goes on to a target; the targets are among them.
    pub fn leading_to(&self, targets: &BTreeSet<Symbol>) -> BTreeSet<Symbol> {
        let mut leading = targets.clone();
        loop {
            let more: Vec<Symbol> = self
                .follow
                .iter()
                .filter(|(s, next)| s.is_bracket() && !leading.contains(s) && next.iter().any(|n| leading.contains(n)))
                .map(|(s, _)| *s)
                .collect();
            if more.is_empty() {
                return leading;
            }
            leading.extend(more);
        }
    }
}

pub fn place(number: usize) -> Symbol {
    if number == 0 { Start } else { Atom(number) }
}
