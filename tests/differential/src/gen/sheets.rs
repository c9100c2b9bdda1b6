//! Random sheets without a fault of the numbers 1 to 7; most of them can be asked to pass rules T and S too.

use super::programs::{program, Strings, Visit};
use crate::model;
use crate::plan::*;
use crate::random::Random;

const NAME_START: &[u8] = b"abcxyzABCXYZ_";
const NAME_PART: &[u8] = b"abcABC_019.-";

pub fn name(random: &mut Random) -> Vec<u8> {
    let length = *random.pick(&[1, 1, 1, 2, 2, 3, 5, 14, 15]);
    let mut name = vec![*random.pick(NAME_START)];
    while name.len() < length {
        name.push(*random.pick(NAME_PART));
    }
    name
}

/// A plan whose sheet passes the numbers 1 to 7, and T and S too if `passing`. Most are small, since two productions meet sooner there.
pub fn plan(random: &mut Random, passing: bool) -> Plan {
    let large = random.once_in(40);
    let mut plan = Plan { tags: tags(random, if large { 64 } else { 5 }), ..Plan::default() };
    let nonterminals = if large { (0..random.within(1, 21) as u8).map(|i| 3 * i).collect() } else { nonterminals(random) };
    for &nonterminal in &nonterminals {
        for _ in 0..random.within(1, 3) {
            let tag = random.below(plan.tags.len()) as u8;
            let alike = plan.productions.iter().any(|r| r.nonterminal == nonterminal && r.tag == tag);
            if !alike || !passing && random.once_in(4) {
                plan.productions.push(Rule { nonterminal, tag, expression: None, visits: Visits::default() });
            }
        }
    }
    for i in (1..plan.productions.len()).rev() {
        plan.productions.swap(i, random.below(i + 1));
    }
    plan.start = *random.pick(&nonterminals) as u16;
    for i in 0..plan.productions.len() {
        plan.productions[i].expression = content(random, &plan, i, &nonterminals, passing);
    }
    add_programs(random, &mut plan);
    plan
}

fn tags(random: &mut Random, most: usize) -> Vec<Vec<u8>> {
    let mut tags: Vec<Vec<u8>> = Vec::new();
    for _ in 0..random.within(1, most) {
        let tag = name(random);
        if !tags.contains(&tag) {
            tags.push(tag);
        }
    }
    tags
}

fn nonterminals(random: &mut Random) -> Vec<u8> {
    let mut nonterminals = Vec::new();
    for _ in 0..random.within(1, 5) {
        let nonterminal = *random.pick(&[0, 1, 2, 3, 4, 17, 62, 63]);
        if !nonterminals.contains(&nonterminal) {
            nonterminals.push(nonterminal);
        }
    }
    nonterminals
}

/// An expression for a production, tried until it has no S fault if `passing`.
fn content(random: &mut Random, plan: &Plan, production: usize, nonterminals: &[u8], passing: bool) -> Option<Expression> {
    if random.once_in(5) {
        return None;
    }
    let nodes: usize = plan.productions.iter().flat_map(|rule| &rule.expression).map(|e| e.nodes()).sum();
    for _ in 0..12 {
        let candidate = expression(random, nonterminals);
        if candidate.nodes() > 32.min(256 - nodes) || candidate.depth() > 12 {
            continue;
        }
        let mut alone = plan.clone();
        alone.productions.iter_mut().for_each(|rule| rule.expression = None);
        alone.productions[production].expression = Some(candidate.clone());
        if !passing || !model::check(&alone.bytes()).1.iter().any(|fault| fault[0] == 9) {
            return Some(candidate);
        }
    }
    None
}

fn expression(random: &mut Random, nonterminals: &[u8]) -> Expression {
    let leaves = *random.pick(&[1, 1, 2, 2, 3, 3, 4, 5, 7, 12]);
    let mut atoms: Vec<Expression> = nonterminals.iter().map(|&nonterminal| n(nonterminal)).collect();
    atoms.push(character());
    let mut pool = Vec::new();
    tree(random, leaves, &atoms, &mut pool, false)
}

/// A tree over so many leaves. Leaves are drawn without putting them back while there are any, so that many trees pass rule S.
fn tree(random: &mut Random, leaves: usize, atoms: &[Expression], pool: &mut Vec<Expression>, in_star: bool) -> Expression {
    if random.once_in(if in_star { 12 } else { 4 }) {
        return star(tree(random, leaves, atoms, pool, true));
    }
    if leaves == 1 {
        if !in_star && random.once_in(6) {
            return empty();
        }
        if pool.is_empty() {
            pool.extend(atoms.iter().cloned());
        }
        return pool.swap_remove(random.below(pool.len()));
    }
    let left_leaves = random.within(1, leaves - 1);
    let left = tree(random, left_leaves, atoms, pool, false);
    let right = tree(random, leaves - left_leaves, atoms, pool, false);
    if random.once_in(2) { then(left, right) } else { or(left, right) }
}

fn add_programs(random: &mut Random, plan: &mut Plan) {
    let strings = Strings::random(random);
    let mut firsts = vec![None];
    let mut seconds = vec![None];
    for i in 0..random.below(9) {
        let visit = *random.pick(&[Visit::First, Visit::First, Visit::Second, Visit::Both]);
        plan.programs.push(program(random, visit, plan.tags.len(), &strings));
        if visit != Visit::Second {
            firsts.push(Some(i));
        }
        if visit != Visit::First {
            seconds.push(Some(i));
        }
    }
    plan.strings = strings.bytes;
    for rule in &mut plan.productions {
        rule.visits = Visits { first: *random.pick(&firsts), second: *random.pick(&seconds) };
        if let Some(expression) = &mut rule.expression {
            add_visits(random, expression, &firsts, &seconds);
        }
    }
}

fn add_visits(random: &mut Random, expression: &mut Expression, firsts: &[Option<usize>], seconds: &[Option<usize>]) {
    if random.once_in(2) {
        expression.visits = Visits { first: *random.pick(firsts), second: *random.pick(seconds) };
    }
    match &mut expression.kind {
        Kind::Nonterminal(_) | Kind::Character | Kind::Empty => {}
        Kind::Concatenation(left, right) | Kind::Union(left, right) => {
            add_visits(random, left, firsts, seconds);
            add_visits(random, right, firsts, seconds);
        }
        Kind::Star(inner) => add_visits(random, inner, firsts, seconds),
    }
}
