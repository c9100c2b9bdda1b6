//! A running call: the sheet, the state, then token after token.

use super::programs::{Condition, Operand, Statement};
use super::sheet::{Body, Node, Production, Sheet, NONE};
use super::state::{Frame, Set, State, ATTRIBUTES, DEEPEST, MOST_VISITS, OPEN};
use super::tokens::{self, is_white_space, Answer, Event};
use super::words::{place, Symbol, Words};
use super::faults;
use std::collections::{BTreeMap, BTreeSet};

pub struct Call {
    pub number: u8,
    pub taken: usize,
    pub output: Vec<u8>,
    /// The state handed back, or `None` where it is handed back as given, to the byte.
    pub state: Option<State>,
    /// The count in the state handed back. `None` where no state could be read or tested: 1 to 9 and 29.
    pub visits: Option<u64>,
}

/// One call.
pub fn run(sheet: &[u8], state: &[u8], part: &[u8], ended: bool, room: usize) -> Call {
    let as_given = |number, visits| Call { number, taken: 0, output: Vec::new(), state: None, visits };
    let sheet = match Sheet::read(sheet) {
        Ok(sheet) => sheet,
        Err(number) => return as_given(number, None),
    };
    if let Some(fault) = faults::list(&sheet).first() {
        return as_given(fault[0], None);
    }
    let Some(state) = State::read(state).filter(|state| state.fits(&sheet)) else {
        return as_given(29, None);
    };
    match state.closing {
        OPEN => run_open(&sheet, state, part, ended, room),
        0 => as_given(28, Some(state.visits)),
        earlier => as_given(earlier, Some(state.visits)),
    }
}

/// The call on a sheet that passes and an open state that fits it.
fn run_open(sheet: &Sheet, mut state: State, part: &[u8], ended: bool, room: usize) -> Call {
    let mut taken = 0;
    let mut output = Vec::new();
    let number = loop {
        let left = &part[taken..];
        let (event, length) = match tokens::read(left, ended) {
            Answer::Token(event, length) => (event, length),
            Answer::Begun => break at_the_end(&state, left, ended),
            Answer::Bad => break 20,
            Answer::TooLong => break 21,
        };
        match step(sheet, &state, &event, room - output.len()) {
            Ok((after, printed)) => {
                state = after;
                output.extend(printed);
                taken += length;
            }
            Err(number) => break number,
        }
    };
    if number != 16 && number != 17 {
        state.closing = number;
    }
    Call { number, taken, output, visits: Some(state.visits), state: Some(state) }
}

/// The number where no whole token is left, and what is left begins one.
pub fn at_the_end(state: &State, left: &[u8], ended: bool) -> u8 {
    let root_closed = state.stack.is_empty() && state.rooted;
    match (ended, left.is_empty() && root_closed) {
        (false, _) => 16,
        (true, true) => 0,
        (true, false) => 27,
    }
}

/// One token on a copy of the state, so that a bad one changes nothing: the state after it and its output, or the number.
pub fn step(sheet: &Sheet, state: &State, event: &Event, room: usize) -> Result<(State, Vec<u8>), u8> {
    let mut run = Run { sheet, state: state.clone(), output: Vec::new(), visits: 0 };
    match event {
        Event::Literal(c) if is_white_space(*c) && run.white_space_is_no_event() => {}
        _ if run.state.stack.is_empty() && run.state.rooted => return Err(26),
        Event::Start(name) => run.start(name)?,
        Event::End(name) => run.end(name)?,
        Event::Empty(name) => {
            run.start(name)?;
            run.end(name)?;
        }
        Event::Literal(c) | Event::Reference(c) => run.character(*c)?,
    }
    // both are of this token alone, so they stay small and the sum does not overflow
    if run.state.visits + run.visits > MOST_VISITS {
        return Err(30);
    }
    run.state.visits += run.visits;
    if run.output.len() > room { Err(17) } else { Ok((run.state, run.output)) }
}

struct Run<'a> {
    sheet: &'a Sheet,
    state: State,
    output: Vec<u8>,
    /// The visits of this token.
    visits: u64,
}

impl Run<'_> {
    fn open_production(&self) -> Option<&Production> {
        self.state.stack.last().map(|frame| &self.sheet.productions[frame.production as usize])
    }

    fn white_space_is_no_event(&self) -> bool {
        match self.open_production() {
            None => true,
            Some(production) => production.tree.is_some() && !production.atoms().contains(&None),
        }
    }

    fn start(&mut self, name: &[u8]) -> Result<(), u8> {
        let sheet = self.sheet;
        let (brackets, production) = match self.open_production() {
            None => (Vec::new(), sheet.production(sheet.start, name).ok_or(23)?),
            Some(open) => {
                let atoms = open.atoms();
                let reached = |i: usize| atoms[i].and_then(|nonterminal| sheet.production(nonterminal, name));
                let targets = (0..atoms.len()).filter(|&i| reached(i).is_some()).map(|i| Symbol::Atom(i + 1)).collect();
                let brackets = self.way(&targets)?;
                let Some(Symbol::Atom(atom)) = brackets.last() else { unreachable!() };
                let production = reached(atom - 1).unwrap();
                (brackets, production)
            }
        };
        if self.state.stack.len() == DEEPEST {
            return Err(24);
        }
        self.follow(&brackets)?;
        let production_record = &sheet.productions[production];
        self.state.stack.push(Frame { production: production as u8, place: 0, sets: Vec::new() });
        self.first_visit(production_record.first)?;
        if self.state.echo {
            self.print_tag("<", production_record.tag);
        }
        Ok(())
    }

    fn end(&mut self, name: &[u8]) -> Result<(), u8> {
        let sheet = self.sheet;
        let Some(frame) = self.state.stack.last() else { return Err(22) };
        let production = &sheet.productions[frame.production as usize];
        if sheet.tags[production.tag as usize] != name {
            return Err(22);
        }
        let brackets = self.way(&[Symbol::End].into())?;
        self.follow(&brackets)?;
        let set = self.second_visit(production.second)?;
        if self.state.echo {
            self.print_tag("</", production.tag);
        }
        self.state.echo = set.echo; // last of all, so behind the echo of the end tag
        self.state.stack.pop();
        if self.state.stack.is_empty() {
            self.state.rooted = true;
        }
        Ok(())
    }

    fn character(&mut self, character: char) -> Result<(), u8> {
        let Some(open) = self.open_production() else { return Err(23) };
        let atoms = open.atoms();
        let targets = (0..atoms.len()).filter(|&i| atoms[i].is_none()).map(|i| Symbol::Atom(i + 1)).collect();
        let brackets = self.way(&targets)?;
        self.follow(&brackets)?;
        if self.state.echo {
            self.print_character(character);
        }
        Ok(())
    }

    /// The symbols from the open element's place up to and including a target; 23 if there is no such way. On a sheet that passes
    /// rule S there is at most one.
    fn way(&self, targets: &BTreeSet<Symbol>) -> Result<Vec<Symbol>, u8> {
        let words = Words::of(self.open_production().and_then(|p| p.tree.as_ref()));
        let leading = words.leading_to(targets);
        let mut way = Vec::new();
        let mut at = place(self.state.stack.last().unwrap().place as usize);
        loop {
            let choices: Vec<Symbol> = words.after(at).filter(|s| leading.contains(s)).collect();
            assert!(choices.len() <= 1, "two ways on a sheet without faults");
            at = *choices.first().ok_or(23)?;
            way.push(at);
            if targets.contains(&at) {
                return Ok(way);
            }
        }
    }

    /// Visits the nodes of a way, and moves the place to the atom it leads to.
    fn follow(&mut self, way: &[Symbol]) -> Result<(), u8> {
        let sheet = self.sheet;
        let Some(frame) = self.state.stack.last() else { return Ok(()) };
        let nodes = nodes_by_bracket(sheet.productions[frame.production as usize].tree.as_ref());
        for symbol in way {
            match symbol {
                Symbol::Open(bracket) => self.first_visit(nodes[bracket].first)?,
                Symbol::Close(bracket) => {
                    let set = self.second_visit(nodes[bracket].second)?;
                    self.state.echo = set.echo;
                }
                Symbol::Atom(atom) => self.state.stack.last_mut().unwrap().place = *atom as u8,
                Symbol::Start | Symbol::End => {}
            }
        }
        Ok(())
    }

    /// Runs a first-visit program in the frame on top, and keeps what the second visit needs.
    fn first_visit(&mut self, program: u16) -> Result<(), u8> {
        self.visits += 1;
        let echo = self.state.echo;
        self.program(program, None)?;
        let attributes = self.state.attributes;
        self.state.stack.last_mut().unwrap().sets.push(Set { attributes, echo });
        Ok(())
    }

    /// Runs a second-visit program and hands back the node's set, from which the caller returns echo.
    fn second_visit(&mut self, program: u16) -> Result<Set, u8> {
        self.visits += 1;
        let set = self.state.stack.last_mut().unwrap().sets.pop().unwrap();
        self.program(program, Some(&set.attributes))?;
        Ok(set)
    }

    fn program(&mut self, offset: u16, after_first: Option<&[u8; ATTRIBUTES]>) -> Result<(), u8> {
        let sheet = self.sheet;
        if offset == NONE { Ok(()) } else { self.statements(&sheet.programs[&(offset as usize)], after_first) }
    }

    fn statements(&mut self, list: &[Statement], after_first: Option<&[u8; ATTRIBUTES]>) -> Result<(), u8> {
        for statement in list {
            match statement {
                Statement::Constant { attribute, value } => self.state.attributes[*attribute as usize] = *value,
                Statement::Current { attribute, from } => {
                    self.state.attributes[*attribute as usize] = self.state.attributes[*from as usize];
                }
                Statement::AfterFirst { attribute, from } => {
                    self.state.attributes[*attribute as usize] = after_first.unwrap()[*from as usize];
                }
                Statement::Reject => return Err(25),
                Statement::PrintStart(tag) => self.print_tag("<", *tag),
                Statement::PrintEnd(tag) => self.print_tag("</", *tag),
                Statement::PrintText { offset, length } => {
                    let text = std::str::from_utf8(&self.sheet.strings[*offset..offset + length]).unwrap();
                    text.chars().for_each(|c| self.print_character(c));
                }
                Statement::EchoOn => self.state.echo = true,
                Statement::EchoOff => self.state.echo = false,
                Statement::If(condition, then, otherwise) => {
                    let list = if self.holds(condition, after_first) { then } else { otherwise };
                    self.statements(list, after_first)?;
                }
            }
        }
        Ok(())
    }

    fn holds(&self, condition: &Condition, after_first: Option<&[u8; ATTRIBUTES]>) -> bool {
        let value = |operand: &Operand| match operand {
            Operand::Constant(value) => *value,
            Operand::Current(attribute) => self.state.attributes[*attribute as usize],
            Operand::AfterFirst(attribute) => after_first.unwrap()[*attribute as usize],
        };
        match condition {
            Condition::Equal(x, y) => value(x) == value(y),
            Condition::Not(c) => !self.holds(c, after_first),
            Condition::And(c, d) => self.holds(c, after_first) && self.holds(d, after_first),
            Condition::Or(c, d) => self.holds(c, after_first) || self.holds(d, after_first),
        }
    }

    fn print_tag(&mut self, opening: &str, tag: u8) {
        self.output.extend(opening.as_bytes());
        self.output.extend(&self.sheet.tags[tag as usize]);
        self.output.push(b'>');
    }

    fn print_character(&mut self, character: char) {
        match character {
            '&' => self.output.extend(b"&amp;"),
            '<' => self.output.extend(b"&lt;"),
            '>' => self.output.extend(b"&gt;"),
            '\r' => self.output.extend(b"&#13;"),
            other => self.output.extend(other.to_string().as_bytes()),
        }
    }
}

fn nodes_by_bracket(tree: Option<&Node>) -> BTreeMap<usize, &Node> {
    fn go<'a>(node: &'a Node, nodes: &mut BTreeMap<usize, &'a Node>) {
        nodes.insert(node.bracket, node);
        match &node.body {
            Body::Nonterminal(..) | Body::Character(_) | Body::Empty => {}
            Body::Concatenation(left, right) | Body::Union(left, right) => {
                go(left, nodes);
                go(right, nodes);
            }
            Body::Star(inner) => go(inner, nodes),
        }
    }
    let mut nodes = BTreeMap::new();
    if let Some(tree) = tree {
        go(tree, &mut nodes);
    }
    nodes
}
