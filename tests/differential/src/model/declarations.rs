//! Element declarations of a DTD (§6). Nodes and levels are counted as the bytes come, and no shortest continuation is built: a comma or a bar adds two nodes, and asks that the depth at which its
//! node stands and the levels of its left operand are at most 12 together; so does a mark.

use crate::plan::*;

const NODES: usize = 32;
const DEEP: usize = 12;
const OPEN: usize = 32;

/// The number and what goes with it; the sheet with 0.
pub struct Told {
    pub number: u8,
    pub count: usize,
    pub sheet: Vec<u8>,
}

/// A text is refused where the reader stands, with 53 or 54; or by the grammar, where a content may begin or elsewhere.
enum Stop {
    Limit(u8),
    Content,
    Grammar,
}

/// A part of a model: what it becomes, its nodes, its levels.
struct Item {
    expression: Expression,
    nodes: usize,
    levels: usize,
}

struct Reader<'a> {
    text: &'a [u8],
    at: usize,
    names: Vec<Vec<u8>>,
    /// Of the model that is read.
    nodes: usize,
    open: usize,
}

fn is_blank(b: u8) -> bool {
    matches!(b, b' ' | b'\t' | b'\r' | b'\n')
}

fn begins_name(b: u8) -> bool {
    b.is_ascii_alphabetic() || b == b'_'
}

fn in_name(b: u8) -> bool {
    begins_name(b) || b.is_ascii_digit() || b == b'.' || b == b'-'
}

fn over(sign: u8, left: Item, right: Item) -> Item {
    let (nodes, levels) = (left.nodes + right.nodes + 1, left.levels.max(right.levels) + 1);
    let expression = if sign == b',' { then(left.expression, right.expression) } else { or(left.expression, right.expression) };
    Item { expression, nodes, levels }
}

impl Reader<'_> {
    fn peek(&self) -> Result<u8, Stop> {
        self.text.get(self.at).copied().ok_or(Stop::Grammar)
    }

    fn stands(&self, b: u8) -> bool {
        self.text.get(self.at) == Some(&b)
    }

    fn word(&mut self, word: &[u8]) -> Result<(), Stop> {
        for &b in word {
            if self.peek()? != b {
                return Err(Stop::Grammar);
            }
            self.at += 1;
        }
        Ok(())
    }

    fn blanks(&mut self) -> usize {
        let from = self.at;
        while self.text.get(self.at).is_some_and(|&b| is_blank(b)) {
            self.at += 1;
        }
        self.at - from
    }

    fn space(&mut self) -> Result<(), Stop> {
        if self.blanks() == 0 { Err(Stop::Grammar) } else { Ok(()) }
    }

    fn name(&mut self) -> Result<Vec<u8>, Stop> {
        let from = self.at;
        if !begins_name(self.peek()?) {
            return Err(Stop::Grammar);
        }
        while self.text.get(self.at).is_some_and(|&b| in_name(b)) {
            if self.at - from == 15 {
                return Err(Stop::Grammar);
            }
            self.at += 1;
        }
        Ok(self.text[from..self.at].to_vec())
    }

    fn number(&mut self, name: Vec<u8>) -> u8 {
        let place = self.names.iter().position(|other| *other == name).unwrap_or_else(|| {
            self.names.push(name);
            self.names.len() - 1
        });
        place as u8 // with over 64 names there is no sheet
    }

    /// The byte here makes so many nodes, and one that reaches down to a level.
    fn grows(&mut self, nodes: usize, deepest: usize) -> Result<(), Stop> {
        self.nodes += nodes;
        if self.nodes > NODES {
            return Err(Stop::Limit(53));
        }
        if deepest > DEEP {
            return Err(Stop::Limit(54));
        }
        self.at += 1;
        Ok(())
    }

    fn mark(&mut self, item: Item, level: usize) -> Result<Item, Stop> {
        let Item { expression, nodes, levels } = item;
        match self.text.get(self.at) {
            Some(b'?') => {
                self.grows(2, level + levels)?;
                Ok(Item { expression: or(expression, empty()), nodes: nodes + 2, levels: levels + 1 })
            }
            Some(b'*') => {
                self.grows(1, level + levels)?;
                Ok(Item { expression: star(expression), nodes: nodes + 1, levels: levels + 1 })
            }
            Some(b'+') => {
                self.grows(nodes + 2, level + 1 + levels)?;
                Ok(Item { expression: then(expression.clone(), star(expression)), nodes: 2 * nodes + 2, levels: levels + 2 })
            }
            _ => Ok(Item { expression, nodes, levels }),
        }
    }

    /// A name or a group whose node would stand at that level, and its mark.
    fn item(&mut self, level: usize) -> Result<Item, Stop> {
        if !self.stands(b'(') {
            let name = self.name()?;
            let expression = n(self.number(name));
            return self.mark(Item { expression, nodes: 1, levels: 1 }, level);
        }
        if self.open == OPEN {
            return Err(Stop::Limit(54));
        }
        self.at += 1;
        self.open += 1;
        self.blanks();
        let item = self.group(level)?;
        self.mark(item, level)
    }

    /// Behind a parenthesis and white space, up to the one that closes.
    fn group(&mut self, level: usize) -> Result<Item, Stop> {
        let mut left = self.item(level)?;
        let mut sign = None;
        loop {
            self.blanks();
            let b = self.peek()?;
            if b == b')' {
                self.at += 1;
                self.open -= 1;
                return Ok(left);
            }
            if !(b == b',' || b == b'|') || sign.is_some_and(|other| other != b) {
                return Err(Stop::Grammar);
            }
            self.grows(2, level + left.levels)?;
            sign = Some(b);
            self.blanks();
            let right = self.item(level + 1)?;
            left = over(b, left, right);
        }
    }

    /// Behind its #.
    fn mixed(&mut self) -> Result<Item, Stop> {
        self.word(b"PCDATA")?;
        self.nodes = 2;
        let mut item = Item { expression: character(), nodes: 1, levels: 1 };
        loop {
            self.blanks();
            if !self.stands(b'|') {
                break;
            }
            self.grows(2, 2 + item.levels)?;
            self.blanks();
            let name = self.name()?;
            let expression = n(self.number(name));
            item = over(b'|', item, Item { expression, nodes: 1, levels: 1 });
        }
        self.word(b")")?;
        if item.nodes > 1 || self.stands(b'*') {
            self.word(b"*")?;
        }
        Ok(Item { expression: star(item.expression), nodes: item.nodes + 1, levels: item.levels + 1 })
    }

    fn content(&mut self) -> Result<Option<Item>, Stop> {
        if self.stands(b'E') {
            return self.word(b"EMPTY").map(|()| None);
        }
        if !self.stands(b'(') {
            return Err(Stop::Content);
        }
        self.at += 1;
        self.blanks();
        (self.nodes, self.open) = (1, 1);
        if self.stands(b'#') {
            self.at += 1;
            return self.mixed().map(Some);
        }
        let group = self.group(1)?;
        self.mark(group, 1).map(Some)
    }

    /// A declaration: its name's number, its name, its content.
    fn declaration(&mut self) -> Result<(u8, Vec<u8>, Option<Item>), Stop> {
        self.word(b"<!ELEMENT")?;
        self.space()?;
        let name = self.name()?;
        self.space()?;
        let number = self.number(name.clone());
        let content = self.content()?;
        self.blanks();
        self.word(b">")?;
        Ok((number, name, content))
    }

    /// Whether a word stands `before` bytes before the reader and goes on from there, and no byte of a name follows it.
    fn word_around(&self, word: &[u8], before: usize) -> bool {
        self.at >= before && self.text[self.at - before..].starts_with(word) && !self.text.get(self.at - before + word.len()).is_some_and(|&b| in_name(b))
    }

    fn number_of(&self, stop: Stop) -> u8 {
        match stop {
            Stop::Limit(number) => return number,
            Stop::Content if self.word_around(b"ANY", 0) => return 50,
            _ => {}
        }
        let b = self.text.get(self.at);
        if b == Some(&b'%') || b == Some(&b'&') || b.is_some() && self.word_around(b"<!ENTITY", 3) {
            return 51;
        }
        if b.is_some() && self.word_around(b"<!ATTLIST", 2) { 52 } else { 55 }
    }
}

/// What a text of declarations is told, whatever the room.
pub fn read(text: &[u8]) -> Told {
    let mut reader = Reader { text, at: 0, names: Vec::new(), nodes: 0, open: 0 };
    let mut plan = Plan::default();
    let (mut nodes, mut too_much) = (0, None);
    reader.blanks();
    loop {
        let (nonterminal, name, content) = match reader.declaration() {
            Ok(declaration) => declaration,
            Err(stop) => return Told { number: reader.number_of(stop), count: reader.at, sheet: Vec::new() },
        };
        nodes += content.as_ref().map_or(0, |item| item.nodes);
        let tag = plan.tags.iter().position(|other| *other == name).unwrap_or(plan.tags.len());
        if tag == plan.tags.len() {
            plan.tags.push(name);
        }
        plan.productions.push(Rule { nonterminal, tag: tag as u8, expression: content.map(|item| item.expression), visits: Visits::default() });
        if too_much.is_none() && (plan.productions.len() > 64 || reader.names.len() > 64 || nodes > 256) {
            too_much = Some(reader.at - 1);
        }
        reader.blanks();
        if reader.at == text.len() {
            break;
        }
    }
    match too_much {
        Some(count) => Told { number: 56, count, sheet: Vec::new() },
        None => {
            let sheet = plan.bytes();
            Told { number: 0, count: sheet.len(), sheet }
        }
    }
}
