//! A sheet as a description, and its bytes. The worked examples and the random sheets are written with it.

#[derive(Clone, Debug, Default)]
pub struct Plan {
    pub tags: Vec<Vec<u8>>,
    pub productions: Vec<Rule>,
    pub programs: Vec<Vec<u8>>,
    pub strings: Vec<u8>,
    pub start: u16,
}

#[derive(Clone, Debug)]
pub struct Rule {
    pub nonterminal: u8,
    pub tag: u8,
    /// `None` is the empty expression.
    pub expression: Option<Expression>,
    pub visits: Visits,
}

/// The programs of a first and a second visit, by their index in the plan.
#[derive(Clone, Copy, Debug, Default, PartialEq)]
pub struct Visits {
    pub first: Option<usize>,
    pub second: Option<usize>,
}

#[derive(Clone, Debug)]
pub struct Expression {
    pub kind: Kind,
    pub visits: Visits,
}

#[derive(Clone, Debug)]
pub enum Kind {
    Nonterminal(u8),
    Character,
    Concatenation(Box<Expression>, Box<Expression>),
    Union(Box<Expression>, Box<Expression>),
    Star(Box<Expression>),
    Empty,
}

impl From<Kind> for Expression {
    fn from(kind: Kind) -> Expression {
        Expression { kind, visits: Visits::default() }
    }
}

pub fn n(nonterminal: u8) -> Expression {
    Kind::Nonterminal(nonterminal).into()
}
pub fn character() -> Expression {
    Kind::Character.into()
}
pub fn then(left: Expression, right: Expression) -> Expression {
    Kind::Concatenation(Box::new(left), Box::new(right)).into()
}
pub fn or(left: Expression, right: Expression) -> Expression {
    Kind::Union(Box::new(left), Box::new(right)).into()
}
pub fn star(inner: Expression) -> Expression {
    Kind::Star(Box::new(inner)).into()
}
pub fn empty() -> Expression {
    Kind::Empty.into()
}

impl Expression {
    pub fn children(&self) -> Vec<&Expression> {
        match &self.kind {
            Kind::Nonterminal(_) | Kind::Character | Kind::Empty => vec![],
            Kind::Concatenation(left, right) | Kind::Union(left, right) => vec![left, right],
            Kind::Star(inner) => vec![inner],
        }
    }

    pub fn nodes(&self) -> usize {
        1 + self.children().iter().map(|c| c.nodes()).sum::<usize>()
    }

    pub fn depth(&self) -> usize {
        1 + self.children().iter().map(|c| c.depth()).max().unwrap_or(0)
    }

    fn write(&self, field: &dyn Fn(Option<usize>) -> [u8; 2], bytes: &mut Vec<u8>) {
        let (kind, argument) = match self.kind {
            Kind::Nonterminal(nonterminal) => (1, nonterminal),
            Kind::Character => (2, 0),
            Kind::Concatenation(..) => (3, 0),
            Kind::Union(..) => (4, 0),
            Kind::Star(_) => (5, 0),
            Kind::Empty => (6, 0),
        };
        bytes.extend([kind, argument]);
        bytes.extend(field(self.visits.first));
        bytes.extend(field(self.visits.second));
        for child in self.children() {
            child.write(field, bytes);
        }
    }
}

impl Plan {
    pub fn bytes(&self) -> Vec<u8> {
        let mut starts = vec![0usize]; // where each program starts, and where the last one ends
        for program in &self.programs {
            starts.push(starts.last().unwrap() + program.len());
        }
        let field = |program: Option<usize>| program.map_or(0xFFFF, |i| starts[i] as u16).to_le_bytes();
        let mut tags = Vec::new();
        for tag in &self.tags {
            tags.push(tag.len() as u8);
            tags.extend(tag);
            tags.resize(tags.len().next_multiple_of(16), 0);
        }
        let (mut productions, mut nodes) = (Vec::new(), Vec::new());
        for rule in &self.productions {
            let count = rule.expression.as_ref().map_or(0, |e| e.nodes());
            productions.extend([rule.nonterminal, rule.tag]);
            productions.extend((nodes.len() as u16 / 6).to_le_bytes());
            productions.extend([count as u8, 0]);
            productions.extend(field(rule.visits.first));
            productions.extend(field(rule.visits.second));
            productions.extend([0, 0]);
            if let Some(expression) = &rule.expression {
                expression.write(&field, &mut nodes);
            }
        }
        let programs = self.programs.concat();
        let mut sheet = Vec::new();
        let mut trailer: Vec<u16> = Vec::new();
        let sections = [(&tags, 16), (&productions, 12), (&nodes, 6), (&programs, 1), (&self.strings, 1)];
        for (section, size) in sections {
            trailer.extend([sheet.len() as u16, (section.len() / size) as u16]);
            sheet.extend(section);
        }
        trailer.extend([self.start, 0x5358]);
        sheet.extend(trailer.iter().flat_map(|word| word.to_le_bytes()));
        sheet
    }
}
