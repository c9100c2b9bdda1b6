//! The state of a run, its bytes (docs/DECISIONS.md 5.15), and whether it fits a sheet (29).

use super::sheet::{Body, Node, Sheet};

pub const ATTRIBUTES: usize = 8;
pub const HIGHEST: u8 = 63;
pub const DEEPEST: usize = 32;
pub const MOST_VISITS: u64 = 1 << 62;
/// The closing number of a state that is not closed.
pub const OPEN: u8 = 255;

// Where the parts of the bytes stand. The attributes come first, then echo.
pub const COUNT: usize = ATTRIBUTES + 1;
pub const ROOTED: usize = COUNT + 8;
pub const CLOSING: usize = ROOTED + 1;
pub const DEPTH: usize = CLOSING + 1;
pub const FRAMES: usize = DEPTH + 8;
pub const SET: usize = ATTRIBUTES + 1;
pub const SETS: usize = 13;
pub const FRAME: usize = 3 + SETS * SET;
pub const LENGTH: usize = FRAMES + DEEPEST * FRAME;

#[derive(Clone, Debug, PartialEq)]
pub struct State {
    pub attributes: [u8; ATTRIBUTES],
    pub echo: bool,
    pub visits: u64,
    /// Looked at only with no element open.
    pub rooted: bool,
    pub closing: u8,
    pub stack: Vec<Frame>,
}

#[derive(Clone, Debug, PartialEq)]
pub struct Frame {
    pub production: u8,
    pub place: u8,
    /// The production's set first, then one for each open node of the place, the outermost first.
    pub sets: Vec<Set>,
}

/// What a node's first visit leaves for its second.
#[derive(Clone, Debug, PartialEq)]
pub struct Set {
    /// The attributes just after the first visit.
    pub attributes: [u8; ATTRIBUTES],
    /// Echo as it was before the first visit.
    pub echo: bool,
}

impl State {
    pub fn fresh() -> State {
        State { attributes: [0; ATTRIBUTES], echo: false, visits: 0, rooted: false, closing: OPEN, stack: Vec::new() }
    }

    /// Reads the bytes if they can be a state at all: the length, the depth and each frame's sets must be within the layout.
    pub fn read(bytes: &[u8]) -> Option<State> {
        if bytes.len() != LENGTH {
            return None;
        }
        let number = |at: usize| u64::from_le_bytes(bytes[at..at + 8].try_into().unwrap());
        let depth = number(DEPTH);
        if depth > DEEPEST as u64 {
            return None;
        }
        let stack: Option<Vec<Frame>> = bytes[FRAMES..].chunks(FRAME).take(depth as usize).map(Frame::read).collect();
        Some(State {
            attributes: bytes[..ATTRIBUTES].try_into().unwrap(),
            echo: bytes[ATTRIBUTES] != 0,
            visits: number(COUNT),
            rooted: bytes[ROOTED] != 0,
            closing: bytes[CLOSING],
            stack: stack?,
        })
    }

    /// The one form in which a state is handed back: what is not in use is 0 (docs/DECISIONS.md 6.4).
    pub fn write(&self) -> Vec<u8> {
        let mut bytes = self.attributes.to_vec();
        bytes.push(self.echo as u8);
        bytes.extend(self.visits.to_le_bytes());
        bytes.push((self.rooted && self.stack.is_empty()) as u8);
        bytes.push(self.closing);
        bytes.extend((self.stack.len() as u64).to_le_bytes());
        for frame in &self.stack {
            bytes.extend([frame.production, frame.place, frame.sets.len() as u8]);
            for set in &frame.sets {
                bytes.extend(set.attributes);
                bytes.push(set.echo as u8);
            }
            bytes.resize(bytes.len() + SET * (SETS - frame.sets.len()), 0);
        }
        bytes.resize(LENGTH, 0);
        bytes
    }

    /// The negation of 29.
    pub fn fits(&self, sheet: &Sheet) -> bool {
        let mut may_be = Some(sheet.start); // the nonterminal that the next element must be of
        for frame in &self.stack {
            let Some(production) = sheet.productions.get(frame.production as usize) else { return false };
            if may_be != Some(production.nonterminal) {
                return false;
            }
            let atoms = production.atoms();
            if frame.place as usize > atoms.len() {
                return false;
            }
            if frame.sets.len() != 1 + open_nodes(production.tree.as_ref(), frame.place as usize).len() {
                return false;
            }
            may_be = if frame.place == 0 { None } else { atoms[frame.place as usize - 1] };
        }
        let saved = self.stack.iter().flat_map(|frame| &frame.sets).flat_map(|set| set.attributes);
        let values_fit = self.attributes.into_iter().chain(saved).all(|value| value <= HIGHEST);
        let closing_fits = matches!(self.closing, 0 | 20..=27 | 30 | OPEN);
        values_fit && closing_fits && self.visits <= MOST_VISITS
    }
}

impl Frame {
    fn read(bytes: &[u8]) -> Option<Frame> {
        let in_use = bytes[2] as usize;
        if in_use > SETS {
            return None; // no place has over 12 open nodes
        }
        let sets = bytes[3..].chunks(SET).take(in_use);
        let sets = sets.map(|set| Set { attributes: set[..ATTRIBUTES].try_into().unwrap(), echo: set[ATTRIBUTES] != 0 }).collect();
        Some(Frame { production: bytes[0], place: bytes[1], sets })
    }
}

/// The nodes open at a place, the outermost first: those around the atom and the atom's own; at place 0 none is.
pub fn open_nodes(tree: Option<&Node>, place: usize) -> Vec<&Node> {
    fn go<'a>(node: &'a Node, place: usize, path: &mut Vec<&'a Node>) -> bool {
        path.push(node);
        let found = match &node.body {
            Body::Nonterminal(atom, _) | Body::Character(atom) => *atom == place,
            Body::Concatenation(left, right) | Body::Union(left, right) => go(left, place, path) || go(right, place, path),
            Body::Star(inner) => go(inner, place, path),
            Body::Empty => false,
        };
        if !found {
            path.pop();
        }
        found
    }
    let mut path = Vec::new();
    if let Some(tree) = tree {
        go(tree, place, &mut path);
    }
    path
}
