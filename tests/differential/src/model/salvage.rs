//! The salvage run (§12): a record that is refused with 20 to 25 is dropped, and reading resumes at the next `<R>` or the root's end tag.

use super::faults;
use super::run::{at_the_end, step};
use super::sheet::{Body, Production, Sheet};
use super::state::{self, State, MOST_VISITS, OPEN};
use super::tokens::{self, Answer, Event};

const BETWEEN: u8 = 0;
const INSIDE: u8 = 1;
const SKIPPING: u8 = 2;

// Where the parts of the bytes behind a state's own stand.
const MODE: usize = state::LENGTH;
const PASSED: usize = MODE + 1;
const FIRST: usize = PASSED + 8;
const NUMBER: usize = FIRST + 8;
const WAITING: usize = NUMBER + 1;
const RETURNS: usize = WAITING + 8;
pub const LENGTH: usize = RETURNS + state::ROOTED + state::FRAME;

pub struct Lost {
    pub first: u64,
    pub last: u64,
    pub number: u8,
}

pub struct Call {
    pub number: u8,
    pub taken: usize,
    pub output: Vec<u8>,
    pub report: Vec<Lost>,
    /// The most bytes that waited at once.
    pub waited: usize,
    pub visits: Option<u64>,
    /// The state and the waiting area afterwards, or `None` where they are untouched.
    pub left: Option<(Vec<u8>, Vec<u8>)>,
}

/// Where the run stands: the state, and what it was before the record.
#[derive(Clone)]
enum Mode {
    Between,
    Inside { before: State, first: u64, waiting: Vec<u8> },
    Skipping { first: u64, number: u8 },
}

/// The names of the root's tag and of the records' tag, if the sheet is of the shape.
pub fn shape(sheet: &Sheet) -> Option<(Vec<u8>, Vec<u8>)> {
    let of = |nonterminal: u8| sheet.productions.iter().filter(move |p| p.nonterminal == nonterminal).collect::<Vec<&Production>>();
    let [root] = of(sheet.start)[..] else { return None };
    let Body::Star(inner) = &root.tree.as_ref()?.body else { return None };
    let Body::Nonterminal(_, records) = inner.body else { return None };
    let [record] = of(records)[..] else { return None };
    if records == sheet.start {
        return None;
    }
    for production in &sheet.productions {
        let (is_root, is_record) = (std::ptr::eq(production, root), std::ptr::eq(production, record));
        let named: Vec<u8> = production.atoms().into_iter().flatten().collect();
        let alike = production.tag == root.tag && !is_root || production.tag == record.tag && !is_record;
        if alike || named.contains(&sheet.start) || named.contains(&records) && !is_root {
            return None;
        }
    }
    Some((sheet.tags[root.tag as usize].clone(), sheet.tags[record.tag as usize].clone()))
}

pub fn fresh() -> Vec<u8> {
    written(&State::fresh(), &Mode::Between, 0)
}

/// The bytes in which a state is handed back.
fn written(state: &State, mode: &Mode, passed: u64) -> Vec<u8> {
    let (number, first, refused, waiting, returns) = match mode {
        Mode::Between => (BETWEEN, 0, 0, 0, Vec::new()),
        Mode::Inside { before, first, waiting } => {
            let laid = before.write();
            let returns = [&laid[..state::ROOTED], &laid[state::FRAMES..state::FRAMES + state::FRAME]].concat();
            (INSIDE, *first, 0, waiting.len() as u64, returns)
        }
        Mode::Skipping { first, number } => (SKIPPING, *first, *number, 0, Vec::new()),
    };
    let mut bytes = state.write();
    bytes.push(number);
    bytes.extend(passed.to_le_bytes());
    bytes.extend(first.to_le_bytes());
    bytes.push(refused);
    bytes.extend(u64::to_le_bytes(waiting));
    bytes.extend(returns);
    bytes.resize(LENGTH, 0);
    bytes
}

/// What bytes hold, or `None` where they do not fit (29).
fn read(sheet: &Sheet, bytes: &[u8], part: usize, area: &[u8]) -> Option<(State, Mode, u64)> {
    if bytes.len() != LENGTH {
        return None;
    }
    let at = |i: usize| u64::from_le_bytes(bytes[i..i + 8].try_into().unwrap());
    let state = State::read(&bytes[..MODE]).filter(|state| state.fits(sheet))?;
    let (passed, first, open) = (at(PASSED), at(FIRST), state.stack.len());
    if passed > MOST_VISITS || passed + part as u64 > MOST_VISITS || bytes[MODE] != BETWEEN && first >= passed {
        return None;
    }
    let mode = match bytes[MODE] {
        BETWEEN if open <= 1 => Mode::Between,
        INSIDE if open >= 2 => {
            let mut laid = vec![0; state::LENGTH];
            laid[..state::ROOTED].copy_from_slice(&bytes[RETURNS..RETURNS + state::ROOTED]);
            laid[state::CLOSING] = OPEN;
            laid[state::DEPTH] = 1;
            laid[state::FRAMES..state::FRAMES + state::FRAME].copy_from_slice(&bytes[RETURNS + state::ROOTED..]);
            let before = State::read(&laid).filter(|state| state.fits(sheet))?;
            let waiting = area.get(..usize::try_from(at(WAITING)).ok()?)?.to_vec();
            Mode::Inside { before, first, waiting }
        }
        SKIPPING if open == 1 && (20..=25).contains(&bytes[NUMBER]) => Mode::Skipping { first, number: bytes[NUMBER] },
        _ => return None,
    };
    Some((state, mode, passed))
}

/// One call, with `room` bytes for the output and `entries` entries of the report.
pub fn salvage(sheet: &[u8], state: &[u8], part: &[u8], ended: bool, room: usize, area: &[u8], entries: usize) -> Call {
    let as_given = |number, visits| Call { number, taken: 0, output: Vec::new(), report: Vec::new(), waited: 0, visits, left: None };
    let sheet = match Sheet::read(sheet) {
        Ok(sheet) => sheet,
        Err(number) => return as_given(number, None),
    };
    if let Some(fault) = faults::list(&sheet).first() {
        return as_given(fault[0], None);
    }
    let Some((root, record)) = shape(&sheet) else { return as_given(34, None) };
    let Some((state, mode, passed)) = read(&sheet, state, part.len(), area) else { return as_given(29, None) };
    match state.closing {
        OPEN => {}
        0 => return as_given(28, Some(state.visits)),
        earlier => return as_given(earlier, Some(state.visits)),
    }
    let ends = [[b"<", &record[..], b">"].concat(), [b"</", &root[..], b">"].concat()];
    let waited = if let Mode::Inside { waiting, .. } = &mode { waiting.len() } else { 0 };
    let mut run = Salvage {
        sheet: &sheet, record, ends, part, ended, room, area: area.len(), entries, state, mode, passed, at: 0, output: Vec::new(), report: Vec::new(), waited,
    };
    let number = loop {
        if let Some(number) = run.next() {
            break number;
        }
    };
    if number != 16 && number != 17 {
        run.state.closing = number;
    }
    let mut after = if let Mode::Inside { waiting, .. } = &run.mode { waiting.clone() } else { Vec::new() };
    after.resize(run.waited, 0);
    after.extend(&area[run.waited..]);
    let left = Some((written(&run.state, &run.mode, passed + run.at as u64), after));
    Call { number, taken: run.at, output: run.output, report: run.report, waited: run.waited, visits: Some(run.state.visits), left }
}

struct Salvage<'a> {
    sheet: &'a Sheet,
    record: Vec<u8>,
    /// `<R>` and the root's end tag.
    ends: [Vec<u8>; 2],
    part: &'a [u8],
    ended: bool,
    room: usize,
    area: usize,
    entries: usize,
    state: State,
    mode: Mode,
    passed: u64,
    at: usize,
    output: Vec<u8>,
    report: Vec<Lost>,
    waited: usize,
}

impl Salvage<'_> {
    /// One step: `None`, and the run goes on; or the number with which the call stops.
    fn next(&mut self) -> Option<u8> {
        if let Mode::Skipping { first, number } = self.mode {
            return self.skip(first, number);
        }
        match tokens::read(&self.part[self.at..], self.ended) {
            Answer::Token(event, length) => self.token(&event, length),
            Answer::Begun => self.broken(at_the_end(&self.state, &self.part[self.at..], self.ended), false),
            Answer::Bad => self.broken(20, false),
            Answer::TooLong => self.broken(21, false),
        }
    }

    fn token(&mut self, event: &Event, length: usize) -> Option<u8> {
        let begins = matches!(event, Event::Start(name) | Event::Empty(name) if *name == self.record);
        let begins = begins && matches!(self.mode, Mode::Between) && self.state.stack.len() == 1;
        let waits = match &self.mode {
            Mode::Inside { waiting, .. } => Some(waiting.clone()),
            _ => begins.then(Vec::new),
        };
        let room = waits.as_ref().map_or(self.room - self.output.len(), |waiting| self.area - waiting.len());
        let (after, printed) = match step(self.sheet, &self.state, event, room) {
            Ok(taken) => taken,
            Err(number) => return self.broken(number, begins),
        };
        if let Some(mut waiting) = waits {
            waiting.extend(printed);
            self.waited = self.waited.max(waiting.len());
            if after.stack.len() == 1 {
                if waiting.len() > self.room - self.output.len() {
                    return Some(17);
                }
                self.output.extend(waiting);
                self.mode = Mode::Between;
            } else {
                let (first, before) = self.record_of(begins);
                self.mode = Mode::Inside { before, first, waiting };
            }
        } else {
            self.output.extend(printed);
        }
        self.state = after;
        self.at += length;
        None
    }

    fn here(&self) -> u64 {
        self.passed + self.at as u64
    }

    /// The record's first byte, and the state before it.
    fn record_of(&self, begins: bool) -> (u64, State) {
        match &self.mode {
            Mode::Inside { before, first, .. } => (*first, before.clone()),
            _ => {
                assert!(begins);
                (self.here(), self.state.clone())
            }
        }
    }

    /// The call stops with a number at this place, or a record does, which then is dropped.
    fn broken(&mut self, number: u8, begins: bool) -> Option<u8> {
        if !begins && !matches!(self.mode, Mode::Inside { .. }) || number == 16 || number == 17 {
            return Some(number);
        }
        let (first, before) = self.record_of(begins);
        if (20..=25).contains(&number) {
            self.at += (first == self.here()) as usize;
            self.state = before;
            self.mode = Mode::Skipping { first, number };
            return None;
        }
        let end = if number == 27 { self.passed + self.part.len() as u64 } else { self.here() };
        if end > first && !self.tell(first, end - 1, number) {
            return Some(17);
        }
        self.state = before;
        self.mode = Mode::Between;
        Some(number)
    }

    /// Puts a stretch into the report, if there is room.
    fn tell(&mut self, first: u64, last: u64, number: u8) -> bool {
        let fits = self.report.len() < self.entries;
        if fits {
            self.report.push(Lost { first, last, number });
        }
        fits
    }

    fn skip(&mut self, first: u64, number: u8) -> Option<u8> {
        let ends = self.ends.clone();
        let stands = |i: &usize| ends.iter().any(|end| self.part[*i..].starts_with(end));
        let begins = |i: &usize| ends.iter().any(|end| end.starts_with(&self.part[*i..]));
        let places = self.at..self.part.len();
        if self.ended {
            let to = places.clone().find(stands);
            self.at = to.unwrap_or(self.part.len());
            return self.resume(first, number, to.is_none().then_some(27));
        }
        let Some(to) = places.clone().find(|i| stands(i) || begins(i)) else {
            self.at = self.at.max(self.part.len());
            return Some(16);
        };
        let waits = !stands(&to);
        self.at = to;
        if waits { Some(16) } else { self.resume(first, number, None) }
    }

    /// The stretch ends here: it is told, and the run is between records again. What was passed over stays so where the report is full.
    fn resume(&mut self, first: u64, number: u8, stop: Option<u8>) -> Option<u8> {
        if !self.tell(first, self.here() - 1, number) {
            return Some(17);
        }
        self.mode = Mode::Between;
        stop
    }
}
