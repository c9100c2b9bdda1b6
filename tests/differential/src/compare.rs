//! One case: one call of the library held against the model, with everything that was lent.

use crate::model::declarations;
use crate::model::run::{run, Call};
use crate::model::salvage;
use crate::model::state::{State, LENGTH};
use crate::model::{check, number_with_room};
use crate::random::Random;
use crate::subject::{Ask, Said, Subject};
use std::collections::BTreeMap;

pub struct Compare {
    pub subject: Subject,
    pub cases: usize,
    /// How often each function gave each number, and how many records were lost with each: a test that never meets a number says nothing about it.
    pub met: BTreeMap<(&'static str, u8), usize>,
}

/// What a running call is given.
pub struct Lent<'a> {
    pub sheet: &'a [u8],
    pub state: &'a [u8],
    pub part: &'a [u8],
    pub ended: bool,
    pub room: usize,
}

/// What a salvage call is given besides: the waiting area, and the bytes of the report.
pub struct Spare<'a> {
    pub waiting: &'a [u8],
    pub report: usize,
}

/// What a salvage call left: the number, the bytes taken, the state and the waiting area.
pub type Salvaged = (u8, usize, Vec<u8>, Vec<u8>);

type Outcome<T> = Result<T, String>;

impl Compare {
    pub fn new(subject: Subject) -> Compare {
        Compare { subject, cases: 0, met: BTreeMap::new() }
    }

    /// The checker, with a list of `room` bytes.
    pub fn check(&mut self, random: &mut Random, sheet: &[u8], room: usize) -> Outcome<()> {
        let fill = random.byte();
        let said = self.subject.call(&Ask::Check { sheet, room }, fill);
        let case = || format!("check, a list of {room} bytes of {fill:02x}\nsheet {}", hex(sheet));
        let said = said.map_err(|error| format!("{error}\n{}", case()))?;
        let (number, faults) = check(sheet);
        let number = number_with_room(number, faults.len(), room);
        let mut list = if number == 8 || number == 9 { faults.concat() } else { Vec::new() };
        list.resize(room, fill);
        self.count("check", number);
        let expected = number as u64 + 256 * faults.len() as u64;
        if said.answer != expected || said.area != list {
            let ours = format!("the model: {} faults {:?}", show(expected), faults);
            return Err(format!("{}\n{ours}\nthe library: {} list {}", case(), show(said.answer), hex(trimmed(&said.area, fill))));
        }
        Ok(())
    }

    /// A fresh state in an area of `room` bytes, which is handed back.
    pub fn fresh(&mut self, random: &mut Random, room: usize) -> Outcome<Vec<u8>> {
        let fill = random.byte();
        let said = self.subject.call(&Ask::Fresh { room }, fill);
        let case = || format!("fresh, an area of {room} bytes of {fill:02x}");
        let said = said.map_err(|error| format!("{error}\n{}", case()))?;
        let fits = room >= LENGTH;
        self.count("fresh", fits as u8);
        let right = if fits {
            let (state, rest) = said.area.split_at(LENGTH);
            said.answer == LENGTH as u64 && state == State::fresh().write() && rest.iter().all(|&b| b == fill)
        } else {
            said.answer == 0 && said.area.iter().all(|&b| b == fill)
        };
        if right { Ok(said.area) } else { Err(format!("{}\nthe library: {} and {}", case(), said.answer, hex(&said.area))) }
    }

    /// One running call. Hands back the number, the bytes taken and the state as the library left it.
    pub fn run(&mut self, random: &mut Random, lent: &Lent) -> Outcome<(u8, usize, Vec<u8>)> {
        let fill = random.byte();
        let Lent { sheet, state, part, ended, room } = *lent;
        let said = self.subject.call(&Ask::Run { sheet, state, part, ended: ended as u64, room }, fill);
        let case = || {
            let lent = format!("run, ended {ended}, {room} bytes of {fill:02x} for the output");
            format!("{lent}\nsheet {}\nstate {}\npart {}", hex(sheet), hex(state), hex(part))
        };
        let said = said.map_err(|error| format!("{error}\n{}", case()))?;
        let call = run(sheet, state, part, ended, room);
        self.count("run", call.number);
        match difference(&call, &said, state, fill) {
            None => Ok((call.number, call.taken, said.area)),
            Some(what) => {
                let counts = (call.taken, call.output.len(), call.visits);
                let ours = format!("the model: {} taken, written, visits {counts:?}", call.number);
                let theirs = format!("the library: {} counts {:?}", said.answer, said.counts);
                let outputs = format!("outputs {} and {}", hex(&call.output), hex(trimmed(&said.output, fill)));
                let left = call.state.as_ref().map_or("as given".into(), |s| format!("{s:?}"));
                Err(format!("{what} differs\n{}\n{ours}\n{theirs}\n{outputs}\nstates {left} and {}", case(), hex(&said.area)))
            }
        }
    }

    /// A fresh state of a salvage run in an area of `room` bytes.
    pub fn salvage_fresh(&mut self, random: &mut Random, room: usize) -> Outcome<()> {
        let fill = random.byte();
        let case = || format!("salvage_fresh, an area of {room} bytes of {fill:02x}");
        let said = self.subject.call(&Ask::SalvageFresh { room }, fill).map_err(|error| format!("{error}\n{}", case()))?;
        let fits = room >= salvage::LENGTH;
        self.count("salvage_fresh", fits as u8);
        let mut area = if fits { salvage::fresh() } else { Vec::new() };
        let answer = area.len() as u64;
        area.resize(room, fill);
        if said.answer == answer && said.area == area { Ok(()) } else { Err(format!("{}\nthe library: {} and {}", case(), said.answer, hex(&said.area))) }
    }

    /// One call of the salvage run.
    pub fn salvage(&mut self, random: &mut Random, lent: &Lent, spare: &Spare) -> Outcome<Salvaged> {
        let fill = random.byte();
        let Lent { sheet, state, part, ended, room } = *lent;
        let Spare { waiting, report } = *spare;
        let said = self.subject.call(&Ask::Salvage { sheet, state, part, ended: ended as u64, room, waiting, report }, fill);
        let case = || {
            let lent = format!("salvage, ended {ended}, {room} bytes of {fill:02x} for the output, {report} for the report");
            format!("{lent}\nsheet {}\nstate {}\npart {}\nwaiting {}", hex(sheet), hex(state), hex(part), hex(waiting))
        };
        let said = said.map_err(|error| format!("{error}\n{}", case()))?;
        let call = salvage::salvage(sheet, state, part, ended, room, waiting, report / 24);
        self.count("salvage", call.number);
        for lost in &call.report {
            *self.met.entry(("lost", lost.number)).or_default() += 1;
        }
        match salvage_difference(&call, &said, lent, spare, fill) {
            None => Ok((call.number, call.taken, said.area, said.waiting)),
            Some(what) => {
                let counts = (call.taken, call.output.len(), call.report.len(), call.waited, call.visits);
                let theirs = format!("the library: {} counts {:?}", said.answer, said.counts);
                Err(format!("{what} differs\n{}\nthe model: {} counts {counts:?}\n{theirs}\nstate {}", case(), call.number, hex(&said.area)))
            }
        }
    }

    /// Declarations, with `room` bytes for the sheet.
    pub fn models(&mut self, random: &mut Random, text: &[u8], room: usize) -> Outcome<()> {
        let fill = random.byte();
        let case = || format!("models, {room} bytes of {fill:02x} for the sheet\ntext {}", hex(text));
        let said = self.subject.call(&Ask::Models { text, room }, fill).map_err(|error| format!("{error}\n{}", case()))?;
        let told = declarations::read(text);
        let short = told.number == 0 && room < told.count;
        let number = if short { 43 } else { told.number };
        let mut sheet = if short { Vec::new() } else { told.sheet };
        sheet.resize(room, fill);
        self.count("models", number);
        let expected = number as u64 + 256 * told.count as u64;
        if said.answer != expected || said.output != sheet {
            return Err(format!("{}\nthe model: {}\nthe library: {} sheet {}", case(), show(expected), show(said.answer), hex(trimmed(&said.output, fill))));
        }
        Ok(())
    }

    fn count(&mut self, function: &'static str, number: u8) {
        self.cases += 1;
        *self.met.entry((function, number)).or_default() += 1;
    }
}

/// What differs first, if anything does.
fn difference(call: &Call, said: &Said, given: &[u8], fill: u8) -> Option<&'static str> {
    let written = call.output.len();
    if said.answer != call.number as u64 {
        return Some("the number");
    }
    if said.counts[0] != call.taken as u64 {
        return Some("what is taken");
    }
    if said.counts[1] != written as u64 {
        return Some("what is written");
    }
    if call.visits.is_some_and(|visits| said.counts[2] != visits) {
        return Some("the count of visits");
    }
    if said.output[..written] != call.output[..] {
        return Some("the output");
    }
    if said.output[written..].iter().any(|&b| b != fill) {
        return Some("the area behind the output");
    }
    let state_is_right = match &call.state {
        None => said.area == given,
        Some(state) => said.area == state.write(),
    };
    (!state_is_right).then_some("the state")
}

/// The same of a salvage call.
fn salvage_difference(call: &salvage::Call, said: &Said, lent: &Lent, spare: &Spare, fill: u8) -> Option<&'static str> {
    let filled = |bytes: &[u8], length: usize| [bytes, &vec![fill; length - bytes.len()]].concat();
    let entry = |lost: &salvage::Lost| [lost.first, lost.last, lost.number as u64].map(u64::to_le_bytes).concat();
    let report: Vec<u8> = call.report.iter().flat_map(entry).collect();
    let counts = [call.taken, call.output.len(), call.report.len(), call.waited].map(|count| count as u64);
    let (state, waiting) = match &call.left {
        None => (lent.state, spare.waiting),
        Some((state, waiting)) => (&state[..], &waiting[..]),
    };
    let tests = [
        ("the number", said.answer == call.number as u64),
        ("a count", said.counts[..4] == counts && call.visits.map_or(true, |visits| said.counts[4] == visits)),
        ("the output", said.output == filled(&call.output, lent.room)),
        ("the report", said.report == filled(&report, spare.report)),
        ("the state", said.area == state),
        ("the waiting area", said.waiting == waiting),
    ];
    tests.into_iter().find(|test| !test.1).map(|test| test.0)
}

fn show(answer: u64) -> String {
    format!("number {} count {}", answer % 256, answer / 256)
}

fn trimmed(bytes: &[u8], fill: u8) -> &[u8] {
    let length = bytes.iter().rposition(|&b| b != fill).map_or(0, |i| i + 1);
    &bytes[..length]
}

fn hex(bytes: &[u8]) -> String {
    bytes.iter().map(|b| format!("{b:02x}")).collect()
}
