//! The proved library behind its C functions, called through the driver process.

use std::io::{self, Read, Write};
use std::process::{Child, ChildStdin, ChildStdout, Command, Stdio};

pub struct Subject {
    child: Child,
    to: ChildStdin,
    from: ChildStdout,
}

/// One call of a C function, with all that is lent to it.
pub enum Ask<'a> {
    Check { sheet: &'a [u8], room: usize },
    Fresh { room: usize },
    Run { sheet: &'a [u8], state: &'a [u8], part: &'a [u8], ended: u64, room: usize },
    SalvageFresh { room: usize },
    Salvage { sheet: &'a [u8], state: &'a [u8], part: &'a [u8], ended: u64, room: usize, waiting: &'a [u8], report: usize },
    Models { text: &'a [u8], room: usize },
}

/// What the function answered, and the lent areas afterwards, whole.
pub struct Said {
    pub answer: u64,
    pub counts: [u64; 5],
    /// The list, or the state.
    pub area: Vec<u8>,
    pub output: Vec<u8>,
    pub waiting: Vec<u8>,
    pub report: Vec<u8>,
}

impl Subject {
    pub fn start(command: &[String]) -> io::Result<Subject> {
        let mut child = Command::new(&command[0]).args(&command[1..]).stdin(Stdio::piped()).stdout(Stdio::piped()).spawn()?;
        let (to, from) = (child.stdin.take().unwrap(), child.stdout.take().unwrap());
        Ok(Subject { child, to, from })
    }

    /// Calls the function with areas filled with `fill`.
    pub fn call(&mut self, ask: &Ask, fill: u8) -> Result<Said, String> {
        self.exchange(ask, fill).map_err(|error| {
            let ended = self.child.wait();
            format!("the driver ended ({ended:?}, {error}): a lent area was overrun or the library stopped")
        })?
    }

    fn exchange(&mut self, ask: &Ask, fill: u8) -> io::Result<Result<Said, String>> {
        let nothing: &[u8] = &[];
        let (function, sheet, lent, state, part, room, ended, waiting, report) = match ask {
            Ask::Check { sheet, room } => (1, *sheet, *room, nothing, nothing, 0, 0, nothing, 0),
            Ask::Fresh { room } => (2, nothing, *room, nothing, nothing, 0, 0, nothing, 0),
            Ask::Run { sheet, state, part, ended, room } => (3, *sheet, state.len(), *state, *part, *room, *ended, nothing, 0),
            Ask::SalvageFresh { room } => (4, nothing, *room, nothing, nothing, 0, 0, nothing, 0),
            Ask::Salvage { sheet, state, part, ended, room, waiting, report } => (5, *sheet, state.len(), *state, *part, *room, *ended, *waiting, *report),
            Ask::Models { text, room } => (6, nothing, 0, nothing, *text, *room, 0, nothing, 0),
        };
        let lengths = [lent, part.len(), room, waiting.len(), report].map(|length| length as u64);
        let header = [&[function, sheet.len() as u64], &lengths[..], &[ended, fill as u64]].concat();
        let mut request: Vec<u8> = header.iter().flat_map(|number| number.to_le_bytes()).collect();
        request.extend([sheet, state, part, waiting].concat());
        self.to.write_all(&request)?;
        self.to.flush()?;
        let mut numbers = [0u64; 11];
        for number in &mut numbers {
            let mut bytes = [0; 8];
            self.from.read_exact(&mut bytes)?;
            *number = u64::from_le_bytes(bytes);
        }
        let area = self.area(numbers[7] as usize, lent, fill)?;
        let output = self.area(numbers[8] as usize, room, fill)?;
        let waiting = self.area(numbers[9] as usize, waiting.len(), fill)?;
        let report = self.area(numbers[10] as usize, report, fill)?;
        if numbers[6] != 0 {
            return Ok(Err("bytes before a lent area were written".into()));
        }
        Ok(Ok(Said { answer: numbers[0], counts: numbers[1..6].try_into().unwrap(), area, output, waiting, report }))
    }

    /// An area of `length` bytes, of which the driver shows the first and the rest is the fill.
    fn area(&mut self, shown: usize, length: usize, fill: u8) -> io::Result<Vec<u8>> {
        let mut area = vec![fill; length];
        self.from.read_exact(&mut area[..shown])?;
        Ok(area)
    }
}
