//! A second implementation of document 01 and of requests that have landed, written from the document and docs/DECISIONS.md alone. Nothing here is taken from the
//! proved code, and where a choice was free the plainest way was taken rather than the fastest.

pub mod declarations;
pub mod faults;
pub mod programs;
pub mod run;
pub mod salvage;
pub mod sheet;
pub mod state;
pub mod tokens;
pub mod words;

use sheet::Sheet;

/// The checker's answer for a list that is long enough: the number, and the whole fault list.
pub fn check(bytes: &[u8]) -> (u8, Vec<[u8; 4]>) {
    let sheet = match Sheet::read(bytes) {
        Ok(sheet) => sheet,
        Err(number) => return (number, Vec::new()),
    };
    let faults = faults::list(&sheet);
    let number = faults.first().map_or(0, |fault| fault[0]); // T faults (8) stand before S faults (9)
    (number, faults)
}

/// The number for a lent list of `room` bytes: 10 comes before 8 and 9.
pub fn number_with_room(number: u8, faults: usize, room: usize) -> u8 {
    if faults > 0 && room < 4 * faults { 10 } else { number }
}
