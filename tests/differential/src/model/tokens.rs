//! The stream's tokens: what a front (the next bytes, 32 at most) starts with.

use super::sheet::{is_name_part, is_name_start};

pub const FRONT: usize = 32;

#[derive(Clone, Debug, PartialEq)]
pub enum Event {
    Start(Vec<u8>),
    End(Vec<u8>),
    Empty(Vec<u8>),
    /// A character as it stands in the stream.
    Literal(char),
    /// A character that a reference names. It is never white space.
    Reference(char),
}

#[derive(Debug, PartialEq)]
pub enum Answer {
    Token(Event, usize),
    Begun,
    /// 20: starts with no token and begins none of any length.
    Bad,
    /// 21: begins only tokens over 32 bytes.
    TooLong,
}

/// XML 1.0's Char set. A Rust `char` is no surrogate.
pub fn is_char(c: char) -> bool {
    matches!(c, '\t' | '\n' | '\r' | ' '..='\u{D7FF}' | '\u{E000}'..='\u{FFFD}' | '\u{10000}'..='\u{10FFFF}')
}

pub fn is_white_space(c: char) -> bool {
    matches!(c, ' ' | '\t' | '\r' | '\n')
}

/// How far a string of bytes is into a token.
enum Reached {
    Whole(Event),
    Begun,
    Nothing,
}

/// Reads the front by asking of each of its beginnings, the shortest first, whether it is a token, begins one, or neither. Only CR
/// begins a longer token and is one: it is LF, alone or with the LF behind it, and while more may come its successor decides.
pub fn read(bytes: &[u8], ended: bool) -> Answer {
    let front = &bytes[..bytes.len().min(FRONT)];
    if front.first() == Some(&b'\r') {
        return match front.get(1) {
            None if !ended => Answer::Begun,
            Some(b'\n') => Answer::Token(Event::Literal('\n'), 2),
            _ => Answer::Token(Event::Literal('\n'), 1),
        };
    }
    for length in 1..=front.len() {
        match reached(&front[..length]) {
            Reached::Whole(event) => return Answer::Token(event, length),
            Reached::Begun => {}
            Reached::Nothing => return Answer::Bad,
        }
    }
    if front.len() + wanted(front) > FRONT { Answer::TooLong } else { Answer::Begun }
}

/// How many bytes more, at least, a begun token needs. Of a number the digits that it still needs are tried, and then `;`.
fn wanted(front: &[u8]) -> usize {
    match front {
        [b'&', b'#', b'x', digits @ ..] => 1 + digits_wanted(digits, 16).unwrap_or(0),
        [b'&', b'#', digits @ ..] => 1 + digits_wanted(digits, 10).unwrap_or(0),
        _ => 1,
    }
}

/// The value of digits, and None past the last character: more digits only make it larger.
fn value(digits: &[u8], radix: u32) -> Option<u32> {
    digits.iter().try_fold(0, |value: u32, &digit| {
        let value = value * radix + (digit as char).to_digit(radix)?;
        (value <= 0x10FFFF).then_some(value)
    })
}

fn is_named(digits: &[u8], radix: u32) -> bool {
    !digits.is_empty() && value(digits, radix).and_then(char::from_u32).is_some_and(is_char)
}

/// The fewest digits behind these that name a character, by trying all: three are enough where any are.
fn digits_wanted(digits: &[u8], radix: u32) -> Option<usize> {
    value(digits, radix)?;
    let mut tried = vec![digits.to_vec()];
    for more in 0..=3 {
        if tried.iter().any(|digits| is_named(digits, radix)) {
            return Some(more);
        }
        let longer = |digits: &Vec<u8>| (0..radix).map(|d| [&digits[..], &[char::from_digit(d, radix).unwrap() as u8]].concat()).collect::<Vec<_>>();
        tried = tried.iter().flat_map(longer).collect();
    }
    None
}

/// After `&#`: digits and `;`, with x before hexadecimal ones.
fn number(bytes: &[u8]) -> Reached {
    let (radix, bytes) = match bytes {
        [b'x', rest @ ..] => (16, rest),
        _ => (10, bytes),
    };
    match bytes.split_last() {
        Some((b';', digits)) if is_named(digits, radix) => Reached::Whole(Event::Reference(char::from_u32(value(digits, radix).unwrap()).unwrap())),
        _ if digits_wanted(bytes, radix).is_some() => Reached::Begun,
        _ => Reached::Nothing,
    }
}

fn reached(bytes: &[u8]) -> Reached {
    match bytes[0] {
        b'<' => tag(&bytes[1..]),
        b'&' => reference(&bytes[1..]),
        b'>' => Reached::Nothing,
        _ => literal(bytes),
    }
}

/// After `<`: an optional `/`, a name, white space, `>` or (for a start) `/>`.
fn tag(bytes: &[u8]) -> Reached {
    let (is_end, rest) = match bytes.first() {
        Some(b'/') => (true, &bytes[1..]),
        _ => (false, bytes),
    };
    let Some(first) = rest.first() else { return Reached::Begun };
    if !is_name_start(*first) {
        return Reached::Nothing;
    }
    let name_length = rest.iter().take_while(|&&b| is_name_part(b)).count();
    let (name, rest) = rest.split_at(name_length);
    let spaces = rest.iter().take_while(|&&b| is_white_space(b as char)).count();
    match (&rest[spaces..], is_end) {
        ([], _) | ([b'/'], false) => Reached::Begun,
        ([b'>'], false) => Reached::Whole(Event::Start(name.to_vec())),
        ([b'>'], true) => Reached::Whole(Event::End(name.to_vec())),
        ([b'/', b'>'], false) => Reached::Whole(Event::Empty(name.to_vec())),
        _ => Reached::Nothing,
    }
}

const REFERENCES: [(&[u8], char); 5] = [(b"amp;", '&'), (b"lt;", '<'), (b"gt;", '>'), (b"apos;", '\''), (b"quot;", '"')];

fn reference(bytes: &[u8]) -> Reached {
    if let [b'#', rest @ ..] = bytes {
        return number(rest);
    }
    for (name, character) in REFERENCES {
        if name == bytes {
            return Reached::Whole(Event::Reference(character));
        }
    }
    if bytes.is_empty() || REFERENCES.iter().any(|(name, _)| name.starts_with(bytes)) { Reached::Begun } else { Reached::Nothing }
}

fn literal(bytes: &[u8]) -> Reached {
    match std::str::from_utf8(bytes) {
        Ok(text) => match text.chars().next() {
            Some(c) if is_char(c) => Reached::Whole(Event::Literal(c)),
            _ => Reached::Nothing,
        },
        // RFC 3629: the bytes so far are the beginning of some character, and every such beginning also begins one of the Char set
        Err(e) if e.error_len().is_none() => Reached::Begun,
        Err(_) => Reached::Nothing,
    }
}
