//! Reading a script: an opening line, then one call for each line.

use crate::floor::Call;
use crate::ledger::Vote;
use crate::refusal::Refusal;

pub const LONGEST: usize = 65_536;

/// A line's number and what is on it. A line without its end is handed out as a bad line.
pub type Numbered<T> = (usize, Result<T, Refusal>);

/// The opening line, and the bytes after it.
pub fn opening(script: &[u8]) -> (Numbered<Vec<Vote>>, &[u8]) {
    if script.len() > LONGEST {
        return ((0, Err(Refusal::BadLine)), &[]);
    }
    match split_line(script) {
        Some((line, rest)) => ((1, read_opening(line).ok_or(Refusal::BadLine)), rest),
        None => ((1, Err(Refusal::BadLine)), &[]),
    }
}

/// The calls on the lines after the first. Nothing comes after a bad line.
pub fn calls(mut rest: &[u8]) -> impl Iterator<Item = Numbered<Call>> + '_ {
    let mut number = 1;
    std::iter::from_fn(move || {
        if rest.is_empty() {
            return None;
        }
        number += 1;
        let split = split_line(rest);
        let read = split.and_then(|(line, after)| Some((read_call(line)?, after)));
        let Some((call, after)) = read else {
            rest = &[];
            return Some((number, Err(Refusal::BadLine)));
        };
        rest = after;
        Some((number, Ok(call)))
    })
}

/// The first line without its end, and what follows; nothing where the end is missing.
fn split_line(bytes: &[u8]) -> Option<(&[u8], &[u8])> {
    let end = bytes.iter().position(|&byte| byte == b'\n')?;
    Some((&bytes[..end], &bytes[end + 1..]))
}

fn read_opening(line: &[u8]) -> Option<Vec<Vote>> {
    let [b'F', b' ', size, b' ', letters @ ..] = line else {
        return None;
    };
    let size = digit(*size)?;
    if size == 0 || size != letters.len() {
        return None;
    }
    letters.iter().map(|&letter| vote(letter)).collect()
}

pub fn read_call(line: &[u8]) -> Option<Call> {
    match *line {
        [b'B'] => Some(Call::Begin),
        [b'S', b' ', p] => Some(Call::Step { ledger: digit(p)? }),
        [b'D', b' ', q, b' ', p] => Some(Call::Deliver {
            from: digit(q)?,
            to: digit(p)?,
        }),
        [b'E', b' ', p, b' ', q] => Some(Call::Expire {
            by: digit(p)?,
            other: digit(q)?,
        }),
        [b'X', b' ', p] => Some(Call::Stop { ledger: digit(p)? }),
        [b'R', b' ', p] => Some(Call::Restart { ledger: digit(p)? }),
        _ => None,
    }
}

fn vote(letter: u8) -> Option<Vote> {
    match letter {
        b'Y' => Some(Vote::Yes),
        b'N' => Some(Vote::No),
        _ => None,
    }
}

fn digit(byte: u8) -> Option<usize> {
    byte.is_ascii_digit().then(|| usize::from(byte - b'0'))
}

/// The line that reads as this call.
pub fn call_line(call: Call) -> String {
    match call {
        Call::Begin => "B".to_string(),
        Call::Step { ledger } => format!("S {ledger}"),
        Call::Deliver { from, to } => format!("D {from} {to}"),
        Call::Expire { by, other } => format!("E {by} {other}"),
        Call::Stop { ledger } => format!("X {ledger}"),
        Call::Restart { ledger } => format!("R {ledger}"),
    }
}

/// The line that opens with these votes.
pub fn opening_line(votes: &[Vote]) -> String {
    let letter = |&vote: &Vote| if vote == Vote::Yes { 'Y' } else { 'N' };
    let letters: String = votes.iter().map(letter).collect();
    format!("F {} {letters}", votes.len())
}
