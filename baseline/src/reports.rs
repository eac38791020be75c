//! The two texts that a script gives: the rehearsal and the worklist.

use std::fmt::Write;

use crate::floor::{Call, Floor};
use crate::ledger::{Entry, Ledger, Status};
use crate::refusal::Refusal;
use crate::script;

const UNCERTAIN: &str = "uncertain after a restart: ask the other ledgers whether they posted \
                         or dropped, and settle this one alike";
const DISPUTE: &str = "dispute between decisions: find the ledgers that decided otherwise, \
                       and settle post or drop for all of them";

/// A floor and the calls to be made on it, or the text that is left where nothing opens.
fn open(bytes: &[u8]) -> Result<(Floor, &[u8]), String> {
    let ((number, votes), rest) = script::opening(bytes);
    let floor = votes.and_then(|votes| Floor::open(&votes));
    let floor = floor.map_err(|refusal| answer_line(number, Err(refusal)))?;
    Ok((floor, rest))
}

fn answer_line(number: usize, answer: Result<(), Refusal>) -> String {
    match answer {
        Ok(()) => format!("{number} 0\n"),
        Err(refusal) => format!("{number} {} {}\n", refusal.number(), refusal.layer()),
    }
}

/// Every call's answer, every ledger, and how many messages were sent.
pub fn rehearsal(bytes: &[u8]) -> String {
    let (mut floor, rest) = match open(bytes) {
        Ok(opened) => opened,
        Err(text) => return text,
    };
    let mut text = String::new();
    for (number, call) in script::calls(rest) {
        let answer = call.and_then(|call: Call| floor.carry_out(call));
        text.push_str(&answer_line(number, answer));
    }
    for (number, ledger) in floor.ledgers().iter().enumerate() {
        let _ = writeln!(
            text,
            "L {number} {} {}",
            status_letter(ledger),
            entry_letters(ledger)
        );
    }
    let _ = writeln!(text, "M {}", floor.network().sent());
    text
}

/// What a person must look into once the calls are done.
pub fn worklist(bytes: &[u8]) -> String {
    let (mut floor, rest) = match open(bytes) {
        Ok(opened) => opened,
        Err(text) => return text,
    };
    for (_, call) in script::calls(rest) {
        // What was turned away changed nothing, and here nobody asks.
        let _ = call.and_then(|call: Call| floor.carry_out(call));
    }
    let mut text = String::new();
    let mut notes = 0;
    for (number, ledger) in floor.ledgers().iter().enumerate() {
        if let Some((reason, words)) = note(ledger) {
            let _ = writeln!(text, "W {number} {reason} {words}");
            notes += 1;
        }
    }
    let _ = writeln!(text, "N {notes}");
    text
}

/// The reason's number and its words, for a ledger that needs a person.
pub fn note(ledger: &Ledger) -> Option<(u8, &'static str)> {
    if ledger.is_uncertain() {
        Some((1, UNCERTAIN))
    } else if ledger.is_running() && ledger.has_dispute() {
        Some((2, DISPUTE))
    } else {
        None
    }
}

pub fn status_letter(ledger: &Ledger) -> char {
    match ledger.status() {
        Status::Running => 'R',
        Status::Stopped => 'X',
        Status::Restarted if ledger.is_uncertain() => 'U',
        Status::Restarted => 'K',
    }
}

pub fn entry_letters(ledger: &Ledger) -> String {
    if ledger.journal().is_empty() {
        return "-".to_string();
    }
    ledger
        .journal()
        .iter()
        .map(|&entry: &Entry| entry.letter())
        .collect()
}
