//! What random scripts reach: how often each answer, stage, entry and flaw comes up.

use std::collections::BTreeMap;
use std::fmt::Write;

use crate::flaws;
use crate::floor::{Call, Floor};
use crate::generate::{self, Profile};
use crate::ledger::{Entry, Ledger, Message, Stage, Status};
use crate::refusal::Refusal;
use crate::reports;
use crate::script;

const STAGES: [&str; 10] = [
    "Initial",
    "Preparing",
    "Wait",
    "Voting",
    "Ready",
    "Asking",
    "Consulting",
    "Announcing",
    "Announced",
    "Decided",
];

/// What must come up, beside every profile, refusal and flaw.
const EXPECTED: [(&str, &[&str]); 8] = [
    ("size", &["1", "2", "3", "4", "5", "6", "7", "8", "9"]),
    ("status", &["R", "X", "K", "U"]),
    ("entry", &["a", "b", "c", "d", "e", "f", "g", "h", "i", "j"]),
    ("note", &["1", "2"]),
    ("stop in", &STAGES),
    (
        "link full",
        &[
            "at a step in Asking",
            "at a step in Announcing",
            "for a Reply",
        ],
    ),
    (
        "restart on",
        &[
            "-", "a", "ad", "adj", "ae", "b", "be", "bf", "bfj", "bfh", "bg", "bgi", "c",
        ],
    ),
    ("whole batch", &["all posted", "all dropped", "mixed"]),
];

/// Counts under a heading and a name. What must come up is there from the start, with 0.
#[derive(Default)]
struct Tally(BTreeMap<(&'static str, String), u64>);

pub fn report(from: u64, to: u64) -> String {
    let mut tally = Tally::expecting();
    for seed in from..=to {
        let script = generate::script(seed);
        tally.add("profile", format!("{:?}", script.profile));
        if let Some(flaw) = script.flaw {
            tally.add("flaw", flaw);
        }
        tally.run(&script.bytes);
    }
    tally.text()
}

impl Tally {
    fn expecting() -> Tally {
        let mut tally = Tally::default();
        for (heading, names) in EXPECTED {
            names.iter().for_each(|name| tally.expect(heading, name));
        }
        for (_, profile) in Profile::WEIGHTED {
            tally.expect("profile", format!("{profile:?}"));
        }
        for refusal in Refusal::ALL {
            tally.expect("answer", refusal_name(refusal));
        }
        for (flaw, _) in flaws::OF_CALLS.iter().chain(&flaws::OF_OPENINGS) {
            tally.expect("flaw", flaw);
        }
        for flaw in flaws::OF_SCRIPTS {
            tally.expect("flaw", flaw);
        }
        tally
    }

    fn expect(&mut self, heading: &'static str, name: impl ToString) {
        self.0.entry((heading, name.to_string())).or_insert(0);
    }

    fn add(&mut self, heading: &'static str, name: impl ToString) {
        *self.0.entry((heading, name.to_string())).or_insert(0) += 1;
    }

    fn run(&mut self, bytes: &[u8]) {
        let ((number, votes), rest) = script::opening(bytes);
        if let Ok(votes) = &votes {
            self.add("size", votes.len());
        }
        let mut floor = match votes.and_then(|votes| Floor::open(&votes)) {
            Ok(floor) => floor,
            Err(refusal) => {
                self.add("answer", refusal_name(refusal));
                return self.add("ended at line", number);
            }
        };
        for (_, call) in script::calls(rest) {
            let before = floor.clone();
            let answer = call.and_then(|call| floor.carry_out(call));
            match answer {
                Ok(()) => self.taken(&before, call.expect("a taken call was read")),
                Err(refusal) => self.refused(&floor, call, refusal),
            }
        }
        self.ending(&floor);
    }

    fn refused(&mut self, floor: &Floor, call: Result<Call, Refusal>, refusal: Refusal) {
        self.add("answer", refusal_name(refusal));
        match (refusal, call) {
            (Refusal::LinkFull, Ok(Call::Step { ledger })) => {
                let stage = stage_name(floor.ledgers()[ledger].stage());
                self.add("link full", format!("at a step in {stage}"));
            }
            (Refusal::LinkFull, _) => self.add("link full", "for a Reply"),
            _ => {}
        }
    }

    /// Where the named ledger stood before a call that was taken.
    fn taken(&mut self, before: &Floor, call: Call) {
        let stage = |number: usize| stage_name(before.ledgers()[number].stage());
        match call {
            Call::Stop { ledger } => self.add("stop in", stage(ledger)),
            Call::Expire { by, other } => {
                let when = if before.on_time(other) {
                    "on time"
                } else {
                    "early"
                };
                self.add("expiry", format!("{when} in {}", stage(by)));
            }
            Call::Restart { ledger } => {
                let entries = reports::entry_letters(&before.ledgers()[ledger]);
                self.add("restart on", entries);
            }
            Call::Deliver { from, to } => {
                let message = before.next_message(from, to).map_or("none", message_name);
                if before.ledgers()[to].is_running() {
                    self.add("delivery", format!("{message} at {}", stage(to)));
                } else {
                    self.add("discarded", message);
                }
            }
            Call::Begin | Call::Step { .. } => {}
        }
    }

    fn ending(&mut self, floor: &Floor) {
        for ledger in floor.ledgers() {
            self.add("status", reports::status_letter(ledger));
            ledger
                .journal()
                .iter()
                .for_each(|entry| self.add("entry", entry.letter()));
            if let Some((reason, _)) = reports::note(ledger) {
                self.add("note", reason);
            }
            self.add("entries in a journal", ledger.journal().len());
            if ledger.status() == Status::Running {
                self.add("round reached", ledger.round());
            }
        }
        let all = |entry| floor.ledgers().iter().all(|ledger| wrote(ledger, entry));
        let any = |entry| floor.ledgers().iter().any(|ledger| wrote(ledger, entry));
        if all(Entry::Committed) {
            self.add("whole batch", "all posted");
        } else if all(Entry::Aborted) {
            self.add("whole batch", "all dropped");
        } else if any(Entry::Committed) && any(Entry::Aborted) {
            self.add("whole batch", "mixed");
        }
    }

    fn text(&self) -> String {
        let mut text = String::new();
        let mut last = "";
        for ((heading, name), count) in &self.0 {
            if *heading != last {
                let _ = writeln!(text, "{heading}");
                last = heading;
            }
            let _ = writeln!(text, "  {count:>8}  {name}");
        }
        let never = self.0.values().filter(|&&count| count == 0).count();
        let _ = writeln!(text, "never reached: {never}");
        text
    }
}

fn wrote(ledger: &Ledger, entry: Entry) -> bool {
    ledger.journal().contains(&entry)
}

/// Padded, so that the numbers come in order.
fn refusal_name(refusal: Refusal) -> String {
    format!("{:>2} {} {refusal:?}", refusal.number(), refusal.layer())
}

fn stage_name(stage: Stage) -> &'static str {
    let at = match stage {
        Stage::Initial => 0,
        Stage::Preparing { .. } => 1,
        Stage::Wait => 2,
        Stage::Voting => 3,
        Stage::Ready => 4,
        Stage::Asking { .. } => 5,
        Stage::Consulting => 6,
        Stage::Announcing { .. } => 7,
        Stage::Announced(_) => 8,
        Stage::Decided(_) => 9,
    };
    STAGES[at]
}

fn message_name(message: Message) -> &'static str {
    match message {
        Message::Prepare => "Prepare",
        Message::Vote(_) => "Vote",
        Message::Order(_) => "Order",
        Message::Ask { .. } => "Ask",
        Message::Reply { held: None, .. } => "Reply without a decision",
        Message::Reply { held: Some(_), .. } => "Reply with a decision",
    }
}
