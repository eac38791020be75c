//! One ledger: where it stands, what it has written, and what it does next.

use crate::refusal::Refusal;

#[derive(Clone, Copy, Debug, PartialEq, Eq)]
pub enum Vote {
    Yes,
    No,
}

#[derive(Clone, Copy, Debug, PartialEq, Eq)]
pub enum Decision {
    Post,
    Drop,
}

#[derive(Clone, Copy, Debug, PartialEq, Eq)]
pub enum Message {
    Prepare,
    Vote(Vote),
    Order(Decision),
    Ask {
        round: usize,
    },
    Reply {
        round: usize,
        held: Option<Decision>,
    },
}

/// What a journal keeps. The discriminant is the entry's code.
#[derive(Clone, Copy, Debug, PartialEq, Eq)]
#[repr(u8)]
pub enum Entry {
    Begin = 1,
    ReadyYes = 2,
    ReadyNo = 3,
    CommitReached = 4,
    AbortReached = 5,
    CommitReceived = 6,
    AbortReceived = 7,
    Committed = 8,
    Aborted = 9,
    Dispute = 10,
}

impl Entry {
    pub fn letter(self) -> char {
        char::from(b'a' + (self as u8 - 1))
    }
}

#[derive(Clone, Copy, Debug, PartialEq, Eq)]
pub enum Status {
    Running,
    Stopped,
    Restarted,
}

#[derive(Clone, Copy, Debug, PartialEq, Eq)]
pub enum Stage {
    Initial,
    Preparing { next: usize },
    Wait,
    Voting,
    Ready,
    Asking { next: usize },
    Consulting,
    Announcing { decision: Decision, next: usize },
    Announced(Decision),
    Decided(Decision),
}

impl Stage {
    /// The decision held, if any.
    pub fn held(self) -> Option<Decision> {
        match self {
            Stage::Announcing { decision, .. } => Some(decision),
            Stage::Announced(decision) | Stage::Decided(decision) => Some(decision),
            _ => None,
        }
    }
}

/// What a step of a ledger would do.
#[derive(Clone, Copy, Debug, PartialEq, Eq)]
pub enum Act {
    Send { to: usize, message: Message },
    Close(Decision),
}

#[derive(Clone, Debug, PartialEq, Eq)]
pub struct Ledger {
    number: usize,
    size: usize,
    vote: Vote,
    status: Status,
    journal: Vec<Entry>,
    memory: Memory,
}

/// What a stop loses.
#[derive(Clone, Debug, PartialEq, Eq)]
struct Memory {
    stage: Stage,
    noticed: Vec<bool>,
    /// The votes that came in; only the coordinator gets any.
    votes: Vec<Option<Vote>>,
    round: usize,
    /// Who answered the present round without a decision.
    replied: Vec<bool>,
}

impl Memory {
    fn new(size: usize) -> Memory {
        Memory {
            stage: Stage::Initial,
            noticed: vec![false; size],
            votes: vec![None; size],
            round: 0,
            replied: vec![false; size],
        }
    }
}

impl Ledger {
    pub fn new(number: usize, size: usize, vote: Vote) -> Ledger {
        let memory = Memory::new(size);
        Ledger {
            number,
            size,
            vote,
            status: Status::Running,
            journal: Vec::new(),
            memory,
        }
    }

    pub fn status(&self) -> Status {
        self.status
    }

    pub fn stage(&self) -> Stage {
        self.memory.stage
    }

    pub fn round(&self) -> usize {
        self.memory.round
    }

    pub fn journal(&self) -> &[Entry] {
        &self.journal
    }

    pub fn is_running(&self) -> bool {
        self.status == Status::Running
    }

    /// A restarted ledger whose journal does not settle the batch. A restart that finds out
    /// that the batch was dropped leaves an entry saying so, hence the journal alone tells.
    pub fn is_uncertain(&self) -> bool {
        let settled = self.wrote(Entry::Committed) || self.wrote(Entry::Aborted);
        self.status == Status::Restarted && !settled
    }

    pub fn has_dispute(&self) -> bool {
        self.wrote(Entry::Dispute)
    }

    pub fn must_run(&self) -> Result<(), Refusal> {
        if self.is_running() {
            Ok(())
        } else {
            Err(Refusal::NotRunning)
        }
    }

    pub fn begin(&mut self) -> Result<(), Refusal> {
        self.must_run()?;
        if self.stage() != Stage::Initial {
            return Err(Refusal::Begun);
        }
        self.write(Entry::Begin);
        self.memory.stage = Stage::Preparing { next: 1 };
        Ok(())
    }

    /// The act that a step would do now.
    pub fn act(&self) -> Option<Act> {
        let send = |to, message| Some(Act::Send { to, message });
        match self.stage() {
            Stage::Preparing { next } => send(next, Message::Prepare),
            Stage::Voting => send(0, Message::Vote(self.vote)),
            Stage::Asking { next } => send(
                next,
                Message::Ask {
                    round: self.round(),
                },
            ),
            Stage::Announcing { decision, next } => send(next, Message::Order(decision)),
            Stage::Announced(decision) => Some(Act::Close(decision)),
            _ => None,
        }
    }

    /// Moves on from the present act. A message must have been sent by then: the ledger may
    /// not go on where the link turned it away.
    pub fn act_done(&mut self) {
        if let Stage::Announced(decision) = self.stage() {
            self.write(closing(decision));
        }
        self.memory.stage = match self.stage() {
            Stage::Preparing { next } if next + 1 < self.size => {
                Stage::Preparing { next: next + 1 }
            }
            Stage::Preparing { .. } => Stage::Wait,
            Stage::Voting => Stage::Ready,
            Stage::Asking { next } => self.asking_from(next + 1).unwrap_or(Stage::Consulting),
            Stage::Announcing { decision, next } => {
                let other = (next + 1..self.size).find(|&other| other != self.number);
                let announcing = |next| Stage::Announcing { decision, next };
                other.map_or(Stage::Announced(decision), announcing)
            }
            Stage::Announced(decision) => Stage::Decided(decision),
            idle => idle,
        };
    }

    /// The answer that a message asks for. It goes out in the call that brings the message.
    pub fn answer(&self, message: Message) -> Option<Message> {
        match message {
            Message::Ask { round } => Some(Message::Reply {
                round,
                held: self.stage().held(),
            }),
            _ => None,
        }
    }

    pub fn receive(&mut self, from: usize, message: Message) {
        match message {
            Message::Prepare => self.receive_prepare(),
            Message::Vote(vote) => self.receive_vote(from, vote),
            Message::Order(decision) => self.receive_decision(decision),
            Message::Ask { .. } => {}
            // A decision is a decision, however old the round it answers.
            Message::Reply {
                held: Some(decision),
                ..
            } => self.receive_decision(decision),
            Message::Reply { held: None, round } => self.receive_blank(from, round),
        }
    }

    fn receive_prepare(&mut self) {
        if self.number == 0 || self.stage() != Stage::Initial {
            return;
        }
        // The vote goes out only after it is in the journal: a ledger that stopped in between
        // would drop what the others post.
        self.write(if self.vote == Vote::Yes {
            Entry::ReadyYes
        } else {
            Entry::ReadyNo
        });
        self.memory.stage = Stage::Voting;
    }

    fn receive_vote(&mut self, from: usize, vote: Vote) {
        if !matches!(self.stage(), Stage::Preparing { .. } | Stage::Wait) {
            return;
        }
        self.memory.votes[from] = Some(vote);
        let others = &self.memory.votes[1..];
        if others.contains(&None) {
            return;
        }
        let all_yes = self.vote == Vote::Yes && others.iter().all(|&v| v == Some(Vote::Yes));
        if all_yes {
            self.write(Entry::CommitReached);
            self.announce(Decision::Post);
        } else {
            self.reach_drop();
        }
    }

    fn receive_decision(&mut self, decision: Decision) {
        match self.stage().held() {
            None => {
                self.write(match decision {
                    Decision::Post => Entry::CommitReceived,
                    Decision::Drop => Entry::AbortReceived,
                });
                self.announce(decision);
            }
            Some(held) if held != decision && !self.has_dispute() => self.write(Entry::Dispute),
            Some(_) => {}
        }
    }

    /// A reply from a ledger that holds no decision. One to an earlier round does not count:
    /// its sender may have heard a decision since.
    fn receive_blank(&mut self, from: usize, round: usize) {
        let leads = matches!(self.stage(), Stage::Asking { .. } | Stage::Consulting);
        if !leads || round != self.round() {
            return;
        }
        self.memory.replied[from] = true;
        let memory = &self.memory;
        let heard = |other: usize| memory.noticed[other] || memory.replied[other];
        if (self.number + 1..self.size).all(heard) {
            self.reach_drop();
        }
    }

    /// This ledger has waited for `other` long enough.
    pub fn expire(&mut self, other: usize) -> Result<(), Refusal> {
        self.must_run()?;
        let unbegun = self.number == 0 && self.stage() == Stage::Initial;
        if self.stage().held().is_some() || unbegun {
            return Err(Refusal::NotWaiting);
        }
        if self.memory.noticed[other] {
            return Err(Refusal::Noticed);
        }
        self.memory.noticed[other] = true;
        if self.number == 0 {
            if self.memory.votes[other].is_none() {
                self.reach_drop();
            }
        } else if self.memory.noticed[..self.number]
            .iter()
            .all(|&noticed| noticed)
        {
            self.lead();
        }
        Ok(())
    }

    /// Every expiry of a leader starts a new round, with no reply counted yet.
    fn lead(&mut self) {
        self.memory.round += 1;
        self.memory.replied.fill(false);
        match self.asking_from(self.number + 1) {
            Some(asking) => self.memory.stage = asking,
            None => self.reach_drop(),
        }
    }

    /// Asking the lowest ledger from `first` on that is not noticed, if there is one.
    fn asking_from(&self, first: usize) -> Option<Stage> {
        let next = (first..self.size).find(|&other| !self.memory.noticed[other])?;
        Some(Stage::Asking { next })
    }

    fn reach_drop(&mut self) {
        self.write(Entry::AbortReached);
        self.announce(Decision::Drop);
    }

    /// The first of the others to be told is ledger 0, or ledger 1 where ledger 0 tells.
    fn announce(&mut self, decision: Decision) {
        let next = usize::from(self.number == 0);
        self.memory.stage = Stage::Announcing { decision, next };
    }

    pub fn stop(&mut self) -> Result<(), Refusal> {
        self.must_run()?;
        self.status = Status::Stopped;
        self.memory = Memory::new(self.size);
        Ok(())
    }

    /// Reads the journal, and closes it with a drop where that is known to be this ledger's
    /// decision, or where nothing the ledger did can have led to a post.
    pub fn restart(&mut self) -> Result<(), Refusal> {
        if self.status != Status::Stopped {
            return Err(Refusal::NotStopped);
        }
        self.status = Status::Restarted;
        let any = |entries: &[Entry]| entries.iter().any(|&entry| self.wrote(entry));
        let settled = any(&[Entry::Committed, Entry::Aborted]);
        let dropped = any(&[Entry::AbortReached, Entry::AbortReceived]);
        let open = any(&[Entry::CommitReached, Entry::CommitReceived, Entry::ReadyYes]);
        if !settled && (dropped || !open) {
            self.write(Entry::Aborted);
        }
        Ok(())
    }

    fn wrote(&self, entry: Entry) -> bool {
        self.journal.contains(&entry)
    }

    fn write(&mut self, entry: Entry) {
        self.journal.push(entry);
    }
}

fn closing(decision: Decision) -> Entry {
    match decision {
        Decision::Post => Entry::Committed,
        Decision::Drop => Entry::Aborted,
    }
}
