//! The floor: the ledgers, the links between them, and the calls that move them.

use crate::ledger::{Act, Ledger, Message, Vote};
use crate::network::Network;
use crate::refusal::Refusal;

#[derive(Clone, Copy, Debug, PartialEq, Eq)]
pub enum Call {
    Begin,
    Step { ledger: usize },
    Deliver { from: usize, to: usize },
    Expire { by: usize, other: usize },
    Stop { ledger: usize },
    Restart { ledger: usize },
}

#[derive(Clone, Debug, PartialEq, Eq)]
pub struct Floor {
    ledgers: Vec<Ledger>,
    network: Network,
}

impl Floor {
    pub fn open(votes: &[Vote]) -> Result<Floor, Refusal> {
        let size = votes.len();
        if !(2..=8).contains(&size) {
            return Err(Refusal::MisreadOpening);
        }
        let ledger = |(number, &vote)| Ledger::new(number, size, vote);
        let ledgers = votes.iter().enumerate().map(ledger).collect();
        Ok(Floor {
            ledgers,
            network: Network::new(size),
        })
    }

    pub fn ledgers(&self) -> &[Ledger] {
        &self.ledgers
    }

    pub fn size(&self) -> usize {
        self.ledgers.len()
    }

    pub fn network(&self) -> &Network {
        &self.network
    }

    /// Carries a call out, or says why not and changes nothing.
    pub fn carry_out(&mut self, call: Call) -> Result<(), Refusal> {
        match call {
            Call::Begin => self.ledgers[0].begin(),
            Call::Step { ledger } => self.step(ledger),
            Call::Deliver { from, to } => self.deliver(from, to),
            Call::Expire { by, other } => self.expire(by, other),
            Call::Stop { ledger } => self.known(ledger)?.stop(),
            Call::Restart { ledger } => self.known(ledger)?.restart(),
        }
    }

    fn step(&mut self, number: usize) -> Result<(), Refusal> {
        let ledger = self.known(number)?;
        ledger.must_run()?;
        let act = ledger.act().ok_or(Refusal::Idle)?;
        if let Act::Send { to, message } = act {
            self.network.put(number, to, message)?;
        }
        self.ledgers[number].act_done();
        Ok(())
    }

    fn deliver(&mut self, from: usize, to: usize) -> Result<(), Refusal> {
        self.pair(from, to)?;
        let message = self.network.look(from, to)?;
        if self.ledgers[to].is_running() {
            // The answer goes out first, so that a full link leaves the question in place.
            if let Some(answer) = self.ledgers[to].answer(message) {
                self.network.put(to, from, answer)?;
            }
            self.ledgers[to].receive(from, message);
        }
        self.network.take(from, to).map(drop)
    }

    fn expire(&mut self, by: usize, other: usize) -> Result<(), Refusal> {
        self.pair(by, other)?;
        self.ledgers[by].expire(other)
    }

    fn known(&mut self, number: usize) -> Result<&mut Ledger, Refusal> {
        self.ledgers.get_mut(number).ok_or(Refusal::UnknownLedger)
    }

    fn pair(&self, one: usize, other: usize) -> Result<(), Refusal> {
        let known = one < self.size() && other < self.size() && one != other;
        if known {
            Ok(())
        } else {
            Err(Refusal::UnknownLedger)
        }
    }

    /// Whether an expiry of `other` would be no mistake now: it has stopped, and nothing that
    /// a stopped ledger sent is still on its way to a running one.
    pub fn on_time(&self, other: usize) -> bool {
        let runs = |number: usize| self.ledgers[number].is_running();
        !runs(other)
            && !self
                .network
                .loaded()
                .any(|(from, to)| !runs(from) && runs(to))
    }

    /// The next message from one ledger to another, if both are known and there is one.
    pub fn next_message(&self, from: usize, to: usize) -> Option<Message> {
        self.pair(from, to).ok()?;
        self.network.look(from, to).ok()
    }
}
