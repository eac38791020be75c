//! The links between the ledgers.

use std::collections::VecDeque;

use crate::ledger::Message;
use crate::refusal::Refusal;

/// How many messages a link holds.
pub const DEPTH: usize = 2;

/// One queue for each ordered pair of ledgers. The queue from a ledger to itself stays empty.
#[derive(Clone, Debug, PartialEq, Eq)]
pub struct Network {
    size: usize,
    links: Vec<VecDeque<Message>>,
    sent: usize,
}

impl Network {
    pub fn new(size: usize) -> Network {
        Network {
            size,
            links: vec![VecDeque::new(); size * size],
            sent: 0,
        }
    }

    /// How many messages were ever put.
    pub fn sent(&self) -> usize {
        self.sent
    }

    pub fn count(&self, from: usize, to: usize) -> usize {
        self.links[from * self.size + to].len()
    }

    pub fn put(&mut self, from: usize, to: usize, message: Message) -> Result<(), Refusal> {
        if self.count(from, to) >= DEPTH {
            return Err(Refusal::LinkFull);
        }
        self.links[from * self.size + to].push_back(message);
        self.sent += 1;
        Ok(())
    }

    /// The message that `take` would take.
    pub fn look(&self, from: usize, to: usize) -> Result<Message, Refusal> {
        self.links[from * self.size + to]
            .front()
            .copied()
            .ok_or(Refusal::NothingThere)
    }

    pub fn take(&mut self, from: usize, to: usize) -> Result<Message, Refusal> {
        self.links[from * self.size + to]
            .pop_front()
            .ok_or(Refusal::NothingThere)
    }

    /// All pairs whose link holds a message.
    pub fn loaded(&self) -> impl Iterator<Item = (usize, usize)> + '_ {
        let pairs = (0..self.size * self.size).map(|at| (at / self.size, at % self.size));
        pairs.filter(|&(from, to)| self.count(from, to) > 0)
    }
}

#[cfg(test)]
mod tests {
    use super::*;

    #[test]
    fn a_link_hands_out_in_order_and_is_full_at_its_depth() {
        let mut network = Network::new(3);
        assert_eq!(network.look(0, 1), Err(Refusal::NothingThere));
        network.put(0, 1, Message::Ask { round: 1 }).unwrap();
        network.put(0, 1, Message::Ask { round: 2 }).unwrap();
        assert_eq!(network.put(0, 1, Message::Prepare), Err(Refusal::LinkFull));
        assert_eq!(network.put(1, 0, Message::Prepare), Ok(()));
        assert_eq!(network.loaded().collect::<Vec<_>>(), [(0, 1), (1, 0)]);
        assert_eq!(network.look(0, 1), Ok(Message::Ask { round: 1 }));
        assert_eq!(network.take(0, 1), Ok(Message::Ask { round: 1 }));
        assert_eq!(network.take(0, 1), Ok(Message::Ask { round: 2 }));
        assert_eq!(network.take(0, 1), Err(Refusal::NothingThere));
        assert_eq!(network.sent(), 3);
    }
}
