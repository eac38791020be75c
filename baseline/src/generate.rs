//! Random scripts. Most of the calls would be taken: the maker of a script runs the floor
//! while it writes. Each script follows one profile, which says what it is out for.

use crate::flaws;
use crate::floor::{Call, Floor};
use crate::ledger::{Ledger, Vote};
use crate::random::Random;
use crate::refusal::Refusal;
use crate::script::{self, LONGEST};

#[derive(Clone, Copy, Debug, PartialEq, Eq)]
pub enum Profile {
    /// No stop and no expiry, until there is nothing left to do.
    Calm,
    /// Stops, restarts, and expiries of ledgers that have stopped.
    Stops,
    /// Expiries of ledgers that may be running.
    Early,
    /// Many messages and few deliveries, over several rounds of a low leader.
    Crowded,
    /// The lowest ledgers stop one after another.
    Leaders,
    /// An expiry while the coordinator's decision is on its way.
    Disputes,
    /// A leader asks ledgers that may know a decision.
    Learning,
    /// Stops followed by restarts.
    Uncertain,
    /// Calls without a plan.
    Stray,
    /// Sizes that read well and do not open.
    Sizes,
    /// A bad line among the calls.
    BadCall,
    /// A bad opening line.
    BadOpening,
    /// A good script with one byte changed, added or left out.
    Scratched,
    /// Scripts about as long as a script may be.
    Long,
    /// Bytes without any sense.
    Noise,
}

impl Profile {
    pub const WEIGHTED: [(usize, Profile); 15] = [
        (10, Profile::Calm),
        (14, Profile::Stops),
        (11, Profile::Early),
        (10, Profile::Crowded),
        (12, Profile::Leaders),
        (8, Profile::Disputes),
        (10, Profile::Learning),
        (8, Profile::Uncertain),
        (8, Profile::Stray),
        (2, Profile::Sizes),
        (10, Profile::BadCall),
        (8, Profile::BadOpening),
        (6, Profile::Scratched),
        (1, Profile::Long),
        (1, Profile::Noise),
    ];
}

pub struct Script {
    pub profile: Profile,
    /// What was spoiled on purpose.
    pub flaw: Option<&'static str>,
    pub bytes: Vec<u8>,
}

pub fn script(seed: u64) -> Script {
    let mut random = Random::new(seed);
    let profile = random.weighted(&Profile::WEIGHTED);
    let (flaw, bytes) = match profile {
        Profile::Sizes => (None, unopenable(&mut random)),
        Profile::BadCall => spoiled_call(&mut random),
        Profile::BadOpening => spoiled_opening(&mut random),
        Profile::Scratched => (None, scratched(&mut random)),
        Profile::Long => long(&mut random),
        Profile::Noise => (None, noise(&mut random)),
        _ => (None, batch(profile, &mut random)),
    };
    Script {
        profile,
        flaw,
        bytes,
    }
}

#[derive(Clone, Copy, PartialEq, Eq)]
enum Move {
    Step,
    Deliver,
    /// The expiry of a ledger that has stopped, once nothing of it is on its way.
    OnTime,
    /// The expiry of any ledger, at any time.
    Early,
    /// Another round: a leader expires a ledger above it.
    Again,
    Stop,
    Restart,
    Stray,
}

/// A script in the making, and the floor it has led to so far.
struct Draft<'a> {
    random: &'a mut Random,
    floor: Floor,
    bytes: Vec<u8>,
}

/// The calls of one batch, by one of the profiles that keep to the format.
fn batch(profile: Profile, random: &mut Random) -> Vec<u8> {
    let (low, high) = match profile {
        Profile::Crowded => (4, 8),
        Profile::Leaders => (3, 8),
        Profile::Learning => (3, 7),
        Profile::Disputes => (2, 6),
        _ => (2, 8),
    };
    let size = random.between(low, high);
    let all_yes = profile == Profile::Disputes || random.percent(60);
    let votes = random_votes(random, size, if all_yes { 100 } else { 75 });
    let mut draft = Draft::open(random, &votes);
    match profile {
        Profile::Calm => draft.calm(),
        Profile::Stops => draft.stops(),
        Profile::Early => draft.early(),
        Profile::Crowded => draft.crowded(),
        Profile::Leaders => draft.leaders(),
        Profile::Disputes => draft.disputes(),
        Profile::Learning => draft.learning(),
        Profile::Uncertain => draft.uncertain(),
        _ => draft.stray(),
    }
    draft.bytes
}

fn random_votes(random: &mut Random, size: usize, yes: usize) -> Vec<Vote> {
    (0..size)
        .map(|_| {
            if random.percent(yes) {
                Vote::Yes
            } else {
                Vote::No
            }
        })
        .collect()
}

impl Draft<'_> {
    fn open<'a>(random: &'a mut Random, votes: &[Vote]) -> Draft<'a> {
        let floor = Floor::open(votes).expect("drafts have from 2 to 8 ledgers");
        let bytes = format!("{}\n", script::opening_line(votes)).into_bytes();
        Draft {
            random,
            floor,
            bytes,
        }
    }

    /// Tries a call. One that is turned away has changed nothing and is mostly left out; a
    /// full link is rare enough to be shown whenever it comes up.
    fn call(&mut self, call: Call) {
        let keep = match self.floor.carry_out(call) {
            Ok(()) | Err(Refusal::LinkFull) => true,
            Err(_) => self.random.percent(4),
        };
        if keep {
            self.keep(call);
        }
    }

    fn keep(&mut self, call: Call) {
        self.bytes
            .extend_from_slice(script::call_line(call).as_bytes());
        self.bytes.push(b'\n');
    }

    fn moves(&mut self, count: usize, mix: &[(usize, Move)]) {
        for _ in 0..count {
            let kind = self.random.weighted(mix);
            if let Some(call) = self.propose(kind) {
                self.call(call);
            }
        }
    }

    fn propose(&mut self, kind: Move) -> Option<Call> {
        let size = self.floor.size();
        let (one, other) = (self.random.below(size), self.random.below(size));
        match kind {
            Move::Step => {
                let busy = self.numbers(|ledger| ledger.is_running() && ledger.act().is_some());
                Some(Call::Step {
                    ledger: self.random.pick(&busy)?,
                })
            }
            Move::Deliver => {
                let loaded: Vec<(usize, usize)> = self.floor.network().loaded().collect();
                let (from, to) = self.random.pick(&loaded)?;
                Some(Call::Deliver { from, to })
            }
            Move::OnTime => {
                let waiting =
                    self.numbers(|ledger| ledger.is_running() && ledger.stage().held().is_none());
                let gone: Vec<usize> = (0..size).filter(|&at| self.floor.on_time(at)).collect();
                let (by, other) = (self.random.pick(&waiting)?, self.random.pick(&gone)?);
                Some(Call::Expire { by, other })
            }
            Move::Early => Some(Call::Expire { by: one, other }),
            Move::Again => {
                let by = *self.numbers(|ledger| ledger.round() > 0).first()?;
                Some(Call::Expire {
                    by,
                    other: self.random.between(by, size - 1),
                })
            }
            Move::Stop => Some(Call::Stop { ledger: one }),
            Move::Restart => Some(Call::Restart { ledger: one }),
            Move::Stray => Some(stray_call(self.random, size + 1)),
        }
    }

    fn numbers(&self, fit: impl Fn(&Ledger) -> bool) -> Vec<usize> {
        (0..self.floor.size())
            .filter(|&at| fit(&self.floor.ledgers()[at]))
            .collect()
    }

    /// Nearly always the batch begins at once.
    fn begin(&mut self) {
        if self.random.percent(92) {
            self.call(Call::Begin);
        }
    }

    /// Steps and deliveries until none is left. There is an end: without an expiry, no ledger
    /// sends another the same message twice.
    fn finish(&mut self) {
        loop {
            let before = self.floor.clone();
            self.moves(20, &[(1, Move::Step), (1, Move::Deliver)]);
            if self.floor == before {
                return;
            }
        }
    }

    fn calm(&mut self) {
        self.call(Call::Begin);
        self.finish();
    }

    fn stops(&mut self) {
        self.begin();
        let count = self.random.between(10, 220);
        let mix = [
            (40, Move::Step),
            (40, Move::Deliver),
            (20, Move::OnTime),
            (2, Move::Stop),
            (2, Move::Restart),
        ];
        self.moves(count, &mix);
    }

    fn early(&mut self) {
        self.begin();
        let count = self.random.between(10, 160);
        let early = self.random.between(1, 30);
        let mix = [
            (40, Move::Step),
            (40, Move::Deliver),
            (early, Move::Early),
            (1, Move::Stop),
        ];
        self.moves(count, &mix);
        if self.random.percent(40) {
            self.finish();
        }
    }

    fn crowded(&mut self) {
        self.begin();
        let count = self.random.between(0, 40);
        self.moves(count, &[(10, Move::Step), (10, Move::Deliver)]);
        let leader = self.random.between(1, self.floor.size() - 3);
        self.lead(leader);
        if self.random.percent(40) {
            self.lead(leader + 1);
        }
        let delivery = self.random.between(1, 8);
        let count = self.random.between(10, 80);
        self.moves(
            count,
            &[
                (10, Move::Step),
                (delivery, Move::Deliver),
                (3, Move::Again),
            ],
        );
        if self.random.percent(30) {
            self.finish();
        }
    }

    fn leaders(&mut self) {
        self.begin();
        let stopping = self.random.between(1, self.floor.size() - 1);
        for lowest in 0..stopping {
            let count = self.random.between(0, 30);
            let mix = [(20, Move::Step), (20, Move::Deliver), (20, Move::OnTime)];
            self.moves(count, &mix);
            self.call(Call::Stop { ledger: lowest });
        }
        let count = self.random.between(20, 150);
        let mix = [
            (20, Move::Step),
            (20, Move::Deliver),
            (20, Move::OnTime),
            (2, Move::Stop),
            (1, Move::Restart),
        ];
        self.moves(count, &mix);
    }

    /// A ledger expires all lower ones, stopped or not.
    fn lead(&mut self, leader: usize) {
        for lower in 0..leader {
            self.call(Call::Expire {
                by: leader,
                other: lower,
            });
        }
    }

    /// All votes are in, and no other ledger knows the decision yet.
    fn until_decided(&mut self) {
        self.call(Call::Begin);
        let decided = |floor: &Floor| floor.ledgers()[0].stage().held().is_some();
        while !decided(&self.floor) {
            self.moves(1, &[(1, Move::Step), (1, Move::Deliver)]);
        }
    }

    fn disputes(&mut self) {
        self.until_decided();
        if self.random.percent(40) {
            self.lone_drop();
        }
        let count = self.random.between(2, 30);
        let delivery = self.random.between(1, 6);
        let mix = [(4, Move::Step), (delivery, Move::Deliver), (3, Move::Early)];
        self.moves(count, &mix);
        if self.random.percent(50) {
            self.restart_disputed();
        }
        if self.random.percent(80) {
            self.finish();
        }
        let count = self.random.between(0, 3);
        self.moves(count, &[(1, Move::Stop), (1, Move::Restart)]);
    }

    /// One ledger gives all others up and tells them, while the coordinator has told few.
    fn lone_drop(&mut self) {
        let size = self.floor.size();
        let lone = self.random.between(1, size - 1);
        for other in 0..size {
            self.call(Call::Expire { by: lone, other });
        }
        for other in 0..size {
            self.call(Call::Step { ledger: lone });
            self.arrives(lone, other, 60);
            if self.random.percent(30) {
                self.call(Call::Step { ledger: 0 });
            }
        }
    }

    /// Messages arrive with hardly a step in between, so that many ledgers hear of a dispute
    /// before they close; some of these stop and restart.
    fn restart_disputed(&mut self) {
        let count = self.random.between(0, 25);
        self.moves(count, &[(2, Move::Step), (8, Move::Deliver)]);
        for ledger in self.numbers(|ledger| ledger.is_running() && ledger.has_dispute()) {
            if self.random.percent(60) {
                self.call(Call::Stop { ledger });
                self.call(Call::Restart { ledger });
            }
        }
    }

    fn learning(&mut self) {
        let size = self.floor.size();
        let leader = self.random.between(1, size - 2);
        if self.random.percent(60) {
            self.until_decided();
            self.decision_spreads(leader + 1);
        } else {
            self.begin();
            let count = self.random.between(0, 20);
            self.moves(count, &[(1, Move::Step), (1, Move::Deliver)]);
        }
        self.lead(leader);
        for _ in 0..self.random.between(1, 3) {
            self.consult(leader);
        }
        if self.random.percent(40) {
            self.lead(leader + 1);
        }
        let count = self.random.between(0, 60);
        let mix = [(4, Move::Step), (4, Move::Deliver), (1, Move::Again)];
        self.moves(count, &mix);
        if self.random.percent(30) {
            self.finish();
        }
    }

    /// The coordinator's orders reach some of the ledgers from `lowest` on, and no other.
    fn decision_spreads(&mut self, lowest: usize) {
        let size = self.floor.size();
        for _ in 0..self.random.between(lowest, size) {
            self.call(Call::Step { ledger: 0 });
        }
        if self.random.percent(50) {
            self.call(Call::Stop { ledger: 0 });
        }
        for to in lowest..size {
            self.arrives(0, to, 50);
        }
    }

    /// One round of a leader. The expiry that starts the next one may come before the replies
    /// or after some of them.
    fn consult(&mut self, leader: usize) {
        let size = self.floor.size();
        for higher in leader + 1..size {
            self.call(Call::Step { ledger: leader });
            self.arrives(leader, higher, 80);
        }
        let other = self.random.between(leader + 1, size - 1);
        let expiry = Call::Expire { by: leader, other };
        let before = self.random.percent(30);
        if before {
            self.call(expiry);
        }
        for higher in leader + 1..size {
            self.arrives(higher, leader, 70);
        }
        if !before && self.random.percent(80) {
            self.call(expiry);
        }
    }

    /// A message arrives with this chance.
    fn arrives(&mut self, from: usize, to: usize, chance: usize) {
        if self.random.percent(chance) {
            self.call(Call::Deliver { from, to });
        }
    }

    fn uncertain(&mut self) {
        self.begin();
        let count = self.random.between(5, 90);
        self.moves(count, &[(20, Move::Step), (20, Move::Deliver)]);
        let count = self.random.between(2, 40);
        let mix = [
            (2, Move::Step),
            (2, Move::Deliver),
            (3, Move::Stop),
            (3, Move::Restart),
        ];
        self.moves(count, &mix);
    }

    fn stray(&mut self) {
        let count = self.random.between(0, 200);
        for _ in 0..count {
            let kind = self.random.weighted(&[(3, Move::Stray), (1, Move::Step)]);
            if let Some(call) = self.propose(kind) {
                // Here a call is kept whether it was taken or not.
                let _ = self.floor.carry_out(call);
                self.keep(call);
            }
        }
    }
}

/// Any call; its numbers are mostly below `bound` and always one digit.
fn stray_call(random: &mut Random, bound: usize) -> Call {
    let bound = if random.percent(5) { 10 } else { bound };
    let (one, other) = (random.below(bound), random.below(bound));
    let choices = [
        (1, Call::Begin),
        (10, Call::Step { ledger: one }),
        (
            10,
            Call::Deliver {
                from: one,
                to: other,
            },
        ),
        (2, Call::Expire { by: one, other }),
        (1, Call::Stop { ledger: one }),
        (2, Call::Restart { ledger: one }),
    ];
    random.weighted(&choices)
}

/// A short good script, as a base for others.
fn good(random: &mut Random) -> Vec<u8> {
    let profiles = [
        Profile::Calm,
        Profile::Stops,
        Profile::Early,
        Profile::Stray,
    ];
    let profile = profiles[random.below(profiles.len())];
    batch(profile, random)
}

fn good_lines(random: &mut Random) -> Vec<Vec<u8>> {
    good(random)
        .split_inclusive(|&byte| byte == b'\n')
        .map(<[u8]>::to_vec)
        .collect()
}

fn unopenable(random: &mut Random) -> Vec<u8> {
    let size = if random.percent(50) { 1 } else { 9 };
    let votes = random_votes(random, size, 70);
    let mut lines = good_lines(random);
    lines[0] = format!("{}\n", script::opening_line(&votes)).into_bytes();
    lines.concat()
}

/// The lines after the bad one stay: they must not be read.
fn spoiled_call(random: &mut Random) -> (Option<&'static str>, Vec<u8>) {
    let mut lines = good_lines(random);
    if random.percent(5) {
        let mut bytes = lines.concat();
        bytes.extend(flaws::call_naming_ledgers(random));
        return (Some(flaws::OF_SCRIPTS[0]), bytes);
    }
    let (name, spoil) = flaws::OF_CALLS[random.below(flaws::OF_CALLS.len())];
    let line = flaws::call_naming_ledgers(random);
    let mut line = spoil(random, line);
    line.push(b'\n');
    let at = random.between(1, lines.len());
    lines.insert(at, line);
    (Some(name), lines.concat())
}

fn spoiled_opening(random: &mut Random) -> (Option<&'static str>, Vec<u8>) {
    let mut lines = good_lines(random);
    let good = lines[0][..lines[0].len() - 1].to_vec();
    match random.below(20) {
        0 => return (Some(flaws::OF_SCRIPTS[1]), good),
        1 => return (Some(flaws::OF_SCRIPTS[2]), Vec::new()),
        _ => {}
    }
    let (name, spoil) = flaws::OF_OPENINGS[random.below(flaws::OF_OPENINGS.len())];
    lines[0] = spoil(random, good);
    lines[0].push(b'\n');
    (Some(name), lines.concat())
}

fn scratched(random: &mut Random) -> Vec<u8> {
    let mut bytes = good(random);
    let at = random.below(bytes.len());
    let mut byte = random.byte();
    if random.percent(50) {
        byte = b" \nBSDEXRF0129YN"[random.below(15)];
    }
    match random.below(3) {
        0 => bytes[at] = byte,
        1 => bytes.insert(at, byte),
        _ => drop(bytes.remove(at)),
    }
    bytes
}

/// Every call's line has an even length, and the opening line's is even for an odd size only.
/// So an odd size fills a script to the last byte, and an even one misses it by one.
fn long(random: &mut Random) -> (Option<&'static str>, Vec<u8>) {
    let kind = random.below(6);
    let odd = matches!(kind, 0 | 3 | 4);
    let size = random.between(1, 3) * 2 + usize::from(odd);
    let votes = random_votes(random, size, 90);
    let mut bytes = format!("{}\n", script::opening_line(&votes)).into_bytes();
    let length = [
        LONGEST,
        LONGEST - 1,
        LONGEST + 1,
        LONGEST + 2,
        LONGEST,
        3 * LONGEST + 1,
    ][kind];
    let one_kind = random.percent(25);
    while bytes.len() < length {
        let call = if one_kind {
            Call::Begin
        } else {
            stray_call(random, size)
        };
        let line = script::call_line(call);
        if bytes.len() + line.len() < length {
            bytes.extend_from_slice(line.as_bytes());
            bytes.push(b'\n');
        }
    }
    match kind {
        0 | 1 => (None, bytes),
        2 | 3 => (Some(flaws::OF_SCRIPTS[3]), bytes),
        4 => {
            bytes[length - 1] = b'0';
            (Some(flaws::OF_SCRIPTS[5]), bytes)
        }
        _ => (Some(flaws::OF_SCRIPTS[4]), bytes),
    }
}

/// Now and then it starts like a script.
fn noise(random: &mut Random) -> Vec<u8> {
    let mut bytes = if random.percent(50) {
        b"F 3 YYY\nB\n".to_vec()
    } else {
        Vec::new()
    };
    for _ in 0..random.below(300) {
        let byte = random.byte();
        bytes.push(byte);
    }
    bytes
}
