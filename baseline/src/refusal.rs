//! Why a call is turned away.

/// One reason for turning a call away. The discriminant is the number that is printed.
///
/// A program that makes its floor new and reads its calls from a script cannot come to the
/// other numbers: its links and journals are always fresh, and no journal grows to eight entries.
#[derive(Clone, Copy, Debug, PartialEq, Eq, PartialOrd, Ord)]
#[repr(u8)]
pub enum Refusal {
    MisreadOpening = 1,
    UnknownLedger = 2,
    NotRunning = 3,
    NotStopped = 4,
    Begun = 5,
    Idle = 6,
    NothingThere = 7,
    LinkFull = 8,
    NotWaiting = 9,
    Noticed = 10,
    BadLine = 16,
}

impl Refusal {
    pub const ALL: [Refusal; 11] = [
        Refusal::MisreadOpening,
        Refusal::UnknownLedger,
        Refusal::NotRunning,
        Refusal::NotStopped,
        Refusal::Begun,
        Refusal::Idle,
        Refusal::NothingThere,
        Refusal::LinkFull,
        Refusal::NotWaiting,
        Refusal::Noticed,
        Refusal::BadLine,
    ];

    pub fn number(self) -> u8 {
        self as u8
    }

    /// The letter of the layer that turned the call away: network, script or floor.
    pub fn layer(self) -> char {
        match self {
            Refusal::NothingThere | Refusal::LinkFull => 'N',
            Refusal::BadLine => 'S',
            _ => 'F',
        }
    }
}
