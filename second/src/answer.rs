//! What an event is answered: a code, and an outcome. The parties and the event speak in these.

/// "code, outcome, host, block, value"
#[derive(Clone, Copy, Debug, PartialEq, Eq)]
pub struct Answer {
    pub code: u64,
    pub outcome: u64,
    pub host: u64,
    pub block: u64,
    pub value: u64,
}

impl Answer {
    /// A refusal's "other answer fields" are zero.
    pub fn refused(refusal: Refusal) -> Answer {
        Answer {
            code: refusal as u64,
            outcome: 0,
            host: 0,
            block: 0,
            value: 0,
        }
    }

    pub fn done(outcome: Outcome) -> Answer {
        let (outcome, host, block, value) = outcome.numbers();
        Answer {
            code: 0,
            outcome,
            host: host as u64,
            block: block as u64,
            value,
        }
    }
}

/// The codes other than 0.
#[derive(Clone, Copy, Debug, PartialEq, Eq)]
pub enum Refusal {
    /// "number outside its range, unknown kind, unused operand not 0, or a read's chosen copy not
    /// in the block's set"
    Range = 1,
    /// "the party isn't in the state that the step names"
    State = 2,
    /// "clock not above the host's last drawn"
    Clock = 3,
    /// "host already has 8 operations"
    Full = 4,
    /// "the step's messages exceed the free places"
    Room = 5,
    /// "epoch change, and for some block every chunk of its set is lost"
    AllLost = 6,
    /// "epoch is 4,294,967,295"
    LastEpoch = 7,
    /// "table not well formed"
    IllFormed = 8,
}

/// Host, block and a done read's value.
#[derive(Clone, Copy, Debug, PartialEq, Eq)]
pub enum Outcome {
    None,
    ReadDone(usize, usize, u64),
    WriteDone(usize, usize),
    ReadFailed(usize, usize),
    WriteFailed(usize, usize),
}

impl Outcome {
    /// "none 0, read done 1, write done 2, read failed 3, write failed 4; then host, block, value
    /// (all 0 for none; value 0 unless read done)"
    fn numbers(self) -> (u64, usize, usize, u64) {
        match self {
            Outcome::None => (0, 0, 0, 0),
            Outcome::ReadDone(host, block, value) => (1, host, block, value),
            Outcome::WriteDone(host, block) => (2, host, block, 0),
            Outcome::ReadFailed(host, block) => (3, host, block, 0),
            Outcome::WriteFailed(host, block) => (4, host, block, 0),
        }
    }
}
