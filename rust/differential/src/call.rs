//! One call with its arguments, and what it gives back.

/// Series, set and point, in range or not.
pub type Place = [u64; 3];

/// x, y and h.
pub type Reading = [i64; 3];

/// In the order of a file's TERMS line.
pub type Terms = [i64; 12];

/// Every exported call; a book goes by its number.
#[derive(Clone, Debug, PartialEq)]
pub enum Call {
    Length,
    Check,
    Fresh,
    Open(u64, Terms),
    Strike(u64),
    Enter(u64, Place, Reading),
    Correct(u64, Place, Reading),
    Withdraw(u64, Place),
    TakeBack(u64),
    Read(u64, Place),
    Residual(u64, Place),
    Changes(u64),
    Evaluate(u64),
    /// First book, second book, axis
    Compare(u64, u64, u64),
    /// The length of the list that is lent
    PassList(usize),
    EvaluateFile(Vec<u8>),
}

/// The calls' names, in the order of `Call::kind`.
pub const KINDS: [&str; 16] = [
    "length",
    "check",
    "fresh",
    "open",
    "strike",
    "enter",
    "correct",
    "withdraw",
    "take_back",
    "read",
    "residual",
    "changes",
    "evaluate",
    "compare",
    "pass_list",
    "evaluate_file",
];

impl Call {
    pub fn kind(&self) -> usize {
        match self {
            Call::Length => 0,
            Call::Check => 1,
            Call::Fresh => 2,
            Call::Open(..) => 3,
            Call::Strike(_) => 4,
            Call::Enter(..) => 5,
            Call::Correct(..) => 6,
            Call::Withdraw(..) => 7,
            Call::TakeBack(_) => 8,
            Call::Read(..) => 9,
            Call::Residual(..) => 10,
            Call::Changes(_) => 11,
            Call::Evaluate(_) => 12,
            Call::Compare(..) => 13,
            Call::PassList(_) => 14,
            Call::EvaluateFile(_) => 15,
        }
    }

    pub fn name(&self) -> &'static str {
        KINDS[self.kind()]
    }
}

/// All that a call gives back, as words: doubles by their bits, so that answers are equal only
/// when they are the same to the bit.
#[derive(Clone, Copy, Debug, Default, Eq, PartialEq)]
pub struct Answer {
    /// For `rtk_length` the length
    pub refusal: u64,
    /// Series, set and quantity
    pub named: [u64; 3],
    /// A count, three lengths, or sheet, xy and h of an evaluation
    pub words: [u64; 10],
}

/// Where an evaluation's parts stand in `Answer::words`.
pub const S_X: usize = 0;
pub const S_Y: usize = 1;
pub const S_XY: usize = 2;
pub const S_H: usize = 3;
pub const XY: usize = 4;
pub const H: usize = 7;

/// Behind `XY` and `H`, which is where within stands.
pub const DEVIATION: usize = 1;
pub const BOUND: usize = 2;

impl Answer {
    /// Of a call that gives nothing but a number.
    pub fn number(refusal: u64) -> Answer {
        Answer {
            refusal,
            ..Answer::default()
        }
    }

    pub fn count(refusal: u64, count: u64) -> Answer {
        let mut answer = Answer::number(refusal);
        answer.words[0] = count;
        answer
    }

    pub fn lengths(refusal: u64, lengths: [i64; 3]) -> Answer {
        let mut answer = Answer::number(refusal);
        answer.words[..3].copy_from_slice(&lengths.map(|length| length as u64));
        answer
    }

    pub fn is_accepted(&self) -> bool {
        self.refusal == 0
    }

    /// Of an evaluation, on `XY` or `H`.
    pub fn is_within(&self, axis: usize) -> bool {
        self.words[axis] == 1
    }

    /// Of an evaluation, whether both verdicts are within.
    pub fn passes(&self) -> bool {
        self.is_accepted() && self.is_within(XY) && self.is_within(H)
    }

    /// Of an evaluation, whether deviation and bound show the same figure.
    pub fn shows_equal(&self, axis: usize) -> bool {
        self.words[axis + DEVIATION] == self.words[axis + BOUND]
    }
}
