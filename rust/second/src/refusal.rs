//! The fourteen ways of being turned away, with document 01's numbers.

/// The first suspect set: series, set, and quantity (1 distance, 2 height).
#[derive(Clone, Copy, Debug, Eq, PartialEq)]
pub struct Suspect {
    pub series: u64,
    pub set: u64,
    pub quantity: u64,
}

#[derive(Clone, Copy, Debug, Eq, PartialEq)]
pub enum Refusal {
    Register,
    Place,
    Open,
    Terms,
    Closed,
    Filled,
    Empty,
    Far,
    Nothing,
    Short,
    Suspect(Suspect),
    Zero,
    Room,
    Form,
}

impl Refusal {
    pub fn number(self) -> u64 {
        match self {
            Refusal::Register => 1,
            Refusal::Place => 2,
            Refusal::Open => 3,
            Refusal::Terms => 4,
            Refusal::Closed => 5,
            Refusal::Filled => 6,
            Refusal::Empty => 7,
            Refusal::Far => 8,
            Refusal::Nothing => 9,
            Refusal::Short => 10,
            Refusal::Suspect(_) => 11,
            Refusal::Zero => 12,
            Refusal::Room => 13,
            Refusal::Form => 14,
        }
    }

    /// Series, set and quantity: zeros beside every refusal but SUSPECT.
    pub fn named(self) -> Suspect {
        match self {
            Refusal::Suspect(suspect) => suspect,
            _ => Suspect {
                series: 0,
                set: 0,
                quantity: 0,
            },
        }
    }
}

/// 0 for an accepted call, the refusal's number otherwise.
pub fn number_of<T>(outcome: &Result<T, Refusal>) -> u64 {
    match outcome {
        Ok(_) => 0,
        Err(refusal) => refusal.number(),
    }
}
