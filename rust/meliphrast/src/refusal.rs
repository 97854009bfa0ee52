//! The ways in which a call is turned away.

use std::error::Error;
use std::fmt;

/// Why a call was turned away; the call then changed no byte.
///
/// ```
/// use meliphrast::{Place, Refusal, Register};
///
/// let register = Register::fresh();
/// let refusal = register.read(3, Place { series: 1, set: 1, point: 1 }).unwrap_err();
/// assert_eq!(refusal, Refusal::Closed);
/// assert_eq!((refusal.number(), refusal.name()), (5, "CLOSED"));
/// assert_eq!(refusal.to_string(), "5 CLOSED: a call on a closed book, other than opening it");
/// ```
#[derive(Clone, Copy, Debug, Eq, Hash, PartialEq)]
#[non_exhaustive]
pub enum Refusal {
    /// 1: the bytes have a wrong length or are no register in form
    Register,
    /// 2: book not 1 to 16, place out of range, or axis of a comparison not 1 or 2
    Place,
    /// 3: opening an open book
    Open,
    /// 4: a term out of its range
    Terms,
    /// 5: any other call on a closed book
    Closed,
    /// 6: entering at a filled place
    Filled,
    /// 7: correcting, withdrawing or reading an empty place
    Empty,
    /// 8: a coordinate more than 100,000 units from its point
    Far,
    /// 9: taking back when there is no change to take back
    Nothing,
    /// 10: residual, evaluation or comparison with any of the 30 places empty
    Short,
    /// 11: evaluation or comparison of a book that fails screening
    Suspect(Suspect),
    /// 12: comparison whose second book has the sum 0 on that axis
    Zero,
    /// 13: list buffer shorter than the number of books on the list
    Room,
    /// 14: file not of the form
    Form,
}

/// The first set that fails screening, in the order of the field sheet.
#[derive(Clone, Copy, Debug, Eq, Hash, PartialEq)]
pub struct Suspect {
    /// 1 to 3
    pub series: u64,
    /// 1 to 5
    pub set: u64,
    /// what fails there; distance is named before height
    pub quantity: Quantity,
}

/// What is screened in a set.
///
/// ```
/// use meliphrast::Quantity;
///
/// assert_eq!(Quantity::try_from(Quantity::Height.number()), Ok(Quantity::Height));
/// assert_eq!(Quantity::try_from(3).unwrap_err().to_string(), "no quantity has the number 3");
/// ```
#[derive(Clone, Copy, Debug, Eq, Hash, PartialEq)]
pub enum Quantity {
    /// 1: the horizontal distance between the two points
    Distance,
    /// 2: their height difference
    Height,
}

/// A number that no quantity has.
#[derive(Clone, Copy, Debug, Eq, Hash, PartialEq)]
pub struct NoSuchQuantity(pub u64);

impl Refusal {
    /// The number that the library gives, 1 to 14.
    pub fn number(self) -> u64 {
        self.entry().0
    }

    /// The name that goes with the number, in capitals.
    pub fn name(self) -> &'static str {
        self.entry().1
    }

    /// When a call is turned away so.
    pub fn when(self) -> &'static str {
        match self {
            Refusal::Register => "wrong length, or not in form",
            Refusal::Place => "book not 1 to 16, place out of range, or axis not 1 or 2",
            Refusal::Open => "opening an open book",
            Refusal::Terms => "a term out of its range",
            Refusal::Closed => "a call on a closed book, other than opening it",
            Refusal::Filled => "entering at a filled place",
            Refusal::Empty => "correcting, withdrawing or reading an empty place",
            Refusal::Far => "a coordinate more than 100,000 from its point",
            Refusal::Nothing => "taking back when there is no change to take back",
            Refusal::Short => "residual, evaluation or comparison with any of 30 places empty",
            Refusal::Suspect(_) => "evaluation or comparison of a book that fails screening",
            Refusal::Zero => "comparison whose second book has sum 0 on that axis",
            Refusal::Room => "list shorter than the number of books on it",
            Refusal::Form => "file not of the form",
        }
    }

    fn entry(self) -> (u64, &'static str) {
        match self {
            Refusal::Register => (1, "REGISTER"),
            Refusal::Place => (2, "PLACE"),
            Refusal::Open => (3, "OPEN"),
            Refusal::Terms => (4, "TERMS"),
            Refusal::Closed => (5, "CLOSED"),
            Refusal::Filled => (6, "FILLED"),
            Refusal::Empty => (7, "EMPTY"),
            Refusal::Far => (8, "FAR"),
            Refusal::Nothing => (9, "NOTHING"),
            Refusal::Short => (10, "SHORT"),
            Refusal::Suspect(_) => (11, "SUSPECT"),
            Refusal::Zero => (12, "ZERO"),
            Refusal::Room => (13, "ROOM"),
            Refusal::Form => (14, "FORM"),
        }
    }

    /// The refusal of this number; series, set and quantity count beside SUSPECT alone. None for
    /// an accepted call's 0, and where no refusal or no quantity has the number.
    ///
    /// ```
    /// use meliphrast::{boundary, Refusal};
    ///
    /// let told = boundary::evaluate(&[0; meliphrast::LENGTH], 1);
    /// let named = [told.series, told.set, told.quantity];
    /// assert_eq!(Refusal::from_numbers(told.refusal, named), Some(Refusal::Closed));
    /// assert_eq!(Refusal::from_numbers(0, named), None);
    /// ```
    pub fn from_numbers(number: u64, named: [u64; 3]) -> Option<Refusal> {
        Some(match number {
            1 => Refusal::Register,
            2 => Refusal::Place,
            3 => Refusal::Open,
            4 => Refusal::Terms,
            5 => Refusal::Closed,
            6 => Refusal::Filled,
            7 => Refusal::Empty,
            8 => Refusal::Far,
            9 => Refusal::Nothing,
            10 => Refusal::Short,
            11 => Refusal::Suspect(Suspect::named(named)?),
            12 => Refusal::Zero,
            13 => Refusal::Room,
            14 => Refusal::Form,
            _ => return None,
        })
    }

    /// What a call's numbers say: nothing for 0, else the refusal.
    pub(crate) fn told(number: u64, named: [u64; 3]) -> Result<(), Refusal> {
        if number == 0 {
            return Ok(());
        }
        match Refusal::from_numbers(number, named) {
            Some(refusal) => Err(refusal),
            // No answer is better than one that this wrapper cannot name.
            None => panic!("the linked library refuses with {number} {named:?}, unknown here"),
        }
    }
}

impl Suspect {
    fn named([series, set, quantity]: [u64; 3]) -> Option<Suspect> {
        let quantity = Quantity::try_from(quantity).ok()?;
        Some(Suspect {
            series,
            set,
            quantity,
        })
    }
}

impl Quantity {
    /// 1 for distance, 2 for height.
    pub fn number(self) -> u64 {
        match self {
            Quantity::Distance => 1,
            Quantity::Height => 2,
        }
    }
}

impl TryFrom<u64> for Quantity {
    type Error = NoSuchQuantity;

    fn try_from(number: u64) -> Result<Quantity, NoSuchQuantity> {
        match number {
            1 => Ok(Quantity::Distance),
            2 => Ok(Quantity::Height),
            _ => Err(NoSuchQuantity(number)),
        }
    }
}

/// Number, name and when, as `3 OPEN: opening an open book`; SUSPECT goes on with
/// ` (series 2, set 3, distance)`.
impl fmt::Display for Refusal {
    fn fmt(&self, f: &mut fmt::Formatter<'_>) -> fmt::Result {
        write!(f, "{} {}: {}", self.number(), self.name(), self.when())?;
        match self {
            Refusal::Suspect(suspect) => write!(f, " ({suspect})"),
            _ => Ok(()),
        }
    }
}

impl fmt::Display for Suspect {
    fn fmt(&self, f: &mut fmt::Formatter<'_>) -> fmt::Result {
        let quantity = match self.quantity {
            Quantity::Distance => "distance",
            Quantity::Height => "height",
        };
        write!(f, "series {}, set {}, {quantity}", self.series, self.set)
    }
}

impl fmt::Display for NoSuchQuantity {
    fn fmt(&self, f: &mut fmt::Formatter<'_>) -> fmt::Result {
        write!(f, "no quantity has the number {}", self.0)
    }
}

impl Error for Refusal {}

impl Error for NoSuchQuantity {}
