//! The register over owned or lent bytes.

use crate::answers::{Axis, Comparison, Evaluation};
use crate::refusal::Refusal;
use crate::sheet::{Place, Reading, Residual, Terms};
use crate::{boundary, BOOKS, LENGTH};
use std::fmt;

/// Sixteen books in one byte slice, owned or lent.
///
/// The bytes are the whole state: a register can be cloned, written to a file and read back, or
/// moved to another thread, and every call but [`make_fresh`](Register::make_fresh) looks at its
/// form first. A book is named by its number, 1 to 16; any other is refused (PLACE).
///
/// ```
/// use meliphrast::{Refusal, Register, LENGTH};
///
/// let mut lent = [0; LENGTH];
/// let mut register = Register::over(&mut lent);
/// assert_eq!(register.take_back(1), Err(Refusal::Closed));
///
/// // Bytes that are no register are refused by the library, a wrong length among them.
/// let short = Register::over(&lent[1..]);
/// assert_eq!(short.evaluate(1), Err(Refusal::Register));
/// ```
#[derive(Clone)]
pub struct Register<S = Box<[u8]>> {
    bytes: S,
}

impl Register {
    /// A register of its own, all books closed.
    pub fn fresh() -> Register {
        let mut register = Register::over(vec![0; LENGTH].into_boxed_slice());
        register
            .make_fresh()
            .expect("the published length is the library's");
        register
    }
}

impl<S> Register<S> {
    /// A register over bytes that may hold anything, of any length.
    pub fn over(bytes: S) -> Register<S> {
        Register { bytes }
    }

    /// Gives the bytes back.
    pub fn into_bytes(self) -> S {
        self.bytes
    }
}

impl<S: AsRef<[u8]>> Register<S> {
    /// The register's image, to be copied or kept.
    pub fn as_bytes(&self) -> &[u8] {
        self.bytes.as_ref()
    }

    /// The form check apart, which every call but [`make_fresh`](Register::make_fresh) begins
    /// with.
    ///
    /// # Errors
    ///
    /// [`Refusal::Register`].
    pub fn check(&self) -> Result<(), Refusal> {
        accepted(boundary::check(self.as_bytes()))
    }

    /// The reading at a place.
    ///
    /// # Errors
    ///
    /// The first that applies of [`Refusal::Register`], [`Refusal::Place`], [`Refusal::Closed`],
    /// [`Refusal::Empty`].
    pub fn read(&self, book: u64, place: Place) -> Result<Reading, Refusal> {
        let told = boundary::read(self.as_bytes(), book, place.numbers());
        accepted(told.refusal)?;
        let (x, y, h) = (told.x, told.y, told.h);
        Ok(Reading { x, y, h })
    }

    /// Fifteen times the residual at a place of a full book.
    ///
    /// # Errors
    ///
    /// The first that applies of [`Refusal::Register`], [`Refusal::Place`], [`Refusal::Closed`],
    /// [`Refusal::Short`].
    pub fn residual(&self, book: u64, place: Place) -> Result<Residual, Refusal> {
        let told = boundary::residual(self.as_bytes(), book, place.numbers());
        accepted(told.refusal)?;
        let (x, y, h) = (told.x, told.y, told.h);
        Ok(Residual { x, y, h })
    }

    /// How many changes can be taken back, 0 to 32.
    ///
    /// # Errors
    ///
    /// The first that applies of [`Refusal::Register`], [`Refusal::Place`], [`Refusal::Closed`].
    pub fn changes(&self, book: u64) -> Result<u64, Refusal> {
        let told = boundary::changes(self.as_bytes(), book);
        accepted(told.refusal)?;
        Ok(told.count)
    }

    /// The figures and verdicts of a full book.
    ///
    /// # Errors
    ///
    /// The first that applies of [`Refusal::Register`], [`Refusal::Place`], [`Refusal::Closed`],
    /// [`Refusal::Short`], [`Refusal::Suspect`].
    ///
    /// ```
    /// # use meliphrast::*;
    /// # let terms = Terms::from([100_000, 0, 150, 250, 20, 20, 0, 0, 0, 100_000, 0, 0]);
    /// # let mut register = Register::fresh();
    /// # register.open(1, terms)?;
    /// # for place in Place::sheet() {
    /// #     let x = if place.point == 1 { 0 } else { 100_000 };
    /// #     register.enter(1, place, Reading { x, y: 0, h: 0 })?;
    /// # }
    /// let first = Place { series: 1, set: 1, point: 1 };
    /// register.correct(1, first, Reading { x: 127, y: 0, h: 133 })?;
    /// let evaluation = register.evaluate(1)?;
    /// match evaluation.xy {
    ///     Verdict::Within { .. } => unreachable!(),
    ///     Verdict::Beyond { deviation, bound } => {
    ///         assert_eq!((deviation, bound), (2374.0 / 1024.0, 2361.0 / 1024.0));
    ///     }
    /// }
    /// assert!(evaluation.h.is_within() && !evaluation.passes());
    /// # Ok::<(), Refusal>(())
    /// ```
    pub fn evaluate(&self, book: u64) -> Result<Evaluation, Refusal> {
        Evaluation::told(boundary::evaluate(self.as_bytes(), book))
    }

    /// The first book against the second.
    ///
    /// # Errors
    ///
    /// The first that applies of [`Refusal::Register`], [`Refusal::Place`], [`Refusal::Closed`],
    /// [`Refusal::Short`], [`Refusal::Suspect`], [`Refusal::Zero`].
    ///
    /// ```
    /// # use meliphrast::*;
    /// # let terms = Terms::from([100_000, 0, 150, 250, 20, 20, 0, 0, 0, 100_000, 0, 0]);
    /// # let mut register = Register::fresh();
    /// # for book in [3, 8] {
    /// #     register.open(book, terms)?;
    /// #     for place in Place::sheet() {
    /// #         let x = if place.point == 1 { 0 } else { 100_000 };
    /// #         register.enter(book, place, Reading { x, y: 0, h: 0 })?;
    /// #     }
    /// # }
    /// // Books 3 and 8 are full, every reading on its point but for one height in each.
    /// let first = Place { series: 1, set: 1, point: 1 };
    /// register.correct(3, first, Reading { x: 0, y: 0, h: 146 })?;
    /// register.correct(8, first, Reading { x: 0, y: 0, h: 100 })?;
    /// assert_eq!(register.compare(3, 8, Axis::H), Ok(Comparison::NotSame));
    /// register.correct(3, first, Reading { x: 0, y: 0, h: 145 })?;
    /// assert_eq!(register.compare(3, 8, Axis::H), Ok(Comparison::Same));
    /// assert_eq!(register.compare(3, 8, Axis::Xy), Err(Refusal::Zero));
    /// # Ok::<(), Refusal>(())
    /// ```
    pub fn compare(&self, first: u64, second: u64, axis: Axis) -> Result<Comparison, Refusal> {
        let told = boundary::compare(self.as_bytes(), first, second, axis.number());
        Comparison::told(told)
    }

    /// Writes the numbers of the books that pass, rising, from the start of the buffer, and
    /// gives the part that was written; the bytes behind it stay. [`BOOKS`](crate::BOOKS) bytes
    /// always have room.
    ///
    /// # Errors
    ///
    /// The first that applies of [`Refusal::Register`], [`Refusal::Room`].
    pub fn pass_list<'l>(&self, list: &'l mut [u8]) -> Result<&'l [u8], Refusal> {
        let told = boundary::pass_list(self.as_bytes(), list);
        accepted(told.refusal)?;
        Ok(&list[..told.count as usize])
    }

    /// The numbers of the books that pass, rising.
    ///
    /// # Errors
    ///
    /// [`Refusal::Register`].
    ///
    /// ```
    /// # use meliphrast::*;
    /// let mut lent = [0; LENGTH];
    /// assert_eq!(Register::over(&lent).passing(), Ok(vec![]));
    /// lent[0] = 2;
    /// assert_eq!(Register::over(&lent).passing(), Err(Refusal::Register));
    /// ```
    pub fn passing(&self) -> Result<Vec<u64>, Refusal> {
        let mut list = [0; BOOKS];
        let listed = self.pass_list(&mut list)?;
        Ok(listed.iter().map(|book| u64::from(*book)).collect())
    }
}

impl<S: AsMut<[u8]>> Register<S> {
    /// Closes every book, whatever the bytes held before; only a wrong length is refused.
    ///
    /// # Errors
    ///
    /// [`Refusal::Register`].
    pub fn make_fresh(&mut self) -> Result<(), Refusal> {
        accepted(boundary::fresh(self.bytes.as_mut()))
    }

    /// Opens a closed book.
    ///
    /// # Errors
    ///
    /// The first that applies of [`Refusal::Register`], [`Refusal::Place`], [`Refusal::Open`],
    /// [`Refusal::Terms`].
    pub fn open(&mut self, book: u64, terms: Terms) -> Result<(), Refusal> {
        accepted(boundary::open(self.bytes.as_mut(), book, terms.numbers()))
    }

    /// Closes an open book: its readings and changes are gone, which cannot be taken back.
    ///
    /// # Errors
    ///
    /// The first that applies of [`Refusal::Register`], [`Refusal::Place`], [`Refusal::Closed`].
    pub fn strike(&mut self, book: u64) -> Result<(), Refusal> {
        accepted(boundary::strike(self.bytes.as_mut(), book))
    }

    /// Enters a reading at an empty place.
    ///
    /// # Errors
    ///
    /// The first that applies of [`Refusal::Register`], [`Refusal::Place`], [`Refusal::Closed`],
    /// [`Refusal::Filled`], [`Refusal::Far`].
    pub fn enter(&mut self, book: u64, place: Place, reading: Reading) -> Result<(), Refusal> {
        let Reading { x, y, h } = reading;
        let bytes = self.bytes.as_mut();
        accepted(boundary::enter(bytes, book, place.numbers(), [x, y, h]))
    }

    /// Corrects the reading at a filled place.
    ///
    /// # Errors
    ///
    /// The first that applies of [`Refusal::Register`], [`Refusal::Place`], [`Refusal::Closed`],
    /// [`Refusal::Empty`], [`Refusal::Far`].
    pub fn correct(&mut self, book: u64, place: Place, reading: Reading) -> Result<(), Refusal> {
        let Reading { x, y, h } = reading;
        let bytes = self.bytes.as_mut();
        accepted(boundary::correct(bytes, book, place.numbers(), [x, y, h]))
    }

    /// Withdraws the reading at a filled place.
    ///
    /// # Errors
    ///
    /// The first that applies of [`Refusal::Register`], [`Refusal::Place`], [`Refusal::Closed`],
    /// [`Refusal::Empty`].
    pub fn withdraw(&mut self, book: u64, place: Place) -> Result<(), Refusal> {
        let bytes = self.bytes.as_mut();
        accepted(boundary::withdraw(bytes, book, place.numbers()))
    }

    /// Takes back the latest change not yet taken back. The latest 32 changes are kept for it,
    /// and nothing can be re-done after it.
    ///
    /// # Errors
    ///
    /// The first that applies of [`Refusal::Register`], [`Refusal::Place`], [`Refusal::Closed`],
    /// [`Refusal::Nothing`].
    ///
    /// ```
    /// # use meliphrast::*;
    /// # let terms = Terms::from([100_000, 0, 150, 250, 20, 20, 0, 0, 0, 100_000, 0, 0]);
    /// # let mut register = Register::fresh();
    /// let place = Place { series: 2, set: 4, point: 1 };
    /// let reading = Reading { x: 12, y: -7, h: 3 };
    /// register.open(2, terms)?;
    /// register.enter(2, place, reading)?;
    /// register.withdraw(2, place)?;
    /// assert_eq!(register.read(2, place), Err(Refusal::Empty));
    /// assert_eq!(register.changes(2), Ok(2));
    /// register.take_back(2)?;
    /// assert_eq!(register.read(2, place), Ok(reading));
    /// # Ok::<(), Refusal>(())
    /// ```
    pub fn take_back(&mut self, book: u64) -> Result<(), Refusal> {
        accepted(boundary::take_back(self.bytes.as_mut(), book))
    }
}

impl Default for Register {
    fn default() -> Register {
        Register::fresh()
    }
}

impl<S: AsRef<[u8]>> AsRef<[u8]> for Register<S> {
    fn as_ref(&self) -> &[u8] {
        self.as_bytes()
    }
}

/// Byte for byte, wherever the bytes are: of two registers in form, that is state for state.
///
/// ```
/// use meliphrast::{Register, LENGTH};
///
/// let mut lent = [0; LENGTH];
/// assert_eq!(Register::default(), Register::over(&mut lent));
/// lent[0] = 1;
/// assert_ne!(Register::over(&lent), Register::fresh());
/// ```
impl<S: AsRef<[u8]>, T: AsRef<[u8]>> PartialEq<Register<T>> for Register<S> {
    fn eq(&self, other: &Register<T>) -> bool {
        self.as_bytes() == other.as_bytes()
    }
}

impl<S: AsRef<[u8]>> Eq for Register<S> {}

/// Says how long the bytes are and not what they hold.
impl<S: AsRef<[u8]>> fmt::Debug for Register<S> {
    fn fmt(&self, f: &mut fmt::Formatter<'_>) -> fmt::Result {
        write!(f, "Register({} bytes)", self.as_bytes().len())
    }
}

/// For calls that cannot meet SUSPECT, which alone names series, set and quantity.
fn accepted(refusal: u64) -> Result<(), Refusal> {
    Refusal::told(refusal, [0; 3])
}
