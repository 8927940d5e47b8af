//! Why there is no answer, and where.
use core::error::Error;
use core::fmt;
use core::hash::{Hash, Hasher};

/// Why there is no answer. Later versions may name more numbers: a match needs a `_` arm. Two refusals are equal when their numbers are.
#[derive(Clone, Copy, Debug, Eq)]
#[non_exhaustive]
pub enum Refusal {
    /// 1: the bytes end inside a field.
    Ended,
    /// 2: the version isn't 1.
    Version,
    /// 3: the scale is outside 0 to 30.
    Scale,
    /// 4: the number of inputs, instructions or outputs is outside its limits, or the instructions' lists differ in length.
    Count,
    /// 5: the code is outside 0 to 6.
    Code,
    /// 6: an operand or output names no permitted value.
    Operand,
    /// 7: a constant is outside -2147483647 to 2147483647, or its margin is below 0 or reaches outside.
    Constant,
    /// 8: a padding bit is set or a byte follows.
    Padding,
    /// 10: a list to be written is too short.
    NoRoom,
    /// 11: a step's result is out of reach. The place is the instruction, from 0. Of a domain [`explain`](crate::explain) tells how far it must
    /// shrink.
    OutOfReach,
    /// 13: the number of readings isn't that of the inputs.
    ReadingCount,
    /// 14: a reading has a negative stray or margin. The place is the reading, from 0; those before it are good.
    NegativeMargin,
    /// 15: a reading's |centre| + stray + margin is over 2147483647. The place is the reading, from 0; those before it are good.
    ReadingTooLarge,
    /// 16: a reciprocal in a formula whose scale is over 16.
    ReciprocalScale,
    /// 17: a reciprocal of what may be 0: its operand is 0, or its margin, with the stray in [`admit`](crate::admit), reaches 0. Keep it away
    /// from 0, or shrink the margins or the domain, so that |centre| is over margin plus stray. The place is the instruction, from 0.
    /// Of a domain [`explain`](crate::explain) tells how far it must shrink.
    MayBeZero,
    /// 18: no formula's text that begins as this one has this byte there, or the text ends too early. The place is the byte, from 0, or the
    /// text's length where it ends too early; what stands before it is good.
    Misplaced,
    /// 19: over 32 parentheses and minuses of the text are open at once. The place is the byte, from 0, that opens the 33rd.
    TooDeep,
    /// 24: no decimal number that begins as this one has this byte there, or the text ends too early. The place is the byte, from 0, or the
    /// text's length where it ends too early; what stands before it is good.
    NumberText,
    /// 25: the same of the margin's text, which has no minus. The place is a byte of that text.
    MarginText,
    /// 26: a ball that is printed or read has |centre| + margin over 2147483647 units.
    BallReach,
    /// 27: the number of decimals is outside 0 to 9.
    DecimalPlaces,
    /// A number that this version has no name for. A later one may name it: rather compare, or ask [`Refusal::number`].
    Other(u32),
}

impl Refusal {
    /// The number that the documents, the program and the C interface give it.
    pub const fn number(self) -> u32 {
        self.entry().0
    }

    /// The refusal with this number; 0 is none.
    pub const fn numbered(number: u32) -> Option<Refusal> {
        Some(match number {
            0 => return None,
            1 => Refusal::Ended,
            2 => Refusal::Version,
            3 => Refusal::Scale,
            4 => Refusal::Count,
            5 => Refusal::Code,
            6 => Refusal::Operand,
            7 => Refusal::Constant,
            8 => Refusal::Padding,
            10 => Refusal::NoRoom,
            11 => Refusal::OutOfReach,
            13 => Refusal::ReadingCount,
            14 => Refusal::NegativeMargin,
            15 => Refusal::ReadingTooLarge,
            16 => Refusal::ReciprocalScale,
            17 => Refusal::MayBeZero,
            18 => Refusal::Misplaced,
            19 => Refusal::TooDeep,
            24 => Refusal::NumberText,
            25 => Refusal::MarginText,
            26 => Refusal::BallReach,
            27 => Refusal::DecimalPlaces,
            _ => Refusal::Other(number),
        })
    }

    /// What the place of this refusal counts; without a name here it has no place.
    pub(crate) const fn place_name(self) -> Option<&'static str> {
        match self.number() {
            11 | 17 => Some("instruction"),
            14 | 15 => Some("reading"),
            18 | 19 | 24 | 25 => Some("byte"),
            _ => None,
        }
    }

    const fn entry(self) -> (u32, &'static str) {
        match self {
            Refusal::Ended => (1, "the bytes end inside a field"),
            Refusal::Version => (2, "the version isn't 1"),
            Refusal::Scale => (3, "the scale is outside 0 to 30"),
            Refusal::Count => {
                (4, "the number of inputs, instructions or outputs is outside its limits, or the instructions' lists differ in length")
            }
            Refusal::Code => (5, "the code is outside 0 to 6"),
            Refusal::Operand => (6, "an operand or output names no permitted value"),
            Refusal::Constant => (7, "a constant is outside -2147483647 to 2147483647, or its margin is below 0 or reaches outside"),
            Refusal::Padding => (8, "a padding bit is set or a byte follows"),
            Refusal::NoRoom => (10, "a list to be written is too short"),
            Refusal::OutOfReach => (11, "a step's result is out of reach"),
            Refusal::ReadingCount => (13, "the number of readings isn't that of the inputs"),
            Refusal::NegativeMargin => (14, "a reading has a negative stray or margin"),
            Refusal::ReadingTooLarge => (15, "a reading's |centre| + stray + margin is over 2147483647"),
            Refusal::ReciprocalScale => (16, "a reciprocal in a formula whose scale is over 16"),
            Refusal::MayBeZero => (17, "a reciprocal of what may be 0"),
            Refusal::Misplaced => (18, "the text has a byte that cannot stand there, or ends too early"),
            Refusal::TooDeep => (19, "over 32 parentheses and minuses of the text are open at once"),
            Refusal::NumberText => (24, "the number's text has a byte that cannot stand there, or ends too early"),
            Refusal::MarginText => (25, "the margin's text has a byte that cannot stand there, or ends too early"),
            Refusal::BallReach => (26, "the ball's |centre| + margin is over 2147483647 units"),
            Refusal::DecimalPlaces => (27, "the number of decimals is outside 0 to 9"),
            Refusal::Other(number) => (number, "for a reason that this version has no words for"),
        }
    }
}

// By the number, so that `Refusal::Other(20)` stays equal to what the library gives once a later version names 20.
impl PartialEq for Refusal {
    fn eq(&self, other: &Self) -> bool {
        self.number() == other.number()
    }
}

impl Hash for Refusal {
    fn hash<H: Hasher>(&self, state: &mut H) {
        self.number().hash(state);
    }
}

impl fmt::Display for Refusal {
    fn fmt(&self, f: &mut fmt::Formatter<'_>) -> fmt::Result {
        let (number, words) = self.entry();
        write!(f, "{words} (refused {number})")
    }
}

impl Error for Refusal {}

/// What every function answers when it refuses: why, and where if the refusal has a place.
///
/// ```
/// // Scale 4: value 2 is value 0 times value 1, value 3 is value 2 plus value 0, output 3.
/// let formula = [0x02, 0x41, 0x00, 0x41, 0x80, 0x00, 0x02, 0x80, 0x20, 0x00, 0x03];
/// let limit = i64::from(i32::MAX);
/// let refused = margins::plain(&formula, &[limit, 16], &mut [0; 4], &mut [0; 1]).unwrap_err();
/// assert_eq!((refused.refusal.number(), refused.place), (11, Some(1)));
/// assert_eq!(refused.to_string(), "a step's result is out of reach (refused 11), at instruction 1");
/// let refused = margins::plain(&formula, &[24, limit + 1], &mut [0; 4], &mut [0; 1]).unwrap_err();
/// assert_eq!((refused.refusal.number(), refused.place), (15, Some(1)));
/// assert_eq!(refused.to_string(), "a reading's |centre| + stray + margin is over 2147483647 (refused 15), at reading 1");
/// ```
#[derive(Clone, Copy, Debug, PartialEq, Eq, Hash)]
pub struct Refused {
    /// Why.
    pub refusal: Refusal,
    /// Where, from 0: with [`Refusal::OutOfReach`] and [`Refusal::MayBeZero`] the instruction, with [`Refusal::NegativeMargin`] and
    /// [`Refusal::ReadingTooLarge`] the reading, with [`Refusal::Misplaced`] and [`Refusal::TooDeep`] the byte of the text, with
    /// [`Refusal::NumberText`] that of the number's text and with [`Refusal::MarginText`] that of the margin's. The other refusals of this
    /// version have no place.
    pub place: Option<usize>,
}

impl From<Refusal> for Refused {
    fn from(refusal: Refusal) -> Self {
        Refused { refusal, place: None }
    }
}

impl fmt::Display for Refused {
    fn fmt(&self, f: &mut fmt::Formatter<'_>) -> fmt::Result {
        write!(f, "{}", self.refusal)?;
        match (self.refusal.place_name(), self.place) {
            (Some(name), Some(place)) => write!(f, ", at {name} {place}"),
            _ => Ok(()),
        }
    }
}

impl Error for Refused {}
