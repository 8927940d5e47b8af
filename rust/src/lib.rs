//! Packed formulas run on readings, each figure with an honest margin.
//!
//! A formula is a string of bytes. [`check`] says whether bytes are one; [`plain`] runs it on bare readings, [`ball`] on readings with a
//! margin each, [`ball_doubles`] as [`ball`] with its figures as doubles, [`admit`] once on a whole domain; [`explain`] says of a domain that
//! [`admit`] refuses how far it must shrink. [`pack_text`] makes the bytes of a formula as people write it, [`pack`] those of lists of
//! instructions and outputs, [`unpack`] the lists of bytes. [`to_decimal`] prints a figure with its margin, [`from_decimal`] reads a decimal
//! number with its margin as a reading. Every function may be called with any bytes, any numbers and lists of any length: it answers or
//! refuses, and a refusal writes no output. [`Refused`] says why and, where it is about one of them, which reading, instruction or byte of a
//! text. Readings, constants and results, but for those doubles, the numbers of a text and decimal numbers, are whole counts of one unit,
//! 2^-F, where F is the formula's scale.
//!
//! The caller lends the memory: a work list needs a place for each value, an output list one for each output. [`Balls`] and [`Matryoshki`]
//! have room for every formula, [`Doubles`] for the outputs of every formula; [`check`] tells what one formula needs. After an answer the
//! work list holds all values. After [`Refusal::OutOfReach`] and [`Refusal::MayBeZero`] it holds those before the refused instruction. Later
//! places, and with the other refusals all, keep what they held.
//!
//! ```
//! // Scale 4: value 2 is value 0 times value 1, value 3 is value 2 plus value 0, output 3.
//! let formula = [0x02, 0x41, 0x00, 0x41, 0x80, 0x00, 0x02, 0x80, 0x20, 0x00, 0x03];
//! let mut work = margins::Balls::default();
//! let mut output = margins::Balls::default();
//! let count = margins::ball(&formula, &[24, -10], &[3, 2], work.lent(), output.lent())?;
//! assert_eq!((count, output.centres[0], output.margins[0]), (1, 9, 9));
//! # Ok::<(), margins::Refused>(())
//! ```
//!
//! The crate needs `core` only. It links the static library that `tools/library` makes.
#![no_std]
#![warn(missing_docs)]

pub mod code;
mod door;
mod lists;
mod refusal;

pub use lists::{Balls, Doubles, Instructions, LentBalls, LentDoubles, LentInstructions, LentMatryoshki, Matryoshki, Reading};
pub use refusal::{Refusal, Refused};

/// Inputs that a formula has at most.
pub const MOST_INPUTS: usize = 16;
/// Outputs that a formula has at most.
pub const MOST_OUTPUTS: usize = 16;
/// Instructions that a formula has at most.
pub const MOST_INSTRUCTIONS: usize = 512;
/// Values, inputs and instructions together, that a formula has at most.
pub const MOST_VALUES: usize = 528;
/// Bytes that a formula has at most.
pub const MOST_BYTES: usize = 4248;
/// Bytes that the text of [`to_decimal`] has at most.
pub const MOST_DECIMAL_BYTES: usize = 45;

/// What a formula's header says.
#[derive(Clone, Copy, Debug, PartialEq, Eq, Hash)]
pub struct Formula {
    /// F: one unit is 2^-F.
    pub scale: u32,
    /// How many readings a run takes.
    pub inputs: usize,
    /// How many instructions a run carries out; each makes a value.
    pub instructions: usize,
    /// How many values a run gives: the places that an output list needs.
    pub outputs: usize,
}

impl Formula {
    /// Inputs and instructions together: the places that a work list needs.
    pub const fn values(&self) -> usize {
        self.inputs + self.instructions
    }
}

/// A ball in decimal numbers, which are whole counts of 10^-d, where d is the number of decimals: what [`to_decimal`] answers.
#[derive(Clone, Copy, Debug, Default, PartialEq, Eq, Hash)]
pub struct Decimal {
    /// The decimal centre.
    pub centre: i64,
    /// The decimal margin.
    pub margin: u64,
    /// How many bytes the text has.
    pub bytes: usize,
}

/// How far a domain must shrink, and what it meets beyond that: what [`explain`] answers.
#[derive(Clone, Copy, Debug, PartialEq, Eq, Hash)]
pub enum Explanation {
    /// The domain is admitted as it is.
    NothingToExplain,
    /// It is admitted with every stray and margin shrunk to `parts` of 256, and refused at each greater t.
    AdmittedTo {
        /// The largest t that is admitted.
        parts: u8,
        /// What is met at the next t: [`Refusal::OutOfReach`] or [`Refusal::MayBeZero`] with its instruction.
        met: Refused,
    },
    /// It is refused even with every stray and margin 0: the formula, the middles or the scale must change.
    NeverAdmitted {
        /// What is met at 0: [`Refusal::OutOfReach`] or [`Refusal::MayBeZero`] with its instruction.
        met: Refused,
    },
}

/// Whether these bytes are a formula, and what its header says.
///
/// Lists of just the places that the formula needs:
///
/// ```
/// # let bytes = [0x02, 0x41, 0x00, 0x41, 0x80, 0x00, 0x02, 0x80, 0x20, 0x00, 0x03];
/// let formula = margins::check(&bytes)?;
/// let mut work = vec![0; formula.values()];
/// let mut output = vec![0; formula.outputs];
/// margins::plain(&bytes, &[24, -10], &mut work, &mut output)?;
/// assert_eq!((work, output), (vec![24, -10, -15, 9], vec![9]));
/// # Ok::<(), margins::Refused>(())
/// ```
///
/// Without an allocator, the first places of [`MOST_VALUES`] and [`MOST_OUTPUTS`]:
///
/// ```
/// # let bytes = [0x02, 0x41, 0x00, 0x41, 0x80, 0x00, 0x02, 0x80, 0x20, 0x00, 0x03];
/// let formula = margins::check(&bytes)?;
/// let (mut work, mut output) = ([0; margins::MOST_VALUES], [0; margins::MOST_OUTPUTS]);
/// margins::plain(&bytes, &[24, -10], &mut work[..formula.values()], &mut output[..formula.outputs])?;
/// assert_eq!(output[0], 9);
/// # Ok::<(), margins::Refused>(())
/// ```
pub fn check(formula: &[u8]) -> Result<Formula, Refused> {
    door::check(formula)
}

/// Bare readings. The answer is how many outputs there are, here and in the other runs.
pub fn plain(formula: &[u8], readings: &[i64], work: &mut [i64], output: &mut [i64]) -> Result<usize, Refused> {
    door::plain(formula, readings, work, output)
}

/// A centre and a margin for each reading; for each output a centre and a margin that holds every exact result.
pub fn ball(formula: &[u8], centres: &[i64], margins: &[i64], work: LentBalls<'_>, output: LentBalls<'_>) -> Result<usize, Refused> {
    door::ball(formula, centres, margins, work, output)
}

/// As [`ball`], the readings as records.
pub fn ball_records(formula: &[u8], readings: &[Reading], work: LentBalls<'_>, output: LentBalls<'_>) -> Result<usize, Refused> {
    door::ball_records(formula, readings, work, output)
}

/// As [`ball`], each output's centre and margin as doubles, for a page that draws with them: the doubles are centre/2^F and margin/2^F
/// exactly, nothing is rounded, and a zero is plus zero. Readings and the work list are whole counts of units, as there. Later places of the
/// output lists, and with a refusal all, keep the bits that they held.
///
/// ```
/// # let formula = [0x02, 0x41, 0x00, 0x41, 0x80, 0x00, 0x02, 0x80, 0x20, 0x00, 0x03];
/// let (mut work, mut output) = (margins::Balls::default(), margins::Doubles::default());
/// let count = margins::ball_doubles(&formula, &[24, -10], &[3, 2], work.lent(), output.lent())?;
/// // At scale 4 a unit is 1/16: 9 units give or take 9.
/// assert_eq!((count, output.centres[0], output.margins[0]), (1, 0.5625, 0.5625));
/// # Ok::<(), margins::Refused>(())
/// ```
pub fn ball_doubles(
    formula: &[u8], centres: &[i64], margins: &[i64], work: LentBalls<'_>, output: LentDoubles<'_>,
) -> Result<usize, Refused> {
    door::ball_doubles(formula, centres, margins, work, output)
}

/// A domain, once: a middle, a stray and a margin for each reading; for each output the middle, the stray of its computed centre and the
/// static margin. A bound on the exact value around the middle is stray plus margin.
pub fn admit(
    formula: &[u8], middles: &[i64], strays: &[i64], margins: &[i64], work: LentMatryoshki<'_>, output: LentMatryoshki<'_>,
) -> Result<usize, Refused> {
    door::admit(formula, middles, strays, margins, work, output)
}

/// Why [`admit`] refuses a domain with [`Refusal::OutOfReach`] or [`Refusal::MayBeZero`], and how far it must shrink.
///
/// At t of 256 every stray and margin x is x·t/256, rounded down, and the middles stay. A domain that is made no larger stays admitted, so
/// that there is one largest t. Nothing is lent. The refusals are those of the bytes and then [`Refusal::ReadingCount`],
/// [`Refusal::NegativeMargin`] and [`Refusal::ReadingTooLarge`], as in [`admit`].
///
/// ```
/// use margins::{admit, explain, Explanation, Matryoshki};
/// # let formula = [0x02, 0x41, 0x00, 0x41, 0x80, 0x00, 0x02, 0x80, 0x20, 0x00, 0x03];
/// let (middles, strays, margins) = ([24, -10], [3000000, 2000000], [1, 1]);
/// let Explanation::AdmittedTo { parts, met } = explain(&formula, &middles, &strays, &margins)? else { panic!() };
/// assert_eq!((parts, met.refusal.number(), met.place), (19, 11, Some(0)));
///
/// let (mut work, mut output) = (Matryoshki::default(), Matryoshki::default());
/// let at = |t: i64| (strays.map(|stray| stray * t / 256), margins.map(|margin| margin * t / 256));
/// let (smaller, margins) = at(19);
/// admit(&formula, &middles, &smaller, &margins, work.lent(), output.lent())?;
/// let (larger, margins) = at(20);
/// assert_eq!(admit(&formula, &middles, &larger, &margins, work.lent(), output.lent()), Err(met));
/// # Ok::<(), margins::Refused>(())
/// ```
pub fn explain(formula: &[u8], middles: &[i64], strays: &[i64], margins: &[i64]) -> Result<Explanation, Refused> {
    door::explain(formula, middles, strays, margins)
}

/// Packs lists into the first places of `formula`; the answer is how many bytes it has.
///
/// Instruction k has the code `codes[k]`, one of [`code`], and the fields `firsts[k]` and `seconds[k]`. It makes value `inputs + k` and may
/// name only smaller values; the outputs may name any value. A second field that the code does not have is not looked at. The fields are
/// tested in the order in which they are written, the room last, and later places of `formula` keep what they held. [`MOST_BYTES`] places
/// are enough for every formula. Every number may be any: a wrong one gets its refusal.
///
/// ```
/// use margins::code::{ADD, MULTIPLY};
/// // Value 2 is value 0 times value 1, value 3 is value 2 plus value 0, output 3.
/// let mut formula = [0; margins::MOST_BYTES];
/// let bytes = margins::pack(4, 2, &[MULTIPLY, ADD], &[0, 2], &[1, 0], &[3], &mut formula)?;
/// assert_eq!(formula[..bytes], [0x02, 0x41, 0x00, 0x41, 0x80, 0x00, 0x02, 0x80, 0x20, 0x00, 0x03]);
/// # Ok::<(), margins::Refused>(())
/// ```
pub fn pack(
    scale: i64, inputs: i64, codes: &[i64], firsts: &[i64], seconds: &[i64], outputs: &[i64], formula: &mut [u8],
) -> Result<usize, Refused> {
    door::pack(scale, inputs, codes, firsts, seconds, outputs, formula)
}

/// Packs a formula as people write it into the first places of `formula`; the answer is how many bytes it has. Its one output is the
/// value of the whole text.
///
/// A sum is products joined by `+` or `-`, a product is factors joined by `*`, both grouped from the left. A factor is a letter, a
/// number, a minus and a factor, or a sum in parentheses; there are no spaces. The letter `a` is input 0, `b` is input 1, and so on up to
/// `p`; only those of the inputs are allowed. A number has 1 to 9 digits in all, with an optional point between digits. It is rounded to
/// units, ties up: where it is a whole number of units it is a [`code::CONSTANT`], else a [`code::COEFFICIENT`] with margin 1. Each
/// number, minus and operator is one instruction, left operand before right, both before their operator. At most 32 parentheses and
/// factors' minuses are open at once, a parenthesis up to the one that closes it, a minus up to the end of its factor.
///
/// Scale and inputs are tested first, then the whole text, byte by byte; then, instruction by instruction, their number and the size of
/// each constant, and the room last. Later places of `formula` keep what they held. [`MOST_BYTES`] places are enough for every formula.
///
/// ```
/// let mut formula = [0; margins::MOST_BYTES];
/// let bytes = margins::pack_text(4, 3, "a*(b-0.25)+c".as_bytes(), &mut formula)?;
/// let (mut work, mut output) = (margins::Balls::default(), margins::Balls::default());
/// margins::ball(&formula[..bytes], &[24, 12, -5], &[1, 1, 0], work.lent(), output.lent())?;
/// assert_eq!((output.centres[0], output.margins[0]), (7, 3));
///
/// let refused = margins::pack_text(4, 3, "a * b".as_bytes(), &mut formula).unwrap_err();
/// assert_eq!((refused.refusal.number(), refused.place), (18, Some(1)));
/// assert_eq!(refused.to_string(), "the text has a byte that cannot stand there, or ends too early (refused 18), at byte 1");
/// # Ok::<(), margins::Refused>(())
/// ```
pub fn pack_text(scale: i64, inputs: i64, text: &[u8], formula: &mut [u8]) -> Result<usize, Refused> {
    door::pack_text(scale, inputs, text, formula)
}

/// Reads a formula back into lists, which [`pack`] to the same bytes; the answer is that of [`check`].
///
/// The lists are those of [`pack`]; a second field that the code does not have is 0. Later places keep what they held. [`Instructions`] and
/// [`MOST_OUTPUTS`] places have room for every formula.
///
/// ```
/// # use margins::code::{ADD, MULTIPLY};
/// # let bytes = [0x02, 0x41, 0x00, 0x41, 0x80, 0x00, 0x02, 0x80, 0x20, 0x00, 0x03];
/// let (mut instructions, mut outputs) = (margins::Instructions::default(), [0; margins::MOST_OUTPUTS]);
/// let formula = margins::unpack(&bytes, instructions.lent(), &mut outputs)?;
/// assert_eq!(instructions.codes[..formula.instructions], [MULTIPLY, ADD]);
/// assert_eq!(outputs[..formula.outputs], [3]);
/// # Ok::<(), margins::Refused>(())
/// ```
pub fn unpack(formula: &[u8], instructions: LentInstructions<'_>, outputs: &mut [i64]) -> Result<Formula, Refused> {
    door::unpack(formula, instructions, outputs)
}

/// A ball in units of 2^-`scale`, such as [`ball`] gives it, as counts of 10^-`decimals` and as text in the first places of `text`.
///
/// The decimal centre is the count nearest to the centre, of two the upper one. The decimal margin is the least count that holds the whole
/// ball around it: the margin and what rounding the centre lost, rounded up together. So it is 0 only where the margin is 0 and nothing was
/// lost. Each number of the text has at least one digit before the point and `decimals` behind it, without decimals no point; a minus stands
/// only before a count below 0. Later places of `text` keep what they held. [`MOST_DECIMAL_BYTES`] places are enough for every ball.
///
/// Scale, decimals and reach are tested in this order, and the room last. Where each number of the text has at most 9 digits and they are in
/// reach, [`from_decimal`] reads it again; with 9 decimals it has more.
///
/// ```
/// let mut text = [0; margins::MOST_DECIMAL_BYTES];
/// // 9 sixteenths, give or take 9.
/// let printed = margins::to_decimal(4, 4, 9, 9, &mut text)?;
/// assert_eq!((printed.centre, printed.margin), (5625, 5625));
/// assert_eq!(&text[..printed.bytes], b"0.5625 +- 0.5625");
/// // So little that nothing is left of it but its margin.
/// let printed = margins::to_decimal(20, 4, 3, 1, &mut text)?;
/// assert_eq!(&text[..printed.bytes], b"0.0000 +- 0.0001");
/// # Ok::<(), margins::Refused>(())
/// ```
pub fn to_decimal(scale: i64, decimals: i64, centre: i64, margin: u64, text: &mut [u8]) -> Result<Decimal, Refused> {
    door::to_decimal(scale, decimals, centre, margin, text)
}

/// A decimal number, give or take a decimal margin, as a reading in units of 2^-`scale`: whatever is within the written margin of the
/// written number is inside the reading.
///
/// A number has an optional minus and 1 to 9 digits in all, with an optional point between digits; a margin has no minus. The centre is
/// rounded to units, ties up, and the margin is rounded up to units, plus 1 where the number is no whole number of units. Scale, number,
/// margin and reach are tested in this order.
///
/// ```
/// use margins::{from_decimal, Reading};
/// // 0.1 is 104857.6 units, and 0.02 is 20971.52.
/// assert_eq!(from_decimal(20, b"0.1", b"0.02")?, Reading { centre: 104858, margin: 20973 });
/// let refused = from_decimal(20, b"0,1", b"0.02").unwrap_err();
/// assert_eq!((refused.refusal.number(), refused.place), (24, Some(1)));
/// assert_eq!(refused.to_string(), "the number's text has a byte that cannot stand there, or ends too early (refused 24), at byte 1");
/// # Ok::<(), margins::Refused>(())
/// ```
pub fn from_decimal(scale: i64, number: &[u8], margin: &[u8]) -> Result<Reading, Refused> {
    door::from_decimal(scale, number, margin)
}
