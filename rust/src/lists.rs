//! The lists that a caller lends, and readings as records.
use crate::{MOST_INSTRUCTIONS, MOST_OUTPUTS, MOST_VALUES};

/// One reading with its margin, for [`ball_records`](crate::ball_records) and from [`from_decimal`](crate::from_decimal).
#[repr(C)]
#[derive(Clone, Copy, Debug, Default, PartialEq, Eq, Hash)]
pub struct Reading {
    /// What was read.
    pub centre: i64,
    /// How far the truth may be from it.
    pub margin: i64,
}

/// Lent lists for balls: centres and margins.
#[derive(Debug, PartialEq, Eq)]
pub struct LentBalls<'a> {
    /// A place for each centre.
    pub centres: &'a mut [i64],
    /// A place for each margin.
    pub margins: &'a mut [u64],
}

impl LentBalls<'_> {
    /// The same lists, lent on for one run.
    pub fn lent(&mut self) -> LentBalls<'_> {
        LentBalls { centres: self.centres, margins: self.margins }
    }
}

/// Lent lists for the figures of [`ball_doubles`](crate::ball_doubles): centres and margins as doubles.
#[derive(Debug, PartialEq)]
pub struct LentDoubles<'a> {
    /// A place for each centre.
    pub centres: &'a mut [f64],
    /// A place for each margin.
    pub margins: &'a mut [f64],
}

impl LentDoubles<'_> {
    /// The same lists, lent on for one run.
    pub fn lent(&mut self) -> LentDoubles<'_> {
        LentDoubles { centres: self.centres, margins: self.margins }
    }
}

/// Lent lists for matryoshki: middles, strays and static margins.
#[derive(Debug, PartialEq, Eq)]
pub struct LentMatryoshki<'a> {
    /// A place for each middle.
    pub middles: &'a mut [i64],
    /// A place for each stray.
    pub strays: &'a mut [u64],
    /// A place for each static margin.
    pub margins: &'a mut [u64],
}

impl LentMatryoshki<'_> {
    /// The same lists, lent on for one run.
    pub fn lent(&mut self) -> LentMatryoshki<'_> {
        LentMatryoshki { middles: self.middles, strays: self.strays, margins: self.margins }
    }
}

/// Lent lists for the instructions of a formula: a code and two fields for each.
#[derive(Debug, PartialEq, Eq)]
pub struct LentInstructions<'a> {
    /// A place for each code.
    pub codes: &'a mut [i64],
    /// A place for each first field.
    pub firsts: &'a mut [i64],
    /// A place for each second field.
    pub seconds: &'a mut [i64],
}

impl LentInstructions<'_> {
    /// The same lists, lent on for one formula.
    pub fn lent(&mut self) -> LentInstructions<'_> {
        LentInstructions { codes: self.codes, firsts: self.firsts, seconds: self.seconds }
    }
}

/// Room for the balls of every formula.
#[derive(Clone, Debug, PartialEq, Eq)]
pub struct Balls {
    /// The centres.
    pub centres: [i64; MOST_VALUES],
    /// The margins.
    pub margins: [u64; MOST_VALUES],
}

// By hand: `core` has no `Default` for lists of more than 32 places.
impl Default for Balls {
    fn default() -> Self {
        Balls { centres: [0; MOST_VALUES], margins: [0; MOST_VALUES] }
    }
}

impl Balls {
    /// All of it, lent.
    pub fn lent(&mut self) -> LentBalls<'_> {
        LentBalls { centres: &mut self.centres, margins: &mut self.margins }
    }
}

/// Room for the figures of every formula as doubles.
#[derive(Clone, Debug, Default, PartialEq)]
pub struct Doubles {
    /// The centres.
    pub centres: [f64; MOST_OUTPUTS],
    /// The margins.
    pub margins: [f64; MOST_OUTPUTS],
}

impl Doubles {
    /// All of it, lent.
    pub fn lent(&mut self) -> LentDoubles<'_> {
        LentDoubles { centres: &mut self.centres, margins: &mut self.margins }
    }
}

/// Room for the matryoshki of every formula.
#[derive(Clone, Debug, PartialEq, Eq)]
pub struct Matryoshki {
    /// The middles.
    pub middles: [i64; MOST_VALUES],
    /// The strays.
    pub strays: [u64; MOST_VALUES],
    /// The static margins.
    pub margins: [u64; MOST_VALUES],
}

impl Default for Matryoshki {
    fn default() -> Self {
        Matryoshki { middles: [0; MOST_VALUES], strays: [0; MOST_VALUES], margins: [0; MOST_VALUES] }
    }
}

impl Matryoshki {
    /// All of it, lent.
    pub fn lent(&mut self) -> LentMatryoshki<'_> {
        LentMatryoshki { middles: &mut self.middles, strays: &mut self.strays, margins: &mut self.margins }
    }
}

/// Room for the instructions of every formula.
#[derive(Clone, Debug, PartialEq, Eq)]
pub struct Instructions {
    /// The codes.
    pub codes: [i64; MOST_INSTRUCTIONS],
    /// The first fields.
    pub firsts: [i64; MOST_INSTRUCTIONS],
    /// The second fields.
    pub seconds: [i64; MOST_INSTRUCTIONS],
}

impl Default for Instructions {
    fn default() -> Self {
        Instructions { codes: [0; MOST_INSTRUCTIONS], firsts: [0; MOST_INSTRUCTIONS], seconds: [0; MOST_INSTRUCTIONS] }
    }
}

impl Instructions {
    /// All of it, lent.
    pub fn lent(&mut self) -> LentInstructions<'_> {
        LentInstructions { codes: &mut self.codes, firsts: &mut self.firsts, seconds: &mut self.seconds }
    }
}
