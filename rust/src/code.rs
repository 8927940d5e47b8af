//! The codes of the instructions, for [`pack`](crate::pack) and [`unpack`](crate::unpack), and the fields that each has.

/// The first field is the constant itself, exact, -2147483647 to 2147483647; it has no second.
pub const CONSTANT: i64 = 0;
/// The first field names the operand; it has no second.
pub const NEGATE: i64 = 1;
/// Both fields name operands.
pub const ADD: i64 = 2;
/// The first field names the operand from which that of the second is taken.
pub const SUBTRACT: i64 = 3;
/// Both fields name operands.
pub const MULTIPLY: i64 = 4;
/// A constant with a margin. The first field is its centre, the second how far the truth may be from it, at least 0; |centre| + margin is at
/// most 2147483647.
pub const COEFFICIENT: i64 = 5;
/// 1 divided by the operand that the first field names, in a formula whose scale is 0 to 16; it has no second. x/y is x times the
/// reciprocal of y.
///
/// ```
/// use margins::code::{MULTIPLY, RECIPROCAL};
/// // Scale 4: value 2 is the reciprocal of value 1, value 3 is value 0 times value 2.
/// let mut formula = [0; margins::MOST_BYTES];
/// let bytes = margins::pack(4, 2, &[RECIPROCAL, MULTIPLY], &[1, 0], &[0, 2], &[3], &mut formula)?;
/// let (mut work, mut output) = (margins::Balls::default(), margins::Balls::default());
/// // One and a half divided by two is 12 sixteenths.
/// margins::ball(&formula[..bytes], &[24, 32], &[0, 0], work.lent(), output.lent())?;
/// assert_eq!((output.centres[0], output.margins[0]), (12, 0));
/// // Two give or take two may be 0.
/// let refused = margins::ball(&formula[..bytes], &[24, 32], &[0, 32], work.lent(), output.lent()).unwrap_err();
/// assert_eq!(refused.to_string(), "a reciprocal of what may be 0 (refused 17), at instruction 0");
/// # Ok::<(), margins::Refused>(())
/// ```
pub const RECIPROCAL: i64 = 6;
