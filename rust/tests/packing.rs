//! Lists to bytes and bytes to lists: both ways, each refusal in its order, and what stays as it was.
use margins::code::*;
use margins::*;

const FORMULA: [u8; 11] = [0x02, 0x41, 0x00, 0x41, 0x80, 0x00, 0x02, 0x80, 0x20, 0x00, 0x03];
const LIMIT: i64 = i32::MAX as i64;

/// One instruction after two inputs, and one output.
fn packed(code: i64, first: i64, second: i64, output: i64) -> Result<usize, Refused> {
    pack(4, 2, &[code], &[first], &[second], &[output], &mut [0; MOST_BYTES])
}

#[test]
fn the_example_is_packed_and_read_back() {
    let mut bytes = [7; 13];
    assert_eq!(pack(4, 2, &[MULTIPLY, ADD], &[0, 2], &[1, 0], &[3], &mut bytes), Ok(11));
    assert_eq!((&bytes[..11], &bytes[11..]), (&FORMULA[..], &[7, 7][..]));

    let (mut codes, mut firsts, mut seconds, mut outputs) = ([7; 3], [7; 2], [7; 4], [7; 2]);
    let mut lent = LentInstructions { codes: &mut codes, firsts: &mut firsts, seconds: &mut seconds };
    assert_eq!(unpack(&FORMULA, lent.lent(), &mut outputs), check(&FORMULA));
    assert_eq!((codes, firsts, seconds, outputs), ([MULTIPLY, ADD, 7], [0, 2], [1, 0, 7, 7], [3, 7]));
}

#[test]
fn every_code_goes_both_ways() {
    let (codes, firsts) = ([CONSTANT, NEGATE, ADD, SUBTRACT, MULTIPLY, COEFFICIENT, RECIPROCAL], [-LIMIT, 0, 1, 0, 3, 1 - LIMIT, 6]);
    let (given, read) = ([i64::MIN, i64::MAX, 2, 1, 4, 1, -1], [0, 0, 2, 1, 4, 1, 0]);
    let mut bytes = [0; MOST_BYTES];
    let count = pack(16, 1, &codes, &firsts, &given, &[7, 0], &mut bytes).unwrap();

    let (mut lists, mut outputs) = (Instructions::default(), [0; MOST_OUTPUTS]);
    let header = unpack(&bytes[..count], lists.lent(), &mut outputs).unwrap();
    assert_eq!(header, Formula { scale: 16, inputs: 1, instructions: 7, outputs: 2 });
    assert_eq!((&lists.codes[..7], &lists.firsts[..7], &lists.seconds[..7]), (&codes[..], &firsts[..], &read[..]));

    let mut again = vec![0; count];
    let (codes, firsts, seconds) = (&lists.codes[..7], &lists.firsts[..7], &lists.seconds[..7]);
    assert_eq!(pack(header.scale.into(), header.inputs as i64, codes, firsts, seconds, &outputs[..2], &mut again), Ok(count));
    assert_eq!(again, bytes[..count]);
}

#[test]
fn the_longest_formula_has_the_most_bytes() {
    let (codes, zeros, outputs) = ([COEFFICIENT; MOST_INSTRUCTIONS + 1], [0; MOST_INSTRUCTIONS + 1], [527; MOST_OUTPUTS]);
    let mut bytes = [0; MOST_BYTES];
    let (inputs, most, none) = (MOST_INPUTS as i64, &codes[1..], &zeros[1..]);
    assert_eq!(pack(0, inputs, most, none, none, &outputs, &mut bytes), Ok(MOST_BYTES));
    assert_eq!(pack(0, inputs, most, none, none, &outputs, &mut bytes[1..]), Err(Refusal::NoRoom.into()));
    assert_eq!(pack(0, inputs, &codes, &zeros, &zeros, &outputs, &mut bytes), Err(Refusal::Count.into()));
    assert_eq!(pack(0, inputs, none, none, none, &outputs, &mut bytes), Ok(2264));
}

#[test]
fn a_coefficient_keeps_its_doubt() {
    // The weight 0.1 at scale 4, times 10: 1.6 units were rounded to 2, and the exact product is 16 units.
    let mut bytes = [0; MOST_BYTES];
    for (code, margin, expected) in [(CONSTANT, 1, 0), (COEFFICIENT, 0, 0), (COEFFICIENT, 1, 10)] {
        let count = pack(4, 1, &[code, MULTIPLY], &[2, 0], &[margin, 1], &[2], &mut bytes).unwrap();
        let (mut work, mut output) = (Balls::default(), Balls::default());
        assert_eq!(ball(&bytes[..count], &[160], &[0], work.lent(), output.lent()), Ok(1));
        assert_eq!((output.centres[0], output.margins[0]), (20, expected));
    }
}

#[test]
fn a_quotient_is_a_product_with_a_reciprocal() {
    // Scale 16: 90 minutes lost, give or take 1, of 600 probes sent: 0.15 minutes are 9830.4 units.
    let mut bytes = [0; MOST_BYTES];
    let count = pack(16, 2, &[RECIPROCAL, MULTIPLY], &[1, 0], &[i64::MIN, 2], &[3, 2], &mut bytes).unwrap();
    let (mut work, mut output) = (Balls::default(), Balls::default());
    assert_eq!(ball(&bytes[..count], &[90 << 16, 600 << 16], &[1 << 16, 0], work.lent(), output.lent()), Ok(2));
    assert_eq!((output.centres[..2].to_vec(), output.margins[..2].to_vec()), (vec![9810, 109], vec![200, 1]));
}

#[test]
fn a_reciprocal_is_for_scales_up_to_sixteen() {
    let mut bytes = [7; 16];
    for scale in 0..=16 {
        assert_eq!(pack(scale, 1, &[RECIPROCAL], &[0], &[9], &[1], &mut bytes), Ok(7));
        assert_eq!(pack(scale, 1, &[RECIPROCAL], &[1], &[0], &[1], &mut bytes), Err(Refusal::Operand.into()));
    }
    let mut bytes = [7; 16];
    for scale in 17..=30 {
        assert_eq!(pack(scale, 1, &[RECIPROCAL], &[0], &[0], &[1], &mut bytes), Err(Refusal::ReciprocalScale.into()));
        assert_eq!(pack(scale, 1, &[RECIPROCAL, 7], &[-1, 0], &[0, 0], &[9], &mut []), Err(Refusal::ReciprocalScale.into()));
        assert_eq!(pack(scale, 1, &[7, RECIPROCAL], &[0, 0], &[0, 0], &[1], &mut bytes), Err(Refusal::Code.into()));
        assert_eq!(pack(scale, 1, &[NEGATE, RECIPROCAL], &[1, 0], &[0, 0], &[1], &mut bytes), Err(Refusal::Operand.into()));
        assert_eq!(pack(scale, 1, &[NEGATE], &[0], &[0], &[1], &mut [0; 7]), Ok(7));
    }
    assert_eq!(pack(31, 1, &[RECIPROCAL], &[0], &[0], &[1], &mut bytes), Err(Refusal::Scale.into()));
    assert_eq!(bytes, [7; 16]);
}

#[test]
fn packing_refuses_the_first_field_that_is_wrong() {
    let mut bytes = [7; 16];
    for (scale, inputs) in [(31, 17), (-1, -1), (i64::MIN, 0), (i64::MAX, 0)] {
        assert_eq!(pack(scale, inputs, &[9], &[], &[], &[], &mut bytes), Err(Refusal::Scale.into()));
    }
    for inputs in [17, -1, i64::MIN, i64::MAX] {
        assert_eq!(pack(0, inputs, &[], &[], &[], &[0], &mut bytes), Err(Refusal::Count.into()));
    }
    assert_eq!(pack(0, 1, &[9], &[0, 0], &[0], &[0], &mut bytes), Err(Refusal::Count.into()));
    assert_eq!(pack(0, 1, &[9], &[0], &[], &[0], &mut bytes), Err(Refusal::Count.into()));
    assert_eq!(pack(0, 1, &[9], &[0], &[0], &[], &mut bytes), Err(Refusal::Count.into()));
    assert_eq!(pack(0, 1, &[CONSTANT, 7], &[LIMIT, 0], &[0, 0], &[9], &mut bytes), Err(Refusal::Code.into()));
    assert_eq!(pack(0, 1, &[CONSTANT, 7], &[LIMIT + 1, 0], &[0, 0], &[9], &mut bytes), Err(Refusal::Constant.into()));
    assert_eq!(pack(0, 1, &[NEGATE], &[0], &[0], &[2], &mut []), Err(Refusal::Operand.into()));
    assert_eq!(pack(0, 1, &[NEGATE], &[0], &[0], &[1], &mut bytes[..6]), Err(Refusal::NoRoom.into()));
    assert_eq!(bytes, [7; 16]);
}

#[test]
fn each_field_has_its_limits() {
    for code in [-1, 7, 8, i64::MIN, 1 << 32, (1 << 32) + 6] {
        assert_eq!(packed(code, 0, 0, 0), Err(Refusal::Code.into()));
    }
    for constant in [-LIMIT - 1, LIMIT + 1, i64::MIN, i64::MAX, 1 << 32] {
        assert_eq!(packed(CONSTANT, constant, 0, 0), Err(Refusal::Constant.into()));
        assert_eq!(packed(COEFFICIENT, constant, 0, 0), Err(Refusal::Constant.into()));
    }
    for (centre, margin) in
        [(0, -1), (LIMIT, 1), (-LIMIT, 1), (1, LIMIT), (0, LIMIT + 1), (5, i64::MIN), (5, i64::MAX), (i64::MIN, i64::MAX)]
    {
        assert_eq!(packed(COEFFICIENT, centre, margin, 0), Err(Refusal::Constant.into()));
    }
    for (centre, margin) in [(0, 0), (LIMIT, 0), (-LIMIT, 0), (LIMIT - 1, 1), (1 - LIMIT, 1), (0, LIMIT)] {
        assert_eq!(packed(COEFFICIENT, centre, margin, 0), Ok(14));
    }
    for name in [-1, 2, 1024, i64::MIN, 1 << 32] {
        assert_eq!(packed(NEGATE, name, 0, 0), Err(Refusal::Operand.into()));
        assert_eq!(packed(RECIPROCAL, name, 0, 0), Err(Refusal::Operand.into()));
        assert_eq!(packed(SUBTRACT, 0, name, 0), Err(Refusal::Operand.into()));
        assert_eq!((packed(NEGATE, 0, name, 0), packed(RECIPROCAL, 0, name, 0)), (Ok(7), Ok(7)));
    }
    assert_eq!((packed(NEGATE, 1, 0, 2), packed(NEGATE, 1, 0, 3)), (Ok(7), Err(Refusal::Operand.into())));
}

#[test]
fn reading_back_refuses_bytes_before_lists() {
    let mut places = [[7; 2]; 4];
    let [codes, firsts, seconds, outputs] = &mut places;
    let mut lent = LentInstructions { codes, firsts, seconds };
    assert_eq!(unpack(&FORMULA[..10], lent.lent(), &mut []), Err(Refusal::Ended.into()));
    assert_eq!(unpack(&FORMULA, lent.lent(), &mut []), Err(Refusal::NoRoom.into()));
    for short in 0..3 {
        let length = |list| if short == list { 1 } else { 2 };
        let (codes, firsts, seconds) = (&mut lent.codes[..length(0)], &mut lent.firsts[..length(1)], &mut lent.seconds[..length(2)]);
        assert_eq!(unpack(&FORMULA, LentInstructions { codes, firsts, seconds }, outputs), Err(Refusal::NoRoom.into()));
    }
    assert_eq!(places, [[7; 2]; 4]);
}
