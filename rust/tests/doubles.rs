//! The figures of the ball run as doubles: the bits, what is kept, and the refusals.
use margins::*;

const FORMULA: [u8; 11] = [0x02, 0x41, 0x00, 0x41, 0x80, 0x00, 0x02, 0x80, 0x20, 0x00, 0x03];
const LIMIT: i64 = i32::MAX as i64;
// What a lent place holds before a run: a NaN with a payload, minus zero, the least number, a NaN that signals.
const HELD: [u64; 4] = [0x7FF8_0000_0000_BEEF, 1 << 63, 1, 0xFFF4_0000_0000_0001];

fn held() -> [f64; 4] {
    HELD.map(f64::from_bits)
}

fn bits(doubles: &[f64]) -> Vec<u64> {
    doubles.iter().map(|double| double.to_bits()).collect()
}

/// Whether the bits, read as sign, significand and power of two, mean units/2^scale; a zero is plus zero.
fn is_exactly(double: f64, units: i64, scale: u32) -> bool {
    let bits = double.to_bits();
    if units == 0 {
        return bits == 0;
    }
    let (sign, exponent, fraction) = (bits >> 63, (bits >> 52) & 0x7FF, bits & ((1 << 52) - 1));
    // The number is significand/2^(1075 - exponent), and units have less than 53 bits.
    let Some(shift) = 1075_u64.checked_sub(exponent + u64::from(scale)).filter(|shift| *shift <= 52) else { return false };
    sign == u64::from(units < 0) && u128::from(units.unsigned_abs()) << shift == u128::from(1 << 52 | fraction)
}

#[test]
fn the_bits_mean_the_very_number_at_every_scale() {
    let sizes = (0..31).flat_map(|power| [(1 << power) - 1, 1 << power, (1 << power) + 1]).chain([LIMIT]);
    let balls: Vec<(i64, i64)> = sizes.flat_map(|size| [(size, 0), (-size, LIMIT - size), (LIMIT - size, size)]).collect();
    for scale in 0..=30_u32 {
        let mut file = [0; MOST_BYTES];
        let count = pack(scale.into(), 1, &[code::NEGATE], &[0], &[0], &[0, 1], &mut file).unwrap();
        for &(centre, margin) in &balls {
            let (mut work, mut output) = (Balls::default(), Doubles::default());
            assert_eq!(ball_doubles(&file[..count], &[centre], &[margin], work.lent(), output.lent()), Ok(2));
            for (place, units) in [centre, -centre].into_iter().enumerate() {
                let (drawn, around) = (output.centres[place], output.margins[place]);
                let exact = is_exactly(drawn, units, scale) && is_exactly(around, margin, scale);
                assert!(exact, "{units} give or take {margin} at scale {scale}: {drawn:?} give or take {around:?}");
            }
        }
    }
}

#[test]
fn places_behind_the_outputs_keep_their_bits() {
    let (mut work, mut centres, mut margins) = (Balls::default(), held(), held());
    let output = LentDoubles { centres: &mut centres, margins: &mut margins[1..] };
    assert_eq!(ball_doubles(&FORMULA, &[24, -10], &[3, 2], work.lent(), output), Ok(1));
    let drawn = 0.5625_f64.to_bits();
    assert_eq!(bits(&centres), [drawn, HELD[1], HELD[2], HELD[3]]);
    assert_eq!(bits(&margins), [HELD[0], drawn, HELD[2], HELD[3]]);
}

#[test]
fn a_refusal_is_that_of_the_ball_and_gives_no_pair() {
    let cases: [(&[u8], &[i64], &[i64]); 8] = [
        (&FORMULA[..10], &[24, -10], &[3, 2]),
        (&[0; 11], &[24, -10], &[3, 2]),
        (&FORMULA, &[24], &[3, 2]),
        (&FORMULA, &[24, -10], &[3, -2]),
        (&FORMULA, &[24, i64::MIN], &[3, 2]),
        (&FORMULA, &[LIMIT, LIMIT], &[0, 0]),
        (&FORMULA, &[LIMIT, 16], &[0, 0]),
        // Scale 16: value 2 is the reciprocal of value 1, which may be 0.
        (&[0x03, 0x01, 0x00, 0x41, 0xc0, 0x0c, 0x00, 0x00, 0x20, 0x0c], &[24, 5], &[3, 5]),
    ];
    for (formula, readings, doubts) in cases {
        let (mut work, mut output) = (Balls::default(), Balls::default());
        let refused = ball(formula, readings, doubts, work.lent(), output.lent());
        assert!(refused.is_err());
        let (mut work2, mut centres, mut margins) = (Balls::default(), held(), held());
        let drawn = LentDoubles { centres: &mut centres, margins: &mut margins };
        assert_eq!(ball_doubles(formula, readings, doubts, work2.lent(), drawn), refused);
        assert_eq!((work2, bits(&centres), bits(&margins)), (work, HELD.to_vec(), HELD.to_vec()));
    }
}

#[test]
fn every_list_has_its_room_tested() {
    let mut values = (vec![7; 4], vec![7; 4]);
    for short in 0..4 {
        let (mut centres, mut margins) = (held(), held());
        let room = |list: usize, enough: usize| enough - usize::from(list == short);
        let work = LentBalls { centres: &mut values.0[..room(0, 4)], margins: &mut values.1[..room(1, 4)] };
        let output = LentDoubles { centres: &mut centres[..room(2, 1)], margins: &mut margins[..room(3, 1)] };
        assert_eq!(ball_doubles(&FORMULA, &[24, -10], &[3, 2], work, output), Err(Refusal::NoRoom.into()));
        assert_eq!((bits(&centres), bits(&margins)), (HELD.to_vec(), HELD.to_vec()));
    }
    assert_eq!(values, (vec![7; 4], vec![7; 4]));
}

#[test]
fn lent_doubles_can_be_lent_on() {
    let (mut work, mut output) = (Balls::default(), Doubles::default());
    let mut output = output.lent();
    for margin in [3, 0] {
        assert_eq!(ball_doubles(&FORMULA, &[24, -10], &[margin, 2], work.lent(), output.lent()), Ok(1));
    }
    assert_eq!((output.centres[0], output.margins[0]), (0.5625, 0.1875));
    assert_eq!((work.centres[3], work.margins[3]), (9, 3));
}
