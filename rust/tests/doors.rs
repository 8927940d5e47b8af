//! Each door on document 01's example, on a refusal, and on lists that are too short.
use margins::*;

const FORMULA: [u8; 11] = [0x02, 0x41, 0x00, 0x41, 0x80, 0x00, 0x02, 0x80, 0x20, 0x00, 0x03];

#[test]
fn check_tells_the_header() {
    assert_eq!(check(&FORMULA), Ok(Formula { scale: 4, inputs: 2, instructions: 2, outputs: 1 }));
    assert_eq!(check(&[]), Err(Refusal::Ended.into()));
    assert_eq!(check(&FORMULA[..10]), Err(Refused { refusal: Refusal::Ended, place: None }));
}

#[test]
fn the_sizes_that_check_tells_are_enough_and_no_fewer_are() {
    let formula = check(&FORMULA).unwrap();
    let (values, outputs) = (formula.values(), formula.outputs);
    let no_room = Err(Refusal::NoRoom.into());
    assert_eq!(plain(&FORMULA, &[24, -10], &mut vec![0; values], &mut vec![0; outputs]), Ok(outputs));
    assert_eq!(plain(&FORMULA, &[24, -10], &mut vec![0; values - 1], &mut vec![0; outputs]), no_room);
    assert_eq!(plain(&FORMULA, &[24, -10], &mut vec![0; values], &mut vec![0; outputs - 1]), no_room);
}

#[test]
fn the_longest_formula_has_the_most_values() {
    let most = Formula { scale: 0, inputs: MOST_INPUTS, instructions: MOST_INSTRUCTIONS, outputs: MOST_OUTPUTS };
    assert_eq!(most.values(), MOST_VALUES);
}

#[test]
fn plain_gives_the_centre() {
    let (mut work, mut output) = ([0; 4], [7; 2]);
    assert_eq!(plain(&FORMULA, &[24, -10], &mut work, &mut output), Ok(1));
    assert_eq!((work, output), ([24, -10, -15, 9], [9, 7]));
}

#[test]
fn both_ball_doors_answer_identically() {
    let cases: [(&[i64], &[i64]); 4] = [(&[24, -10], &[3, 2]), (&[24], &[3]), (&[i64::MIN, 0], &[0, 0]), (&[24, -10], &[3, -2])];
    for (centres, margins) in cases {
        let (mut work, mut output) = (Balls::default(), Balls::default());
        let one = ball(&FORMULA, centres, margins, work.lent(), output.lent());
        let readings: Vec<Reading> = centres.iter().zip(margins).map(|(&centre, &margin)| Reading { centre, margin }).collect();
        let (mut work2, mut output2) = (Balls::default(), Balls::default());
        let other = ball_records(&FORMULA, &readings, work2.lent(), output2.lent());
        assert_eq!(one, other);
        assert_eq!((work, output), (work2, output2));
    }
}

#[test]
fn lent_lists_can_be_lent_on() {
    let (mut work, mut output) = (Balls::default(), Balls::default());
    let (mut work, mut output) = (work.lent(), output.lent());
    for margin in [3, 0] {
        assert_eq!(ball(&FORMULA, &[24, -10], &[margin, 2], work.lent(), output.lent()), Ok(1));
    }
    assert_eq!((output.centres[0], output.margins[0]), (9, 3));
}

#[test]
fn admit_gives_nine_nine_four() {
    let (mut work, mut output) = (Matryoshki::default(), Matryoshki::default());
    assert_eq!(admit(&FORMULA, &[24, -10], &[3, 2], &[1, 1], work.lent(), output.lent()), Ok(1));
    assert_eq!((output.middles[0], output.strays[0], output.margins[0]), (9, 9, 4));
    let mut lent = output.lent();
    assert_eq!(admit(&FORMULA, &[24, -10], &[0, 0], &[1, 1], work.lent(), lent.lent()), Ok(1));
    assert_eq!((lent.middles[0], lent.strays[0], lent.margins[0]), (9, 0, 4));
}
