//! A refusal: its number, its place, its words, and what a caller does with it.
use margins::*;
use std::error::Error;
use std::fmt::Debug;

const FORMULA: [u8; 11] = [0x02, 0x41, 0x00, 0x41, 0x80, 0x00, 0x02, 0x80, 0x20, 0x00, 0x03];
const LIMIT: i64 = i32::MAX as i64;

fn at(refusal: Refusal, place: usize) -> Refused {
    Refused { refusal, place: Some(place) }
}

fn out_of_reach(place: usize) -> Refused {
    at(Refusal::OutOfReach, place)
}

#[test]
fn every_run_tells_the_instruction_that_is_out_of_reach() {
    let (mut work, mut output) = ([7; 4], [7; 1]);
    assert_eq!(plain(&FORMULA, &[LIMIT, LIMIT], &mut work, &mut output), Err(out_of_reach(0)));
    assert_eq!((work, output), ([LIMIT, LIMIT, 7, 7], [7]));
    assert_eq!(plain(&FORMULA, &[LIMIT, 16], &mut work, &mut output), Err(out_of_reach(1)));
    assert_eq!((work, output), ([LIMIT, 16, LIMIT, 7], [7]));

    let (mut work, mut output) = (Balls::default(), Balls::default());
    assert_eq!(ball(&FORMULA, &[LIMIT, 8], &[0, 0], work.lent(), output.lent()), Err(out_of_reach(1)));
    let readings = [Reading { centre: LIMIT, margin: 0 }, Reading { centre: 8, margin: 0 }];
    assert_eq!(ball_records(&FORMULA, &readings, work.lent(), output.lent()), Err(out_of_reach(1)));
    assert_eq!(output, Balls::default());

    let (mut work, mut output) = (Matryoshki::default(), Matryoshki::default());
    assert_eq!(admit(&FORMULA, &[LIMIT, 8], &[0, 0], &[0, 0], work.lent(), output.lent()), Err(out_of_reach(1)));
    assert_eq!(output, Matryoshki::default());
}

#[test]
fn every_run_tells_the_reciprocal_of_what_may_be_zero() {
    // Scale 4: value 1 is value 0 negated, value 2 the reciprocal of value 1.
    let mut bytes = [0; MOST_BYTES];
    let count = pack(4, 1, &[code::NEGATE, code::RECIPROCAL], &[0, 1], &[0, 0], &[2], &mut bytes).unwrap();
    let formula = &bytes[..count];
    let refused = Err(at(Refusal::MayBeZero, 1));

    let (mut work, mut output) = ([7; 3], [7; 1]);
    assert_eq!(plain(formula, &[3], &mut work, &mut output), Ok(1));
    assert_eq!((work, output), ([3, -3, -85], [-85]));
    let (mut work, mut output) = ([7; 3], [7; 1]);
    assert_eq!(plain(formula, &[0], &mut work, &mut output), refused);
    assert_eq!((work, output), ([0, 0, 7], [7]));

    let (mut work, mut output) = (Balls::default(), Balls::default());
    assert_eq!(ball(formula, &[3], &[3], work.lent(), output.lent()), refused);
    assert_eq!(ball_records(formula, &[Reading { centre: -3, margin: 3 }], work.lent(), output.lent()), refused);
    assert_eq!(output, Balls::default());
    assert_eq!(ball(formula, &[3], &[2], work.lent(), output.lent()), Ok(1));
    assert_eq!((output.centres[0], output.margins[0]), (-85, 172));

    let (mut work, mut output) = (Matryoshki::default(), Matryoshki::default());
    for (stray, margin) in [(3, 0), (0, 3), (2, 1), (1, 2), (5, 5)] {
        assert_eq!(admit(formula, &[3], &[stray], &[margin], work.lent(), output.lent()), refused);
    }
    assert_eq!(output, Matryoshki::default());
    assert_eq!(admit(formula, &[3], &[1], &[1], work.lent(), output.lent()), Ok(1));
    assert_eq!((output.middles[0], output.strays[0], output.margins[0]), (-85, 43, 129));
}

#[test]
fn the_other_refusals_have_no_place() {
    let (mut work, mut output) = ([7; 4], [7; 1]);
    assert_eq!(plain(&[], &[], &mut work, &mut output), Err(Refusal::Ended.into()));
    assert_eq!(plain(&FORMULA, &[1], &mut work, &mut output), Err(Refusal::ReadingCount.into()));
    assert_eq!(plain(&FORMULA, &[1, 1, i64::MIN], &mut work, &mut output), Err(Refusal::ReadingCount.into()));
    assert_eq!(plain(&FORMULA, &[1, 1], &mut work[..3], &mut output), Err(Refusal::NoRoom.into()));
    assert_eq!(plain(&FORMULA, &[1, 1], &mut [], &mut []), Err(Refusal::NoRoom.into()));
    assert_eq!((work, output), ([7; 4], [7; 1]));
}

#[test]
fn every_run_tells_the_lowest_bad_reading() {
    let (negative, large) = (Refusal::NegativeMargin, Refusal::ReadingTooLarge);
    let mut work = [7; 4];
    for (readings, place) in [([LIMIT + 1, i64::MIN], 0), ([i64::MIN, 0], 0), ([LIMIT, -LIMIT - 1], 1), ([0, i64::MIN], 1)] {
        assert_eq!(plain(&FORMULA, &readings, &mut work, &mut []), Err(at(large, place)));
    }
    assert_eq!(work, [7; 4]);

    let (mut work, mut output) = (Balls::default(), Balls::default());
    for (centres, margins, refused) in [
        ([24, -10], [3, -2], at(negative, 1)),
        ([24, i64::MIN], [i64::MIN, 0], at(negative, 0)),
        ([i64::MIN, 0], [0, -1], at(large, 0)),
        ([i64::MIN, 0], [-1, 0], at(negative, 0)),
        ([24, LIMIT], [3, 1], at(large, 1)),
        ([24, 0], [3, i64::MAX], at(large, 1)),
    ] {
        assert_eq!(ball(&FORMULA, &centres, &margins, work.lent(), output.lent()), Err(refused));
        let readings = [0, 1].map(|i| Reading { centre: centres[i], margin: margins[i] });
        assert_eq!(ball_records(&FORMULA, &readings, work.lent(), output.lent()), Err(refused));
        assert_eq!(ball(&FORMULA, &centres, &margins[..1], work.lent(), output.lent()), Err(Refusal::ReadingCount.into()));
    }
    assert_eq!((work, output), (Balls::default(), Balls::default()));

    let (mut work, mut output) = (Matryoshki::default(), Matryoshki::default());
    for (strays, margins, refused) in [
        ([3, -2], [1, 1], at(negative, 1)),
        ([3, LIMIT], [-1, 1], at(negative, 0)),
        ([LIMIT, 0], [1, i64::MIN], at(large, 0)),
        ([3, 2], [1, LIMIT], at(large, 1)),
    ] {
        assert_eq!(admit(&FORMULA, &[24, -10], &strays, &margins, work.lent(), output.lent()), Err(refused));
        assert_eq!(admit(&FORMULA, &[24, -10], &strays[1..], &margins, work.lent(), output.lent()), Err(Refusal::ReadingCount.into()));
    }
    assert_eq!((work, output), (Matryoshki::default(), Matryoshki::default()));
}

#[test]
fn check_refuses_with_each_number_of_the_file() {
    let cut = &FORMULA[..10];
    let damaged = |byte: usize, value: u8| {
        let mut bytes = FORMULA;
        bytes[byte] = value;
        check(&bytes).unwrap_err()
    };
    assert_eq!(check(cut).unwrap_err().refusal, Refusal::Ended);
    assert_eq!(damaged(0, 0x04).refusal, Refusal::Version);
    assert_eq!(check(&[0x03, 0xf0, 0, 0]).unwrap_err().refusal, Refusal::Scale);
    assert_eq!(check(&[0x02, 0x4f, 0xff, 0xff]).unwrap_err().refusal, Refusal::Count);
    assert_eq!(damaged(4, 0xe0).refusal, Refusal::Code);
    assert_eq!(damaged(10, 0x07).refusal, Refusal::Operand);
    let lowest = [0x02, 0x00, 0x00, 0x21, 0x10, 0, 0, 0, 0, 0, 0];
    assert_eq!(check(&lowest).unwrap_err().refusal, Refusal::Constant);
    let lowest = [0x02, 0x00, 0x00, 0x21, 0xb0, 0, 0, 0, 0, 0, 0, 0, 0, 0];
    assert_eq!(check(&lowest).unwrap_err().refusal, Refusal::Constant);
    assert_eq!(check(&lowest[..12]).unwrap_err().refusal, Refusal::Ended);
    assert_eq!(check(&[&FORMULA[..], &[0]].concat()).unwrap_err().refusal, Refusal::Padding);
    // Scale 17, one input, value 1 its reciprocal: refused right behind the code, whether its operand is there or not.
    let divided = [0x03, 0x10, 0x80, 0x21, 0xc0, 0x00, 0x02];
    assert_eq!(check(&divided).unwrap_err().refusal, Refusal::ReciprocalScale);
    assert_eq!(check(&divided[..5]).unwrap_err().refusal, Refusal::ReciprocalScale);
    assert_eq!(check(&divided[..4]).unwrap_err().refusal, Refusal::Ended);
    let at_sixteen = [0x03, 0x00, 0x80, 0x21, 0xc0, 0x00, 0x02];
    assert_eq!(check(&at_sixteen), Ok(Formula { scale: 16, inputs: 1, instructions: 1, outputs: 1 }));
}

#[test]
fn each_number_has_one_refusal_and_words_of_its_own() {
    assert_eq!(Refusal::numbered(0), None);
    assert_eq!(Refusal::Other(11), Refusal::OutOfReach);
    assert_eq!((Refusal::Other(16), Refusal::Other(17)), (Refusal::ReciprocalScale, Refusal::MayBeZero));
    assert_eq!((Refusal::Other(18), Refusal::Other(19)), (Refusal::Misplaced, Refusal::TooDeep));
    assert_eq!((Refusal::Other(24), Refusal::Other(25)), (Refusal::NumberText, Refusal::MarginText));
    assert_eq!((Refusal::Other(26), Refusal::Other(27)), (Refusal::BallReach, Refusal::DecimalPlaces));
    assert_ne!(Refusal::Other(20), Refusal::OutOfReach);
    let numbers = [1, 2, 3, 4, 5, 6, 7, 8, 10, 11, 13, 14, 15, 16, 17, 18, 19, 24, 25, 26, 27];
    let words = numbers.map(|number| Refusal::numbered(number).unwrap().to_string());
    for (number, said) in numbers.into_iter().zip(&words) {
        assert_eq!(Refusal::numbered(number).unwrap().number(), number);
        assert!(said.ends_with(&format!(" (refused {number})")), "{said}");
        assert_eq!(words.iter().filter(|other| *other == said).count(), 1);
    }
}

#[test]
fn a_later_number_is_kept_and_told() {
    for number in [9, 12, 20, 23, 28, 4096, u32::MAX] {
        let refusal = Refusal::numbered(number).unwrap();
        assert!(matches!(refusal, Refusal::Other(n) if n == number));
        assert_eq!(refusal.number(), number);
        let words = format!("for a reason that this version has no words for (refused {number})");
        assert_eq!((refusal.to_string(), Refused::from(refusal).to_string()), (words.clone(), words));
    }
}

#[test]
fn the_words_say_where() {
    assert_eq!(out_of_reach(3).to_string(), "a step's result is out of reach (refused 11), at instruction 3");
    assert_eq!(Refused::from(Refusal::OutOfReach).to_string(), "a step's result is out of reach (refused 11)");
    assert_eq!(at(Refusal::MayBeZero, 511).to_string(), "a reciprocal of what may be 0 (refused 17), at instruction 511");
    let scale = Refused::from(Refusal::ReciprocalScale).to_string();
    assert_eq!(scale, "a reciprocal in a formula whose scale is over 16 (refused 16)");
    let negative = at(Refusal::NegativeMargin, 0).to_string();
    assert_eq!(negative, "a reading has a negative stray or margin (refused 14), at reading 0");
    let large = at(Refusal::ReadingTooLarge, 15).to_string();
    assert_eq!(large, "a reading's |centre| + stray + margin is over 2147483647 (refused 15), at reading 15");
    let count = Refused::from(Refusal::ReadingCount).to_string();
    assert_eq!(count, "the number of readings isn't that of the inputs (refused 13)");
    let misplaced = at(Refusal::Misplaced, 0).to_string();
    assert_eq!(misplaced, "the text has a byte that cannot stand there, or ends too early (refused 18), at byte 0");
    let deep = at(Refusal::TooDeep, 32).to_string();
    assert_eq!(deep, "over 32 parentheses and minuses of the text are open at once (refused 19), at byte 32");
    let number = at(Refusal::NumberText, 9).to_string();
    assert_eq!(number, "the number's text has a byte that cannot stand there, or ends too early (refused 24), at byte 9");
    let margin = at(Refusal::MarginText, 0).to_string();
    assert_eq!(margin, "the margin's text has a byte that cannot stand there, or ends too early (refused 25), at byte 0");
    let reach = Refused::from(Refusal::BallReach).to_string();
    assert_eq!(reach, "the ball's |centre| + margin is over 2147483647 units (refused 26)");
    let decimals = Refused::from(Refusal::DecimalPlaces).to_string();
    assert_eq!(decimals, "the number of decimals is outside 0 to 9 (refused 27)");
    assert_eq!(check(&[]).unwrap_err().to_string(), "the bytes end inside a field (refused 1)");
}

fn checked_and_run(formula: &[u8]) -> Result<i64, Refused> {
    let header = check(formula)?;
    let mut output = vec![0; header.outputs];
    plain(formula, &[24, -10], &mut vec![0; header.values()], &mut output)?;
    if output[0] < 0 {
        Err(Refusal::NegativeMargin)?;
    }
    Ok(output[0])
}

fn boxed(formula: &[u8]) -> Result<i64, Box<dyn Error + Send + Sync>> {
    Ok(checked_and_run(formula)?)
}

#[test]
fn a_question_mark_goes_from_check_into_the_runs() {
    assert_eq!(checked_and_run(&FORMULA), Ok(9));
    assert_eq!(checked_and_run(&[]), Err(Refusal::Ended.into()));
    assert_eq!(boxed(&[]).unwrap_err().downcast_ref(), Some(&Refused::from(Refusal::Ended)));
}

fn expected<T: Debug + Clone + PartialEq>() {}
fn with_default<T: Debug + Clone + PartialEq + Default>() {}
fn shown<T: Debug + PartialEq>() {}
fn error<T: core::error::Error + Copy + Send + Sync + 'static>() {}

#[test]
fn the_types_have_what_a_user_expects() {
    expected::<Formula>();
    expected::<Refusal>();
    expected::<Refused>();
    with_default::<Reading>();
    with_default::<Decimal>();
    with_default::<Balls>();
    with_default::<Matryoshki>();
    with_default::<Instructions>();
    shown::<LentBalls<'_>>();
    shown::<LentMatryoshki<'_>>();
    shown::<LentInstructions<'_>>();
    error::<Refusal>();
    error::<Refused>();
}
