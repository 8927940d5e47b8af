//! Why a domain is refused: each answer, what is met beyond it, each refusal in its order with its place.
use margins::code::{ADD, CONSTANT, MULTIPLY, NEGATE, RECIPROCAL};
use margins::*;

const FORMULA: [u8; 11] = [0x02, 0x41, 0x00, 0x41, 0x80, 0x00, 0x02, 0x80, 0x20, 0x00, 0x03];
const LIMIT: i64 = i32::MAX as i64;

fn packed(scale: i64, inputs: i64, rows: &[[i64; 3]]) -> Vec<u8> {
    let mut bytes = vec![0; MOST_BYTES];
    let [codes, firsts, seconds] = [0, 1, 2].map(|field| rows.iter().map(|row| row[field]).collect::<Vec<_>>());
    let last = inputs + rows.len() as i64 - 1;
    let count = pack(scale, inputs, &codes, &firsts, &seconds, &[last], &mut bytes).unwrap();
    bytes.truncate(count);
    bytes
}

fn at(refusal: Refusal, place: usize) -> Refused {
    Refused { refusal, place: Some(place) }
}

fn admitted_to(parts: u8, met: Refused) -> Result<Explanation, Refused> {
    Ok(Explanation::AdmittedTo { parts, met })
}

/// What admitting the t-th part of 256 answers.
fn admitted(formula: &[u8], middles: &[i64], strays: &[i64], margins: &[i64], t: i64) -> Result<usize, Refused> {
    let part = |numbers: &[i64]| numbers.iter().map(|number| number * t / 256).collect::<Vec<_>>();
    let (mut work, mut output) = (Matryoshki::default(), Matryoshki::default());
    admit(formula, middles, &part(strays), &part(margins), work.lent(), output.lent())
}

/// The answer, which is the one that trying every t gives.
fn explanation(formula: &[u8], middles: &[i64], strays: &[i64], margins: &[i64]) -> Explanation {
    let found = explain(formula, middles, strays, margins).unwrap();
    let tried: Vec<_> = (0..=256).map(|t| admitted(formula, middles, strays, margins, t)).collect();
    let largest = tried.iter().rposition(Result::is_ok);
    let expected = match largest {
        Some(256) => Explanation::NothingToExplain,
        Some(t) => Explanation::AdmittedTo { parts: t as u8, met: tried[t + 1].unwrap_err() },
        None => Explanation::NeverAdmitted { met: tried[0].unwrap_err() },
    };
    assert_eq!(found, expected);
    assert!(tried.iter().take(largest.map_or(0, |t| t + 1)).all(Result::is_ok));
    found
}

#[test]
fn an_admitted_domain_has_nothing_to_explain() {
    assert_eq!(explanation(&FORMULA, &[24, -10], &[3, 2], &[1, 1]), Explanation::NothingToExplain);
    assert_eq!(explanation(&FORMULA, &[24, -10], &[0, 0], &[0, 0]), Explanation::NothingToExplain);
    assert_eq!(explanation(&packed(4, 1, &[[NEGATE, 0, 0]]), &[0], &[LIMIT - 1], &[1]), Explanation::NothingToExplain);
    assert_eq!(explanation(&packed(4, 0, &[[CONSTANT, LIMIT, 0]]), &[], &[], &[]), Explanation::NothingToExplain);
}

#[test]
fn a_refused_domain_is_admitted_to_a_part_of_it() {
    let (doubled, inverse) = (packed(0, 1, &[[ADD, 0, 0]]), packed(0, 1, &[[RECIPROCAL, 0, 0]]));
    let (out_of_reach, may_be_zero) = (at(Refusal::OutOfReach, 0), at(Refusal::MayBeZero, 0));
    for (formula, domain, parts, met) in [
        // A half of the limit is rounded down.
        (&doubled, (0, LIMIT, 0), 128, out_of_reach),
        (&doubled, (0, 0, LIMIT), 128, out_of_reach),
        (&doubled, (0, 1 << 30, 0), 255, out_of_reach),
        (&doubled, ((1 << 30) - 1, 256, 256), 0, out_of_reach),
        (&inverse, (100, 200, 0), 127, may_be_zero),
        (&inverse, (-100, 0, 200), 127, may_be_zero),
        (&inverse, (5, 1, 5), 255, may_be_zero),
    ] {
        let (middle, stray, margin) = domain;
        assert_eq!(explanation(formula, &[middle], &[stray], &[margin]), Explanation::AdmittedTo { parts, met }, "{domain:?}");
    }
    assert_eq!(explain(&FORMULA, &[24, -10], &[3000000, 2000000], &[1, 1]), admitted_to(19, out_of_reach));
}

#[test]
fn what_is_met_is_that_of_the_next_part_and_not_of_the_whole_domain() {
    // Instruction 1 is refused from 128 on, instruction 0 from 129 on.
    let formula = packed(0, 2, &[[ADD, 1, 1], [RECIPROCAL, 0, 0]]);
    let (middles, strays, margins) = ([100, 0], [200, LIMIT], [0, 0]);
    assert_eq!(admitted(&formula, &middles, &strays, &margins, 256), Err(at(Refusal::OutOfReach, 0)));
    let met = at(Refusal::MayBeZero, 1);
    assert_eq!(explanation(&formula, &middles, &strays, &margins), Explanation::AdmittedTo { parts: 127, met });
}

#[test]
fn a_domain_may_never_be_admitted() {
    // With the whole domain instruction 0 is refused, at 0 instruction 3.
    let formula = packed(0, 1, &[[RECIPROCAL, 0, 0], [CONSTANT, LIMIT, 0], [NEGATE, 1, 0], [ADD, 2, 2]]);
    assert_eq!(explanation(&formula, &[9], &[9], &[0]), Explanation::NeverAdmitted { met: at(Refusal::OutOfReach, 3) });
    let inverse = packed(4, 1, &[[NEGATE, 0, 0], [RECIPROCAL, 1, 0]]);
    assert_eq!(explanation(&inverse, &[0], &[5], &[5]), Explanation::NeverAdmitted { met: at(Refusal::MayBeZero, 1) });
    let without_inputs = packed(4, 0, &[[CONSTANT, LIMIT, 0], [MULTIPLY, 0, 0]]);
    assert_eq!(explanation(&without_inputs, &[], &[], &[]), Explanation::NeverAdmitted { met: at(Refusal::OutOfReach, 1) });
}

#[test]
fn an_instruction_past_255_is_told() {
    let rows: Vec<_> = (0..MOST_INSTRUCTIONS as i64).map(|k| if k == 511 { [ADD, 0, 0] } else { [NEGATE, k, 0] }).collect();
    let met = at(Refusal::OutOfReach, 511);
    assert_eq!(explanation(&packed(7, 1, &rows), &[1 << 29], &[1 << 30], &[0]), Explanation::AdmittedTo { parts: 127, met });
}

#[test]
fn bytes_counts_and_readings_are_refused_in_this_order() {
    let bad: &[i64] = &[3, -1];
    assert_eq!(explain(&FORMULA[..10], &[24], bad, bad), Err(Refusal::Ended.into()));
    assert_eq!(explain(&[0; 11], &[24, -10], bad, bad), Err(Refusal::Version.into()));
    for (middles, strays, margins) in [
        (&[24][..], &[3, 2][..], &[1, 1][..]),
        (&[24, -10], &[3], &[1, 1]),
        (&[24, -10], &[3, 2], &[]),
        (&[24, -10, 5], &[-3, 2, 1], &[1, 1, 1]),
    ] {
        assert_eq!(explain(&FORMULA, middles, strays, margins), Err(Refusal::ReadingCount.into()));
    }
    let (negative, large) = (Refusal::NegativeMargin, Refusal::ReadingTooLarge);
    assert_eq!(explain(&FORMULA, &[24, -10], bad, &[1, 1]), Err(at(negative, 1)));
    assert_eq!(explain(&FORMULA, &[24, -10], &[3, 2], bad), Err(at(negative, 1)));
    assert_eq!(explain(&FORMULA, &[i64::MIN, -10], &[3, 2], bad), Err(at(large, 0)));
    assert_eq!(explain(&FORMULA, &[i64::MIN, -10], &[3, 2], &[i64::MIN, 1]), Err(at(negative, 0)));
    assert_eq!(explain(&FORMULA, &[24, LIMIT - 1], &[3, 1], &[1, 1]), Err(at(large, 1)));
    // 255 of 256 parts of it would be in reach.
    assert_eq!(explain(&FORMULA, &[24, 0], &[3, LIMIT], &[1, 1]), Err(at(large, 1)));
}
