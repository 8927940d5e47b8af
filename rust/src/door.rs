//! The C functions of `include/margins.h`, each called once. A slice is what they ask of a list: memory that is there, aligned and,
//! where it is written, disjoint from every other.
use crate::{Decimal, Explanation, Formula, LentBalls, LentDoubles, LentInstructions, LentMatryoshki, Reading, Refusal, Refused};

#[repr(C)]
struct Reply {
    refusal: u32,
    outputs: u32,
    place: u64,
}

#[repr(C)]
struct Checked {
    refusal: u32,
    scale: u32,
    inputs: u16,
    outputs: u16,
    instructions: u32,
}

#[repr(C)]
struct Packed {
    refusal: u32,
    bytes: u32,
    place: u64,
}

#[repr(C)]
struct Explained {
    refusal: u32,
    answer: u8,
    parts: u8,
    met: u16,
    place: u64,
}

/// The answer that has parts; that of the others is told by whether something was met.
const ADMITTED_TO: u8 = 2;

// Each list's pointer beside its length.
#[rustfmt::skip]
extern "C" {
    fn margins_check(formula: *const u8, formula_length: usize) -> Checked;
    fn margins_plain(
        formula: *const u8, formula_length: usize,
        readings: *const i64, readings_length: usize,
        work: *mut i64, work_length: usize,
        output: *mut i64, output_length: usize,
    ) -> Reply;
    fn margins_ball(
        formula: *const u8, formula_length: usize,
        centres: *const i64, centres_length: usize,
        margins: *const i64, margins_length: usize,
        work_centres: *mut i64, work_centres_length: usize,
        work_margins: *mut u64, work_margins_length: usize,
        output_centres: *mut i64, output_centres_length: usize,
        output_margins: *mut u64, output_margins_length: usize,
    ) -> Reply;
    fn margins_ball_records(
        formula: *const u8, formula_length: usize,
        readings: *const Reading, readings_length: usize,
        work_centres: *mut i64, work_centres_length: usize,
        work_margins: *mut u64, work_margins_length: usize,
        output_centres: *mut i64, output_centres_length: usize,
        output_margins: *mut u64, output_margins_length: usize,
    ) -> Reply;
    fn margins_ball_doubles(
        formula: *const u8, formula_length: usize,
        centres: *const i64, centres_length: usize,
        margins: *const i64, margins_length: usize,
        work_centres: *mut i64, work_centres_length: usize,
        work_margins: *mut u64, work_margins_length: usize,
        output_centres: *mut f64, output_centres_length: usize,
        output_margins: *mut f64, output_margins_length: usize,
    ) -> Reply;
    fn margins_admit(
        formula: *const u8, formula_length: usize,
        middles: *const i64, middles_length: usize,
        strays: *const i64, strays_length: usize,
        margins: *const i64, margins_length: usize,
        work_middles: *mut i64, work_middles_length: usize,
        work_strays: *mut u64, work_strays_length: usize,
        work_margins: *mut u64, work_margins_length: usize,
        output_middles: *mut i64, output_middles_length: usize,
        output_strays: *mut u64, output_strays_length: usize,
        output_margins: *mut u64, output_margins_length: usize,
    ) -> Reply;
    fn margins_explain(
        formula: *const u8, formula_length: usize,
        middles: *const i64, middles_length: usize,
        strays: *const i64, strays_length: usize,
        margins: *const i64, margins_length: usize,
    ) -> Explained;
    fn margins_pack(
        scale: i64, inputs: i64,
        codes: *const i64, codes_length: usize,
        firsts: *const i64, firsts_length: usize,
        seconds: *const i64, seconds_length: usize,
        outputs: *const i64, outputs_length: usize,
        formula: *mut u8, formula_length: usize,
    ) -> Packed;
    fn margins_pack_text(
        scale: i64, inputs: i64,
        text: *const u8, text_length: usize,
        formula: *mut u8, formula_length: usize,
    ) -> Packed;
    fn margins_unpack(
        formula: *const u8, formula_length: usize,
        codes: *mut i64, codes_length: usize,
        firsts: *mut i64, firsts_length: usize,
        seconds: *mut i64, seconds_length: usize,
        outputs: *mut i64, outputs_length: usize,
    ) -> Checked;
    fn margins_to_decimal(
        scale: i64, decimals: i64, centre: i64, margin: u64,
        decimal_centres: *mut i64, decimal_centres_length: usize,
        decimal_margins: *mut u64, decimal_margins_length: usize,
        text: *mut u8, text_length: usize,
    ) -> Packed;
    fn margins_from_decimal(
        scale: i64,
        number: *const u8, number_length: usize,
        margin: *const u8, margin_length: usize,
        centres: *mut i64, centres_length: usize,
        margins: *mut i64, margins_length: usize,
    ) -> Reply;
}

/// A newer library may give a number that has no name here. It is kept, without its place: nothing here knows what that counts.
fn refused(number: u32, place: u64) -> Option<Refused> {
    let refusal = Refusal::numbered(number)?;
    let place = refusal.place_name().and_then(|_| usize::try_from(place).ok());
    Some(Refused { refusal, place })
}

fn told(reply: Reply) -> Result<usize, Refused> {
    match refused(reply.refusal, reply.place) {
        None => Ok(reply.outputs as usize),
        Some(refused) => Err(refused),
    }
}

fn checked(reply: Checked) -> Result<Formula, Refused> {
    match refused(reply.refusal, 0) {
        None => Ok(Formula {
            scale: reply.scale,
            inputs: reply.inputs.into(),
            instructions: reply.instructions as usize,
            outputs: reply.outputs.into(),
        }),
        Some(refused) => Err(refused),
    }
}

fn packed(reply: Packed) -> Result<usize, Refused> {
    match refused(reply.refusal, reply.place) {
        None => Ok(reply.bytes as usize),
        Some(refused) => Err(refused),
    }
}

fn explained(reply: Explained) -> Result<Explanation, Refused> {
    if let Some(refused) = refused(reply.refusal, reply.place) {
        return Err(refused);
    }
    Ok(match refused(reply.met.into(), reply.place) {
        None => Explanation::NothingToExplain,
        Some(met) if reply.answer == ADMITTED_TO => Explanation::AdmittedTo { parts: reply.parts, met },
        Some(met) => Explanation::NeverAdmitted { met },
    })
}

pub fn check(formula: &[u8]) -> Result<Formula, Refused> {
    // SAFETY: a slice is the memory that the list needs, here and below.
    checked(unsafe { margins_check(formula.as_ptr(), formula.len()) })
}

pub fn plain(formula: &[u8], readings: &[i64], work: &mut [i64], output: &mut [i64]) -> Result<usize, Refused> {
    told(unsafe {
        margins_plain(
            formula.as_ptr(),
            formula.len(),
            readings.as_ptr(),
            readings.len(),
            work.as_mut_ptr(),
            work.len(),
            output.as_mut_ptr(),
            output.len(),
        )
    })
}

pub fn ball(formula: &[u8], centres: &[i64], margins: &[i64], work: LentBalls<'_>, output: LentBalls<'_>) -> Result<usize, Refused> {
    told(unsafe {
        margins_ball(
            formula.as_ptr(),
            formula.len(),
            centres.as_ptr(),
            centres.len(),
            margins.as_ptr(),
            margins.len(),
            work.centres.as_mut_ptr(),
            work.centres.len(),
            work.margins.as_mut_ptr(),
            work.margins.len(),
            output.centres.as_mut_ptr(),
            output.centres.len(),
            output.margins.as_mut_ptr(),
            output.margins.len(),
        )
    })
}

pub fn ball_records(formula: &[u8], readings: &[Reading], work: LentBalls<'_>, output: LentBalls<'_>) -> Result<usize, Refused> {
    told(unsafe {
        margins_ball_records(
            formula.as_ptr(),
            formula.len(),
            readings.as_ptr(),
            readings.len(),
            work.centres.as_mut_ptr(),
            work.centres.len(),
            work.margins.as_mut_ptr(),
            work.margins.len(),
            output.centres.as_mut_ptr(),
            output.centres.len(),
            output.margins.as_mut_ptr(),
            output.margins.len(),
        )
    })
}

pub fn ball_doubles(
    formula: &[u8], centres: &[i64], margins: &[i64], work: LentBalls<'_>, output: LentDoubles<'_>,
) -> Result<usize, Refused> {
    told(unsafe {
        margins_ball_doubles(
            formula.as_ptr(),
            formula.len(),
            centres.as_ptr(),
            centres.len(),
            margins.as_ptr(),
            margins.len(),
            work.centres.as_mut_ptr(),
            work.centres.len(),
            work.margins.as_mut_ptr(),
            work.margins.len(),
            output.centres.as_mut_ptr(),
            output.centres.len(),
            output.margins.as_mut_ptr(),
            output.margins.len(),
        )
    })
}

pub fn admit(
    formula: &[u8], middles: &[i64], strays: &[i64], margins: &[i64], work: LentMatryoshki<'_>, output: LentMatryoshki<'_>,
) -> Result<usize, Refused> {
    told(unsafe {
        margins_admit(
            formula.as_ptr(),
            formula.len(),
            middles.as_ptr(),
            middles.len(),
            strays.as_ptr(),
            strays.len(),
            margins.as_ptr(),
            margins.len(),
            work.middles.as_mut_ptr(),
            work.middles.len(),
            work.strays.as_mut_ptr(),
            work.strays.len(),
            work.margins.as_mut_ptr(),
            work.margins.len(),
            output.middles.as_mut_ptr(),
            output.middles.len(),
            output.strays.as_mut_ptr(),
            output.strays.len(),
            output.margins.as_mut_ptr(),
            output.margins.len(),
        )
    })
}

pub fn explain(formula: &[u8], middles: &[i64], strays: &[i64], margins: &[i64]) -> Result<Explanation, Refused> {
    explained(unsafe {
        margins_explain(
            formula.as_ptr(),
            formula.len(),
            middles.as_ptr(),
            middles.len(),
            strays.as_ptr(),
            strays.len(),
            margins.as_ptr(),
            margins.len(),
        )
    })
}

pub fn pack(
    scale: i64, inputs: i64, codes: &[i64], firsts: &[i64], seconds: &[i64], outputs: &[i64], formula: &mut [u8],
) -> Result<usize, Refused> {
    packed(unsafe {
        margins_pack(
            scale,
            inputs,
            codes.as_ptr(),
            codes.len(),
            firsts.as_ptr(),
            firsts.len(),
            seconds.as_ptr(),
            seconds.len(),
            outputs.as_ptr(),
            outputs.len(),
            formula.as_mut_ptr(),
            formula.len(),
        )
    })
}

pub fn pack_text(scale: i64, inputs: i64, text: &[u8], formula: &mut [u8]) -> Result<usize, Refused> {
    packed(unsafe { margins_pack_text(scale, inputs, text.as_ptr(), text.len(), formula.as_mut_ptr(), formula.len()) })
}

pub fn unpack(formula: &[u8], instructions: LentInstructions<'_>, outputs: &mut [i64]) -> Result<Formula, Refused> {
    checked(unsafe {
        margins_unpack(
            formula.as_ptr(),
            formula.len(),
            instructions.codes.as_mut_ptr(),
            instructions.codes.len(),
            instructions.firsts.as_mut_ptr(),
            instructions.firsts.len(),
            instructions.seconds.as_mut_ptr(),
            instructions.seconds.len(),
            outputs.as_mut_ptr(),
            outputs.len(),
        )
    })
}

pub fn to_decimal(scale: i64, decimals: i64, centre: i64, margin: u64, text: &mut [u8]) -> Result<Decimal, Refused> {
    let mut counts = Decimal::default();
    // A number by itself is a list of one place, here and below.
    counts.bytes = packed(unsafe {
        margins_to_decimal(scale, decimals, centre, margin, &mut counts.centre, 1, &mut counts.margin, 1, text.as_mut_ptr(), text.len())
    })?;
    Ok(counts)
}

pub fn from_decimal(scale: i64, number: &[u8], margin: &[u8]) -> Result<Reading, Refused> {
    let mut reading = Reading::default();
    told(unsafe {
        margins_from_decimal(
            scale,
            number.as_ptr(),
            number.len(),
            margin.as_ptr(),
            margin.len(),
            &mut reading.centre,
            1,
            &mut reading.margin,
            1,
        )
    })?;
    Ok(reading)
}

#[cfg(test)]
mod tests {
    use super::*;

    fn checked_with(refusal: u32) -> Result<Formula, Refused> {
        checked(Checked { refusal, scale: 0, inputs: 0, outputs: 0, instructions: 0 })
    }

    #[test]
    fn only_a_refusal_with_a_named_place_keeps_it() {
        for number in 1..=30 {
            let refused = told(Reply { refusal: number, outputs: 0, place: 3 }).unwrap_err();
            let kept = [11, 14, 15, 17, 18, 19, 24, 25].contains(&number).then_some(3);
            assert_eq!((refused.refusal.number(), refused.place), (number, kept));
            assert_eq!(packed(Packed { refusal: number, bytes: 0, place: 3 }), Err(refused));
        }
        assert_eq!(told(Reply { refusal: 0, outputs: 5, place: 0 }), Ok(5));
    }

    #[test]
    fn a_later_number_is_a_refusal_and_no_panic() {
        for number in [9, 12, 20, 23, 28, 255, 1 << 16, u32::MAX] {
            let expected = Refused { refusal: Refusal::Other(number), place: None };
            assert_eq!(told(Reply { refusal: number, outputs: 0, place: u64::MAX }), Err(expected));
            assert_eq!(checked_with(number), Err(expected));
            assert_eq!(packed(Packed { refusal: number, bytes: 0, place: u64::MAX }), Err(expected));
        }
    }

    #[test]
    fn an_explanation_lies_as_the_header_says() {
        use core::mem::{offset_of, size_of};
        let places = [
            offset_of!(Explained, refusal),
            offset_of!(Explained, answer),
            offset_of!(Explained, parts),
            offset_of!(Explained, met),
            offset_of!(Explained, place),
        ];
        assert_eq!((places, size_of::<Explained>()), ([0, 4, 5, 6, 8], 16));
        let sizes = [size_of::<Reply>(), size_of::<Checked>(), size_of::<Packed>(), size_of::<Reading>()];
        assert_eq!(sizes, [16; 4]);
    }

    #[test]
    fn each_answer_is_told_and_each_refusal_before_it() {
        let reply = |refusal, answer, parts, met| explained(Explained { refusal, answer, parts, met, place: 3 });
        assert_eq!(reply(0, 1, 0, 0), Ok(Explanation::NothingToExplain));
        for number in [11, 17] {
            let met = refused(number, 3).unwrap();
            assert_eq!(reply(0, 2, 255, number as u16), Ok(Explanation::AdmittedTo { parts: 255, met }));
            assert_eq!(reply(0, 3, 0, number as u16), Ok(Explanation::NeverAdmitted { met }));
        }
        for number in (1..=8).chain([13, 14, 15, 16, 20, u32::MAX]) {
            assert_eq!(reply(number, 0, 0, 0), Err(refused(number, 3).unwrap()));
        }
    }

    #[test]
    fn a_refusal_is_the_same_wherever_it_is_given() {
        for number in (1..=10).chain([16, 26, 27]) {
            let refused = told(Reply { refusal: number, outputs: 0, place: 0 }).unwrap_err();
            assert_eq!(checked_with(number), Err(refused));
            assert_eq!(packed(Packed { refusal: number, bytes: 0, place: 0 }), Err(refused));
        }
        assert_eq!(packed(Packed { refusal: 0, bytes: 6, place: 0 }), Ok(6));
    }
}
