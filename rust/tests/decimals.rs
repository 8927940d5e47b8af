//! Decimal numbers out and in: each kind of ball and of text, each refusal in its order with its place, and what stays as it was.
use margins::*;

const LIMIT: i64 = i32::MAX as i64;

/// The decimal centre, the decimal margin and the text of a ball; behind the text everything is as it was.
fn printed(scale: i64, decimals: i64, centre: i64, margin: u64) -> (i64, u64, String) {
    let mut text = [7; MOST_DECIMAL_BYTES + 3];
    let counts = to_decimal(scale, decimals, centre, margin, &mut text).unwrap();
    let (written, behind) = text.split_at(counts.bytes);
    assert!(behind.iter().all(|&byte| byte == 7), "{behind:?}");
    (counts.centre, counts.margin, String::from_utf8(written.into()).unwrap())
}

fn not_printed(scale: i64, decimals: i64, centre: i64, margin: u64) -> Refused {
    let mut text = [7; MOST_DECIMAL_BYTES];
    let refused = to_decimal(scale, decimals, centre, margin, &mut text).unwrap_err();
    assert_eq!(text, [7; MOST_DECIMAL_BYTES]);
    refused
}

fn read(scale: i64, number: &str, margin: &str) -> Result<(i64, i64), Refused> {
    from_decimal(scale, number.as_bytes(), margin.as_bytes()).map(|reading| (reading.centre, reading.margin))
}

fn at(refusal: Refusal, place: usize) -> Result<(i64, i64), Refused> {
    Err(Refused { refusal, place: Some(place) })
}

#[test]
fn a_ball_is_printed_with_what_its_rounding_lost() {
    for ((scale, decimals, centre, margin), (counts, text)) in [
        ((4, 4, 9, 9), ((5625, 5625), "0.5625 +- 0.5625")),
        ((4, 1, 9, 9), ((6, 6), "0.6 +- 0.6")),
        ((20, 4, 3, 1), ((0, 1), "0.0000 +- 0.0001")),
        ((20, 4, 3, 0), ((0, 1), "0.0000 +- 0.0001")),
        ((20, 4, 0, 0), ((0, 0), "0.0000 +- 0.0000")),
        // Together one count, rounded up one by one two.
        ((4, 0, 7, 9), ((0, 1), "0 +- 1")),
        ((4, 0, 16, 17), ((1, 2), "1 +- 2")),
        ((0, 9, 0, 0), ((0, 0), "0.000000000 +- 0.000000000")),
        ((0, 0, LIMIT, 0), ((LIMIT, 0), "2147483647 +- 0")),
    ] {
        assert_eq!(printed(scale, decimals, centre, margin), (counts.0, counts.1, text.into()));
    }
}

#[test]
fn ties_go_up_and_a_minus_stands_before_counts_below_0() {
    for (centre, text) in [(8, "1 +- 1"), (-8, "0 +- 1"), (24, "2 +- 1"), (-24, "-1 +- 1"), (7, "0 +- 1"), (-9, "-1 +- 1")] {
        assert_eq!(printed(4, 0, centre, 0).2, text);
    }
    assert_eq!(printed(1, 1, -1, 0).2, "-0.5 +- 0.0");
    assert_eq!(printed(5, 2, -1, 0).2, "-0.03 +- 0.01");
    assert_eq!(printed(5, 1, -1, 0).2, "0.0 +- 0.1");
}

#[test]
fn the_longest_text_has_45_bytes() {
    let (centre, margin) = (-1073741824, 1073741823);
    let (_, _, text) = printed(0, 9, centre, margin);
    assert_eq!((text.len(), text.as_str()), (MOST_DECIMAL_BYTES, "-1073741824.000000000 +- 1073741823.000000000"));
}

#[test]
fn scale_decimals_reach_and_room_are_refused_in_this_order() {
    for scale in [-1, 31, i64::MIN, i64::MAX, 1 << 32] {
        assert_eq!(not_printed(scale, 10, LIMIT, 1), Refusal::Scale.into());
    }
    for decimals in [-1, 10, i64::MIN, i64::MAX, 256] {
        assert_eq!(not_printed(0, decimals, LIMIT, 1), Refusal::DecimalPlaces.into());
    }
    for (centre, margin) in [(LIMIT, 1), (-LIMIT, 1), (0, LIMIT as u64 + 1), (i64::MIN, 0), (i64::MIN, 1 << 63), (-1, u64::MAX)] {
        assert_eq!(not_printed(30, 9, centre, margin), Refusal::BallReach.into());
        assert_eq!(to_decimal(30, 9, centre, margin, &mut []), Err(Refusal::BallReach.into()));
    }
    let mut text = [7; 17];
    for room in 0..16 {
        assert_eq!(to_decimal(4, 4, 9, 9, &mut text[..room]), Err(Refusal::NoRoom.into()));
    }
    assert_eq!(text, [7; 17]);
    assert_eq!(to_decimal(4, 4, 9, 9, &mut text[..16]), Ok(Decimal { centre: 5625, margin: 5625, bytes: 16 }));
    assert_eq!(&text, b"0.5625 +- 0.5625\x07");
}

#[test]
fn a_number_is_read_with_what_its_rounding_lost() {
    for ((scale, number, margin), reading) in [
        ((20, "0.1", "0.02"), (104858, 20973)),
        ((4, "0.5625", "0.5625"), (9, 9)),
        ((4, "0.6", "0.6"), (10, 11)),
        ((4, "-0.6", "0.6"), (-10, 11)),
        ((4, "0.25", "0"), (4, 0)),
        ((0, "0.5", "0"), (1, 1)),
        ((0, "-0.5", "0"), (0, 1)),
        ((0, "-1.5", "0"), (-1, 1)),
        ((0, "7", "0.00000001"), (7, 1)),
        ((0, "-0", "0"), (0, 0)),
        ((1, "-007.50", "000"), (-15, 0)),
        ((0, "999999999", "999999999"), (999999999, 999999999)),
        ((1, "999999999", "73741824.5"), (1999999998, 147483649)),
    ] {
        assert_eq!(read(scale, number, margin), Ok(reading), "{number} give or take {margin}");
    }
}

#[test]
fn a_wrong_byte_is_told() {
    for (place, texts) in [
        (0, vec!["", ".5", "+1", " 1", "x", "\0"]),
        (1, vec!["-", "--1", "-.5", "1 ", "1-", "1,5"]),
        (2, vec!["5.", "5..", "-1x"]),
        (9, vec!["1234567890", "123456789.", "12345678."]),
        (10, vec!["-1234567890", "12345678.90", "-12345678."]),
    ] {
        for text in texts {
            assert_eq!(read(4, text, "-"), at(Refusal::NumberText, place), "{text}");
            if !text.starts_with('-') {
                assert_eq!(read(4, "1", text), at(Refusal::MarginText, place), "{text}");
            }
        }
    }
    for text in ["-", "-1", "-0", "--"] {
        assert_eq!(read(4, "1", text), at(Refusal::MarginText, 0), "{text}");
    }
    assert_eq!(from_decimal(4, &[b'1', 0xff], b"0").unwrap_err().place, Some(1));
}

#[test]
fn scale_number_margin_and_reach_are_refused_in_this_order() {
    for scale in [-1, 31, i64::MIN, i64::MAX, 1 << 32] {
        assert_eq!(read(scale, "", ""), Err(Refusal::Scale.into()));
    }
    assert_eq!(read(30, "2x", "-"), at(Refusal::NumberText, 1));
    assert_eq!(read(30, "2", "2-"), at(Refusal::MarginText, 1));
    for (number, margin) in [("2", "0"), ("-2", "0"), ("0", "2"), ("1", "1"), ("1.99999999", "0.00000001")] {
        assert_eq!(read(30, number, margin), Err(Refusal::BallReach.into()), "{number} give or take {margin}");
    }
    assert_eq!(read(1, "999999999", "73741825"), Err(Refusal::BallReach.into()));
}

#[test]
fn what_was_printed_is_read_and_holds_the_ball() {
    for (scale, decimals, centre, margin) in [(4, 4, 9, 9), (4, 1, 9, 9), (20, 4, 3, 1), (16, 3, -9810, 200), (30, 8, -LIMIT, 0)] {
        let (_, _, text) = printed(scale, decimals, centre, margin);
        let (number, doubt) = text.split_once(" +- ").unwrap();
        let (low, high) = (centre - margin as i64, centre + margin as i64);
        match read(scale, number, doubt) {
            Ok((centre, margin)) => assert!(centre - margin <= low && high <= centre + margin, "{text}"),
            // -2 give or take so little reaches past what units can hold.
            refused => assert_eq!((refused, text.as_str()), (Err(Refusal::BallReach.into()), "-2.00000000 +- 0.00000001")),
        }
    }
}

#[test]
fn readings_come_in_and_the_figure_goes_out_in_hours() {
    // Scale 20: value 2 is value 0 times value 1.
    let mut formula = [0; MOST_BYTES];
    let bytes = pack_text(20, 2, b"a*b", &mut formula).unwrap();
    let readings = [from_decimal(20, b"0.1", b"0.02").unwrap(), from_decimal(20, b"1.5", b"0").unwrap()];
    let (mut work, mut output, mut text) = (Balls::default(), Balls::default(), [0; MOST_DECIMAL_BYTES]);
    ball_records(&formula[..bytes], &readings, work.lent(), output.lent()).unwrap();
    let printed = to_decimal(20, 4, output.centres[0], output.margins[0], &mut text).unwrap();
    assert_eq!(&text[..printed.bytes], b"0.1500 +- 0.0301");
}
