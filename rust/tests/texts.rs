//! Texts to bytes: each kind of text, each refusal in its order with its place, and what stays as it was.
use margins::code::*;
use margins::*;

/// The instructions of a text, a code and two fields each, and the value that is its output.
fn instructions(scale: i64, inputs: i64, text: &str) -> Result<(Vec<[i64; 3]>, i64), Refused> {
    let mut bytes = [0; MOST_BYTES];
    let count = pack_text(scale, inputs, text.as_bytes(), &mut bytes)?;
    let (mut lists, mut outputs) = (Instructions::default(), [0; MOST_OUTPUTS]);
    let header = unpack(&bytes[..count], lists.lent(), &mut outputs)?;
    assert_eq!((header.scale as i64, header.inputs as i64, header.outputs), (scale, inputs, 1));
    let rows = (0..header.instructions).map(|k| [lists.codes[k], lists.firsts[k], lists.seconds[k]]);
    Ok((rows.collect(), outputs[0]))
}

fn refused(scale: i64, inputs: i64, text: &str) -> Refused {
    let mut bytes = [7; MOST_BYTES];
    let refused = pack_text(scale, inputs, text.as_bytes(), &mut bytes).unwrap_err();
    assert_eq!(bytes, [7; MOST_BYTES]);
    refused
}

fn misplaced(place: usize) -> Refused {
    Refused { refusal: Refusal::Misplaced, place: Some(place) }
}

fn too_deep(place: usize) -> Refused {
    Refused { refusal: Refusal::TooDeep, place: Some(place) }
}

#[test]
fn a_text_is_packed_as_its_lists_are() {
    let (mut from_text, mut from_lists) = ([7; 21], [7; 21]);
    let packed = pack(4, 3, &[CONSTANT, SUBTRACT, MULTIPLY, ADD], &[4, 1, 0, 5], &[0, 3, 4, 2], &[6], &mut from_lists);
    assert_eq!(pack_text(4, 3, b"a*(b-0.25)+c", &mut from_text), packed);
    assert_eq!((packed, from_text), (Ok(19), from_lists));
    assert_eq!(from_text[19..], [7, 7]);
}

#[test]
fn a_text_is_grouped_from_the_left() {
    for (text, rows) in [
        ("a-b-c", vec![[SUBTRACT, 0, 1], [SUBTRACT, 3, 2]]),
        ("a-(b-c)", vec![[SUBTRACT, 1, 2], [SUBTRACT, 0, 3]]),
        ("a+b*c", vec![[MULTIPLY, 1, 2], [ADD, 0, 3]]),
        ("a*b*c", vec![[MULTIPLY, 0, 1], [MULTIPLY, 3, 2]]),
        ("-a*b", vec![[NEGATE, 0, 0], [MULTIPLY, 3, 1]]),
        ("a--b", vec![[NEGATE, 1, 0], [SUBTRACT, 0, 3]]),
        ("-(a*b)", vec![[MULTIPLY, 0, 1], [NEGATE, 3, 0]]),
        ("1-2", vec![[CONSTANT, 16, 0], [CONSTANT, 32, 0], [SUBTRACT, 3, 4]]),
    ] {
        let last = 2 + rows.len() as i64;
        assert_eq!(instructions(4, 3, text), Ok((rows, last)), "{text}");
    }
    assert_eq!(instructions(4, 3, "((c))"), Ok((vec![], 2)));
}

#[test]
fn a_number_that_was_rounded_has_a_margin() {
    for (scale, text, row) in [
        (4, "0.25", [CONSTANT, 4, 0]),
        (4, "0.1", [COEFFICIENT, 2, 1]),
        (4, "0.03125", [COEFFICIENT, 1, 1]),
        (0, "2.5", [COEFFICIENT, 3, 1]),
        (0, "0.49999999", [COEFFICIENT, 0, 1]),
        (0, "007.0", [CONSTANT, 7, 0]),
        (30, "1.99999999", [COEFFICIENT, 2147483637, 1]),
        (2, "536870911", [CONSTANT, 2147483644, 0]),
    ] {
        assert_eq!(instructions(scale, 0, text), Ok((vec![row], 0)), "{text}");
    }
}

#[test]
fn a_misplaced_byte_is_told() {
    for (place, texts) in [
        (0, vec!["", " a", ".5", "+a", "c", "A"]),
        (1, vec!["a ", "ab", "a)", "()", "2a", "a/b"]),
        (2, vec!["a+", "(a", "1.", "a*c", "1..2"]),
        (9, vec!["1234567890", "123456789.", "12345678."]),
    ] {
        for text in texts {
            assert_eq!(refused(4, 2, text), misplaced(place), "{text}");
        }
    }
    assert_eq!(pack_text(4, 2, &[b'a', 0], &mut []), Err(misplaced(1)));
    assert_eq!(pack_text(4, 2, &[b'a', b'*', 0xff], &mut []), Err(misplaced(2)));
}

#[test]
fn the_33rd_that_is_open_is_told() {
    let nested = |opened: &str| format!("{opened}a{}", ")".repeat(opened.matches('(').count()));
    let (parentheses, minuses, both) = ("(".repeat(32), "-".repeat(32), "-(".repeat(16));
    for opened in [&parentheses, &minuses, &both] {
        let once = nested(opened);
        assert!(instructions(4, 1, &format!("{once}*{once}-{once}")).is_ok(), "{opened}");
        for one_more in ["(", "-"] {
            assert_eq!(refused(4, 1, &nested(&format!("{opened}{one_more}"))), too_deep(32));
            assert_eq!(refused(4, 1, &format!("a+{opened}{one_more}")), too_deep(34));
        }
        assert_eq!(refused(4, 1, opened), misplaced(32));
        assert_eq!(refused(4, 1, &format!("{}*(", &opened[1..])), misplaced(31));
    }
}

#[test]
fn the_other_refusals_have_their_order_and_no_place() {
    let many = |count: usize| format!("a{}", "+a".repeat(count));
    assert_eq!(refused(31, 17, ""), Refusal::Scale.into());
    assert_eq!(refused(-1, 1, "a"), Refusal::Scale.into());
    assert_eq!(refused(i64::MIN, 1, "a"), Refusal::Scale.into());
    assert_eq!(refused(4, 17, ""), Refusal::Count.into());
    assert_eq!(refused(4, i64::MIN, "a"), Refusal::Count.into());
    assert_eq!(instructions(30, 1, &many(512)).map(|(rows, output)| (rows.len(), output)), Ok((512, 512)));
    assert_eq!(refused(30, 1, &many(513)), Refusal::Count.into());
    assert_eq!(refused(30, 1, &(many(513) + "+")), misplaced(1028));
    assert_eq!(refused(30, 1, "2"), Refusal::Constant.into());
    assert_eq!(refused(30, 1, &("2*".to_string() + &many(513))), Refusal::Constant.into());
    assert_eq!(refused(30, 1, &(many(512) + "+2")), Refusal::Count.into());
    assert_eq!(refused(30, 1, "2)"), misplaced(1));
    assert_eq!(pack_text(30, 1, b"2", &mut []), Err(Refusal::Constant.into()));

    let mut bytes = [7; 8];
    assert_eq!(pack_text(4, 1, b"-a", &mut bytes[..6]), Err(Refusal::NoRoom.into()));
    assert_eq!(bytes, [7; 8]);
    assert_eq!(pack_text(4, 1, b"-a", &mut bytes[..7]), Ok(7));
    assert_eq!(bytes[7], 7);
}

#[test]
fn the_rounded_weight_stays_in_the_margin() {
    // Ten times 0.1 at scale 4: 1.6 units were rounded to 2, and the exact product is 16 units.
    let mut bytes = [0; MOST_BYTES];
    let count = pack_text(4, 1, b"0.1*a", &mut bytes).unwrap();
    let (mut work, mut output) = (Balls::default(), Balls::default());
    assert_eq!(ball(&bytes[..count], &[160], &[0], work.lent(), output.lent()), Ok(1));
    assert_eq!((output.centres[0], output.margins[0]), (20, 10));
}
