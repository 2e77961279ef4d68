//! The embedded header: how many bytes an embedded message has at least, each
//! cause of 18 with its neighbours, the fields that are not judged, and where
//! the refusals of the PCF part stand.

use crate::helpers::*;
use decoder::generate::Piece;
use decoder::*;

/// The shortest embedded message: the embedded header, then a PCF header of
/// Type 7 and count 0.
const LEAST: [u8; 68] = *b"EPH \0\0\0\x01\0\0\0\x44\0\0\x01\x11\0\0\x04\xB8MQSTR   \0\0\0\x01\
    \0\0\0\x07\0\0\0\x24\0\0\0\x03\0\0\0\x63\0\0\0\x01\0\0\0\x01\0\0\0\0\0\0\0\0\0\0\0\0";

/// A composed trace in 212 bytes with 8 bytes of user data.
fn traced() -> Vec<u8> {
    embedded(&composed(&plain_values()), b"USERDATA")
}

#[test]
fn helpers_and_table_agree() {
    assert_eq!(embedded(&message(&[]), &[]), LEAST);
    assert_eq!(traced().len(), 220);
}

#[test]
fn bytes_67_give_1_and_68_are_enough() {
    assert_eq!(check(&LEAST, 68, EMBEDDED), Ok(0));
    assert_eq!(check(&LEAST, 67, EMBEDDED), Err(refusal(1, 0)));
    assert_eq!(check(&LEAST[..67], 67, EMBEDDED), Err(refusal(1, 0)));
    assert_eq!(check(&LEAST, 69, EMBEDDED), Err(refusal(1, 0)));
    let text = listing_of_input(&LEAST, EMBEDDED);
    assert_eq!(text, "pcf 7 99 0 68\nend 0\n");
    assert_eq!(
        read(&LEAST, 68, EMBEDDED, &sheet()),
        Err(refusal(6, 0)),
        "no trace"
    );
    // 1 comes first: nothing of the header is right here.
    assert_eq!(check(&[0; 67], 67, EMBEDDED), Err(refusal(1, 0)));
    assert_eq!(check(&[0; 68], 68, EMBEDDED), Err(refusal(18, 0)));
}

#[test]
fn lengths_that_give_1() {
    let bytes = traced();
    for length in [
        0,
        35,
        36,
        67,
        221,
        65_537,
        1 << 31,
        usize::MAX - 67,
        usize::MAX,
    ] {
        let whole = Err(refusal(1, 0));
        assert_eq!(check(&bytes, length, EMBEDDED), whole, "{length}");
        assert_eq!(step(&bytes, length, EMBEDDED, 68, 1), Err(refusal(1, 0)));
        assert_eq!(tally(&bytes, length, EMBEDDED).refusal, Some(refusal(1, 0)));
        assert_eq!(listing(&bytes, length, EMBEDDED), "refused 1 0\n");
        let read = read(&bytes, length, EMBEDDED, &sheet());
        assert_eq!(read, Err(refusal(1, 0)));
        let group = activity_group(&bytes, length, EMBEDDED, &sheet(), 0);
        assert_eq!(group, None);
    }
    let long = embedded(&composed(&plain_values()), &vec![0; 65_536 - 211]);
    assert_eq!(check(&long, 65_536, EMBEDDED), Ok(9));
    assert_eq!(check(&long, 65_537, EMBEDDED), Err(refusal(1, 0)));
}

#[test]
fn every_byte_of_the_identifier_counts() {
    for place in 0..4 {
        for byte in 0..=255 {
            let mut bytes = traced();
            let right = bytes[place] == byte;
            bytes[place] = byte;
            let expected = if right { Ok(9) } else { Err(refusal(18, 0)) };
            assert_eq!(check_embedded(&bytes), expected, "{place} {byte}");
        }
    }
}

#[test]
fn version_is_1() {
    for version in [0, 2, 3, 1 << 8, 1 << 24, (1 << 31) + 1, u32::MAX] {
        let mut bytes = traced();
        put(&mut bytes, 4, version);
        assert_eq!(check_embedded(&bytes), Err(refusal(18, 0)), "{version}");
    }
}

type Answer = Result<usize, (u8, usize)>;

/// StrucLength in a message of 220 bytes whose PCF part ends at 212, and the
/// answer: a number of structures, or a refusal.
const STRUC_LENGTHS: [(u32, Answer); 22] = [
    (212, Ok(9)),
    // Below 68, and 68 itself: one structure is due there.
    (0, Err((18, 0))),
    (4, Err((18, 0))),
    (32, Err((18, 0))),
    (36, Err((18, 0))),
    (64, Err((18, 0))),
    (67, Err((18, 0))),
    (68, Err((3, 68))),
    // No multiple of 4.
    (210, Err((18, 0))),
    (211, Err((18, 0))),
    (213, Err((18, 0))),
    (214, Err((18, 0))),
    (218, Err((18, 0))),
    // The last structure doesn't fit; bytes are left over, up to the message's end.
    (208, Err((3, 196))),
    (216, Err((5, 212))),
    (220, Err((5, 212))),
    // Above the message.
    (221, Err((18, 0))),
    (224, Err((18, 0))),
    (1 << 31, Err((18, 0))),
    ((1 << 31) + 212, Err((18, 0))),
    (u32::MAX - 3, Err((18, 0))),
    (u32::MAX, Err((18, 0))),
];

#[test]
fn struc_length_and_its_neighbours() {
    for (struc_length, expected) in STRUC_LENGTHS {
        let mut bytes = traced();
        put(&mut bytes, 8, struc_length);
        let expected = expected.map_err(|(number, place)| refusal(number, place));
        assert_eq!(check_embedded(&bytes), expected, "{struc_length}");
        // Bytes behind the message don't make it longer.
        bytes.extend([0; 200]);
        assert_eq!(check(&bytes, 220, EMBEDDED), expected, "{struc_length}");
    }
}

#[test]
fn struc_length_is_held_against_the_length() {
    let bytes = traced();
    for (length, expected) in [
        (220, Ok(9)),
        (213, Ok(9)),
        (212, Ok(9)),
        (211, Err(refusal(18, 0))),
        (208, Err(refusal(18, 0))),
        (68, Err(refusal(18, 0))),
        (67, Err(refusal(1, 0))),
    ] {
        assert_eq!(check(&bytes, length, EMBEDDED), expected, "{length}");
    }
    // The message's length need be no multiple of 4, StrucLength must be one.
    let mut odd = embedded(&composed(&plain_values()), b"abc");
    assert_eq!(check(&odd, 215, EMBEDDED), Ok(9));
    put(&mut odd, 8, 215);
    assert_eq!(check(&odd, 215, EMBEDDED), Err(refusal(18, 0)));
}

#[test]
fn the_senders_fields_are_not_judged() {
    for place in [12, 16, 20, 24, 28] {
        for value in [0, 1, 36, 1 << 31, u32::MAX] {
            let mut bytes = traced();
            put(&mut bytes, place, value);
            assert_eq!(check_embedded(&bytes), Ok(9), "{place} {value}");
            assert_eq!(rows(&bytes, 220, EMBEDDED), rows(&traced(), 220, EMBEDDED));
            let contents = read(&bytes, 220, EMBEDDED, &sheet()).unwrap();
            assert_eq!(contents.values, plain_values());
        }
    }
}

#[test]
fn user_data_are_not_judged() {
    let part = composed(&plain_values());
    let structure = Piece::integer(1205, 7).bytes;
    let group = Piece::group(8005, &[]).bytes;
    for user_data in [
        &[][..],
        &[0],
        &[0xFF; 3],
        &structure,
        &group,
        &part[36..],
        &part,
        &embedded(&part, b"more"),
    ] {
        let bytes = embedded(&part, user_data);
        assert_eq!(check_embedded(&bytes), Ok(9));
        let contents = read(&bytes, bytes.len(), EMBEDDED, &sheet()).unwrap();
        assert_eq!(contents.values, plain_values());
        assert_eq!(contents.user_data_place, 212);
    }
}

#[test]
fn refusals_2_to_5_have_places_in_the_message() {
    let unknown = Piece::new(99, 1, &[0], &[], &[]);
    let mut count = message(&[Piece::integer(1, 1)]);
    put(&mut count, 32, 2);
    let mut over = message(&[Piece::integer(1, 1), Piece::integer(2, 2)]);
    put(&mut over, 32, 1);
    let mut wrong = message(&[]);
    put(&mut wrong, 8, 4);
    let cases = [
        (wrong, refusal(2, 0)),
        (message(&[Piece::integer(1, 1), unknown]), refusal(3, 84)),
        // One structure is due where the user data begin.
        (count, refusal(3, 84)),
        (message(&[nested(9, &[])]), refusal(4, 68 + 8 * 16)),
        (over, refusal(5, 84)),
    ];
    for (part, expected) in cases {
        for user_data in [&[][..], b"u", &Piece::integer(3, 3).bytes] {
            let bytes = embedded(&part, user_data);
            assert_eq!(check_embedded(&bytes), Err(expected));
            let line = format!("refused {} {}\n", expected.number, expected.place);
            assert_eq!(listing_of_input(&bytes, EMBEDDED), line);
            let tally = tally(&bytes, bytes.len(), EMBEDDED);
            assert_eq!((tally.counts, tally.refusal), ([0; KINDS], Some(expected)));
        }
    }
}

#[test]
fn no_structure_reaches_into_the_user_data() {
    // A string of 24 bytes of which the part holds 20, then 16, then 12.
    let part = message(&[Piece::string(1, b"four")]);
    let bytes = embedded(&part, b"user data");
    assert_eq!(check_embedded(&bytes), Ok(1));
    for end in [88, 84, 80] {
        let mut bytes = bytes.clone();
        put(&mut bytes, 8, end);
        assert_eq!(check_embedded(&bytes), Err(refusal(3, 68)), "{end}");
    }
    // A list that takes four bytes of the user data in.
    let mut bytes = embedded(&message(&[Piece::new(5, 1, &[1, 7], &[], &[])]), b"user");
    put(&mut bytes, 72, 24);
    put(&mut bytes, 80, 2);
    assert_eq!(check_embedded(&bytes), Err(refusal(3, 68)));
    put(&mut bytes, 8, 92);
    assert_eq!(check_embedded(&bytes), Ok(1));
}

#[test]
fn a_plain_message_is_no_embedded_one() {
    let mut bytes = composed(&plain_values());
    assert_eq!(check_embedded(&bytes), Err(refusal(18, 0)));
    assert_eq!(check_embedded(&bytes[..67]), Err(refusal(1, 0)));
    assert_eq!(check_embedded(&message(&[])), Err(refusal(1, 0)));
    assert_eq!(read(&bytes, 180, EMBEDDED, &sheet()), Err(refusal(18, 0)));
    // A Type that reads as the identifier is as good as any in a plain message.
    bytes[..4].copy_from_slice(b"EPH ");
    assert_eq!(check_all(&bytes), Ok(9));
    assert_eq!(check_embedded(&bytes), Err(refusal(18, 0)));
}

#[test]
fn an_embedded_message_is_no_plain_one() {
    assert_eq!(check_all(&traced()), Err(refusal(2, 0)));
    assert_eq!(check_all(&LEAST), Err(refusal(2, 0)));
    assert_eq!(read_all(&traced()), Err(refusal(2, 0)));
    // A plain message has 36 bytes at least, so 18 isn't what it gives here.
    assert_eq!(check(&traced(), 36, PLAIN), Err(refusal(2, 0)));
}
