//! Named strings: what is removed at their end, and what is not; and the
//! substitute, of which nothing is removed.

use crate::helpers::*;
use decoder::generate::{Piece, Random};
use decoder::*;

const NAME: u32 = 3001;
/// Where the string stands in the trace below: behind the header, a TraceRoute
/// group of 144 bytes, the Activity group's 16 bytes and an integer.
const STRING_PLACE: usize = 36 + 144 + 16 + 16;

/// Data as they stand in the string, and the name in them.
const CASES: [(&[u8], &[u8]); 50] = [
    // Nothing but blanks and zero bytes, or nothing at all.
    (b"", b""),
    (b" ", b""),
    (b"\0", b""),
    (b"     ", b""),
    (b"\0\0\0\0\0", b""),
    (b" \0", b""),
    (b"\0 ", b""),
    (b"  \0\0", b""),
    (b"\0\0  ", b""),
    (b" \0 \0 \0 \0", b""),
    (b"\0 \0 \0 \0 ", b""),
    // Nothing to remove.
    (b"A", b"A"),
    (b"QM1", b"QM1"),
    // Blanks, zero bytes, both.
    (b"A ", b"A"),
    (b"A\0", b"A"),
    (b"QM1     ", b"QM1"),
    (b"QM1\0\0\0\0\0", b"QM1"),
    (b"QM1 \0", b"QM1"),
    (b"QM1\0 ", b"QM1"),
    (b"QM1   \0\0\0", b"QM1"),
    (b"QM1\0\0\0   ", b"QM1"),
    (b"QM1 \0 ", b"QM1"),
    (b"QM1\0 \0", b"QM1"),
    (b"QM1 \0 \0 \0 \0", b"QM1"),
    (b"QM1\0 \0 \0 \0 ", b"QM1"),
    (b"QM1  \0\0  \0\0  ", b"QM1"),
    // Before another byte, at the start too, they stay.
    (b"A\0B", b"A\0B"),
    (b"A B", b"A B"),
    (b"\0A", b"\0A"),
    (b" A", b" A"),
    (b" \0\0 A", b" \0\0 A"),
    (b"A \0B", b"A \0B"),
    (b"A\0 B", b"A\0 B"),
    (b"A\0 B \0", b"A\0 B"),
    (b"A \0B\0 ", b"A \0B"),
    (b" \0A \0 B\0 \0 ", b" \0A \0 B"),
    // Bytes that are nearly one of them, also before and behind a run.
    (b"QM1\x01", b"QM1\x01"),
    (b"QM1\x1F", b"QM1\x1F"),
    (b"QM1\x21", b"QM1\x21"),
    (b"QM1\x40", b"QM1\x40"),
    (b"QM1\x80", b"QM1\x80"),
    (b"QM1\xA0", b"QM1\xA0"),
    (b"QM1\xFF", b"QM1\xFF"),
    (b"\x40", b"\x40"),
    (b"QM1\x01 \0", b"QM1\x01"),
    (b"QM1\x1F\0 ", b"QM1\x1F"),
    (b"QM1\xA0\0\0", b"QM1\xA0"),
    (b"QM1 \0\x21", b"QM1 \0\x21"),
    (b"QM1\0 \x40", b"QM1\0 \x40"),
    (b"  \0\xFF", b"  \0\xFF"),
];

/// A trace with these data in its first string of the name; the second one
/// must never be taken instead.
fn trace_with(data: &[u8], padding: u8, words: usize) -> Vec<u8> {
    let padding = vec![padding; data.len().wrapping_neg() % 4 + 4 * words];
    let string = Piece::new(4, NAME, &[0, data.len() as u32], data, &padding);
    let members = [Piece::integer(1, 1), string, Piece::string(NAME, b"2ND")];
    trace(&[trace_route(), Piece::group(8005, &members)])
}

fn first_name(bytes: &[u8]) -> Named {
    named_string(bytes, bytes.len(), PLAIN, &sheet(), 0, NAME)
}

#[test]
fn names_end_before_blanks_and_zero_bytes() {
    for (data, name) in CASES {
        for (padding, words) in [(0x00, 0), (0x20, 0), (b'x', 0), (0x20, 2), (b'x', 1)] {
            let bytes = trace_with(data, padding, words);
            let answer = first_name(&bytes);
            let expected = Part {
                place: STRING_PLACE + 20,
                length: name.len(),
            };
            assert_eq!(answer, Named::InMessage(expected), "{data:?} {padding}");
            assert_eq!(answer.of(&bytes, b"none \0"), name, "{data:?} {padding}");
        }
    }
}

#[test]
fn substitutes_are_whole() {
    let bytes = trace_with(b"QM1 \0", 0x20, 1);
    let mut other = bytes.clone();
    put(&mut other, 12, 76);
    let (length, sheet, unsound) = (bytes.len(), sheet(), Sheet::new([7; 8]));
    let ask = |bytes: &[u8], length, sheet: &Sheet, n, id| {
        named_string(bytes, length, PLAIN, sheet, n, id)
    };
    let answers = [
        ("no string", ask(&bytes, length, &sheet, 0, 3002)),
        ("an integer", ask(&bytes, length, &sheet, 0, 1)),
        ("no group", ask(&bytes, length, &sheet, 1, NAME)),
        ("length", ask(&bytes, length - 1, &sheet, 0, NAME)),
        ("header", ask(&other, length, &sheet, 0, NAME)),
        ("sheet", ask(&bytes, length, &unsound, 0, NAME)),
    ];
    for (case, answer) in answers {
        assert_eq!(answer, Named::Substitute, "{case}");
        for substitute in [&b"none \0"[..], b"none\0 ", b" \0 \0", b"\0", b" ", b""] {
            assert_eq!(answer.of(&bytes, substitute), substitute, "{case}");
        }
    }
}

#[test]
fn any_data_are_trimmed_at_once() {
    let mut random = Random::new(3);
    for _ in 0..20_000 {
        let length = random.below(20);
        let mut data = random.bytes(length);
        for byte in &mut data {
            *byte = random.pick(&[0x20, 0x20, 0x00, 0x00, b'A', *byte]);
        }
        let padding = random.pick(&[0x00, 0x20, b'x']);
        let bytes = trace_with(&data, padding, random.below(3));
        let name = first_name(&bytes).of(&bytes, b"none");
        hold_name(&data, name);
        // A second time there is nothing left to remove.
        let again = trace_with(name, padding, 0);
        assert_eq!(first_name(&again).of(&again, b"none"), name);
    }
}
