//! Fixed cases, each part in both forms.

use crate::structures::compare;
use decoder::generate::{assemble, embed, Piece};
use decoder::{sample, Embedding, Layout, Sheet, Values};
use differential::compare::given::Given;
use differential::compare::structures::compare_step;
use differential::compare::text::Text;
use differential::ffi::{self, Answer};
use differential::spread::Spread;

const FIELDS: [u32; 8] = [7, 36, 3, 99, 1, 1, 0, 0];

/// The listing that is known, and everything else as the decoder says, for the
/// message, all its cuts, and all places in it.
fn thorough(given: Given, listing: &str) {
    let (mut text, mut spread) = (Text::new(), Spread::default());
    let answer = text.list(given, listing.as_bytes());
    assert_eq!(answer, Answer::given(listing.len() as u64));
    for length in 0..=given.length + 1 {
        compare(Given { length, ..given }, &mut text, &mut spread);
    }
    for place in 0..=given.length + 1 {
        for depth in [0, 1, 8, 9, u32::MAX] {
            compare_step(given, place, depth);
        }
    }
}

/// A listing of the part where it is embedded: 32 bytes later, in a message
/// that has these bytes more.
fn moved(listing: &str, user_data: usize) -> String {
    let lines = listing.lines().map(|line| {
        let mut words: Vec<String> = line.split(' ').map(String::from).collect();
        let (at, more) = match &words[0][..] {
            "pcf" => (4, 32 + user_data),
            "end" => (1, 0),
            _ => (1, 32),
        };
        let number: usize = words[at].parse().expect("a number");
        words[at] = (number + more).to_string();
        words.join(" ") + "\n"
    });
    lines.collect()
}

/// A message in both forms, with user data that begin like a structure.
fn both_forms(part: &[u8], listing: &str) {
    thorough(Given::whole(part, Layout::PLAIN), listing);
    let behind = [&Piece::integer(1, 2).bytes[..], b"user data"].concat();
    for user_data in [&[][..], b"!", &behind] {
        let message = embed(&Embedding::NONE, part, user_data);
        let given = Given::whole(&message, Layout::EMBEDDED);
        thorough(given, &moved(listing, user_data.len()));
    }
}

#[test]
fn the_listing_of_a_composed_message() {
    let values = Values::from_array([2, 0, 0, 0, 0, 0x10003, 0x100, 0x2000]);
    let mut message = [0; 180];
    let sheet = Sheet::new(sample::MADE_UP);
    let none = &Embedding::NONE;
    let composed = decoder::compose(Layout::PLAIN, &sheet, &values, none, &[], &mut message);
    assert_eq!(composed, Ok(180));
    both_forms(&message, sample::COMPOSED_LISTING);
}

#[test]
fn document_004s_event() {
    let message = sample::event_004();
    assert_eq!(ffi::check(&message, 300, 0), Answer::given(10));
    both_forms(&message, sample::EVENT_004_LISTING);
}

/// The check's answer, which the decoder has to share.
fn checked_in(message: &[u8], layout: Layout) -> Answer {
    let given = Given::whole(message, layout);
    compare(given, &mut Text::new(), &mut Spread::default());
    ffi::check(message, message.len(), given.options())
}

/// That of a plain message. Embedded, the same part has to give the same, with
/// places 32 bytes later; but no part has other lengths than multiples of 4.
fn checked(part: &[u8]) -> Answer {
    let plain = checked_in(part, Layout::PLAIN);
    for user_data in [&b""[..], b"user data"] {
        let message = embed(&Embedding::NONE, part, user_data);
        let wanted = match plain.number() {
            _ if !part.len().is_multiple_of(4) => Answer::refused(18, 0),
            number @ 3..=5 => Answer::refused(number as u8, plain.value() + 32),
            _ => plain,
        };
        assert_eq!(checked_in(&message, Layout::EMBEDDED), wanted);
    }
    plain
}

#[test]
fn short_messages() {
    for (message, layout) in [
        (&[][..], Layout::PLAIN),
        (&[0; 35], Layout::PLAIN),
        (&[], Layout::EMBEDDED),
        (&[0; 67], Layout::EMBEDDED),
    ] {
        assert_eq!(checked_in(message, layout), Answer::refused(1, 0));
    }
    let least = assemble(FIELDS, &[]);
    assert_eq!(checked(&least), Answer::given(0));
    // What is plain is not embedded, and the other way round.
    let embedded = embed(&Embedding::NONE, &least, b"");
    assert_eq!(checked_in(&embedded, Layout::PLAIN), Answer::refused(2, 0));
    let long = assemble(FIELDS, &[Piece::integer(1, 2), Piece::integer(1, 2)]);
    assert_eq!(checked_in(&long, Layout::EMBEDDED), Answer::refused(18, 0));
}

#[test]
fn an_embedded_header_that_is_not_sound() {
    let message = embed(&Embedding::NONE, &assemble(FIELDS, &[]), b"user");
    let with = |place: usize, number: u32| {
        let mut spoilt = message.clone();
        spoilt[place..place + 4].copy_from_slice(&number.to_be_bytes());
        checked_in(&spoilt, Layout::EMBEDDED)
    };
    for (place, number) in [
        (0, u32::from_be_bytes(*b"EPH\0")),
        (0, u32::from_be_bytes(*b" HPE")),
        (4, 0),
        (4, 2),
        (4, 1 << 24),
        (8, 0),
        (8, 64),
        (8, 66),
        (8, 69),
        (8, 70),
        (8, 71),
        (8, 76),
        (8, (1 << 31) + 68),
        (8, u32::MAX - 3),
    ] {
        assert_eq!(with(place, number), Answer::refused(18, 0));
    }
    // One word more of the part is left over behind its structures.
    assert_eq!(with(8, 72), Answer::refused(5, 68));
    assert_eq!(with(8, 68), Answer::given(0));
    assert_eq!(with(12, u32::MAX), Answer::given(0));
}

#[test]
fn a_one_byte_string() {
    // Data and padding; StrucLength says what the first number does.
    let string = |said: u32, behind: usize| {
        let mut piece = Piece::new(4, 3001, &[0, 1], b"a", &vec![0; behind]);
        piece.bytes[4..8].copy_from_slice(&said.to_be_bytes());
        assemble(FIELDS, &[piece])
    };
    assert_eq!(checked(&string(24, 3)), Answer::given(1));
    assert_eq!(checked(&string(28, 7)), Answer::given(1));
    assert_eq!(checked(&string(20, 0)), Answer::refused(3, 36));
    assert_eq!(checked(&string(25, 4)), Answer::refused(3, 36));
}

#[test]
fn groups_to_depth_8() {
    let nested = |depth: usize| {
        let inner = Piece::group(1, &[Piece::integer(2, 3)]);
        let piece = (1..depth).fold(inner, |inner, _| Piece::group(1, &[inner]));
        assemble(FIELDS, &[piece])
    };
    assert_eq!(checked(&nested(8)), Answer::given(9));
    assert_eq!(checked(&nested(9)), Answer::refused(4, 36 + 8 * 16));
}

#[test]
fn counts_that_would_wrap_in_32_bits() {
    let list = |count, length| assemble(FIELDS, &[Piece::new(6, 1, &[0, count, length], &[], &[])]);
    assert_eq!(checked(&list(0, i32::MAX as u32)), Answer::given(1));
    for (count, length) in [(65_536, 65_536), (0, 1 << 31), (1 << 31, 0), (1 << 30, 4)] {
        assert_eq!(checked(&list(count, length)), Answer::refused(3, 36));
    }
    let integers = Piece::new(5, 1, &[1 << 30], &[], &[]);
    assert_eq!(
        checked(&assemble(FIELDS, &[integers])),
        Answer::refused(3, 36)
    );
    let longs = Piece::new(25, 1, &[1 << 29], &[], &[]);
    assert_eq!(checked(&assemble(FIELDS, &[longs])), Answer::refused(3, 36));
}
