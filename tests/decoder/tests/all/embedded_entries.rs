//! Read, listing, single steps, groups and names in the embedded form, with
//! whole answers.

use crate::embedded_compose::{composed_bytes, values};
use crate::helpers::*;
use decoder::generate::Piece;
use decoder::*;

#[test]
fn read_gives_the_senders_fields_and_the_user_datas_place() {
    let other = Embedding {
        encoding: u32::MAX,
        coded_char_set_id: 0x8000_0000,
        format: [0, 1, 2, 3, 0xFC, 0xFD, 0xFE, 0xFF],
        flags: 0x0102_0304,
    };
    for embedding in [SENDER, other, Embedding::NONE] {
        for user_data in [&b""[..], b"x", b"12345"] {
            let mut buffer = [0; 220];
            let length = compose(
                EMBEDDED,
                &sheet(),
                &values(),
                &embedding,
                user_data,
                &mut buffer,
            );
            assert_eq!(length, Ok(212 + user_data.len()));
            let contents = Contents {
                values: values(),
                embedding,
                user_data_place: 212,
            };
            let answer = read(&buffer, length.unwrap(), EMBEDDED, &sheet());
            assert_eq!(answer, Ok(contents));
        }
    }
}

#[test]
fn read_of_a_plain_message_gives_zeros_and_its_length() {
    let contents = Contents {
        values: values(),
        embedding: Embedding {
            encoding: 0,
            coded_char_set_id: 0,
            format: [0; 8],
            flags: 0,
        },
        user_data_place: 180,
    };
    let bytes = composed(&values());
    assert_eq!(read(&bytes, 180, PLAIN, &sheet()), Ok(contents));
}

#[test]
fn whole_listing() {
    let expected = "pcf 10 75 1 217\n\
        1 68 20 8003 16\n\
        2 84 3 1201 16\n\
        2 100 3 1202 16\n\
        2 116 3 1203 16\n\
        2 132 3 1204 16\n\
        2 148 3 1205 16\n\
        2 164 3 1206 16\n\
        2 180 3 1207 16\n\
        2 196 3 1208 16\n\
        end 9\n";
    let bytes = composed_bytes(b"HELLO");
    assert_eq!(listing_of_input(&bytes, EMBEDDED), expected);
    assert_eq!(list(&bytes, 217, EMBEDDED), Ok(expected.into()));
    // The bytes behind the message are no part of its length.
    let longer = [&bytes[..], &[0; 50]].concat();
    assert_eq!(listing(&longer, 217, EMBEDDED), expected);
    let none = expected.replacen("217", "212", 1);
    assert_eq!(listing(&bytes, 212, EMBEDDED), none);
    assert_eq!(listing_of_input(&bytes, PLAIN), "refused 2 0\n");
}

#[test]
fn tally_leaves_the_user_data_out() {
    let bytes = composed_bytes(&Piece::integer(1, 1).bytes);
    let mut counts = [0; KINDS];
    counts[3] = 8;
    counts[20] = 1;
    let expected = Tally {
        counts,
        refusal: None,
    };
    assert_eq!(tally(&bytes, 228, EMBEDDED), expected);
}

#[test]
fn steps_end_where_the_part_ends() {
    // User data that would be a sound structure.
    let bytes = composed_bytes(&Piece::integer(7, 1).bytes);
    let last = Row {
        depth: 2,
        place: 196,
        kind: 3,
        parameter: 1208,
        struc_length: 16,
        count: None,
    };
    assert_eq!(step(&bytes, 228, EMBEDDED, 196, 2), Ok((last, 212)));
    for place in [
        212,
        213,
        216,
        227,
        228,
        229,
        70_000,
        usize::MAX - 15,
        usize::MAX,
    ] {
        let answer = step(&bytes, 228, EMBEDDED, place, 1);
        assert_eq!(answer, Err(refusal(3, place)));
    }
    // Four bytes before the end there is no structure, though the next bytes go on.
    assert_eq!(step(&bytes, 228, EMBEDDED, 208, 1), Err(refusal(3, 208)));
    // A string that reaches over the end.
    let mut bytes = embedded(&message(&[Piece::string(1, b"four")]), b"user");
    put(&mut bytes, 72, 28);
    assert_eq!(step(&bytes, 96, EMBEDDED, 68, 1), Err(refusal(3, 68)));
    put(&mut bytes, 8, 96);
    assert_eq!(step(&bytes, 96, EMBEDDED, 68, 1).unwrap().1, 96);
}

#[test]
fn steps_inside_both_headers() {
    // Encoding 3 and CodedCharSetId 16 begin an integer, a PCF header of Type 4
    // is a string of one byte.
    let mut bytes = composed_bytes(b"");
    put(&mut bytes, 12, 3);
    put(&mut bytes, 16, 16);
    put(&mut bytes, 32, 4);
    let row = |place, kind, parameter, struc_length| Row {
        depth: 1,
        place,
        kind,
        parameter,
        struc_length,
        count: None,
    };
    let first = row(12, 3, 0x4D51_5354, 16);
    assert_eq!(step(&bytes, 212, EMBEDDED, 12, 1), Ok((first, 28)));
    let second = row(32, 4, 3, 36);
    assert_eq!(step(&bytes, 212, EMBEDDED, 32, 1), Ok((second, 68)));
    for place in [0, 4, 8, 16, 20, 28, 33, 36, 64] {
        let answer = step(&bytes, 212, EMBEDDED, place, 1);
        assert_eq!(answer, Err(refusal(3, place)));
    }
}

/// A trace whose last structure is an Activity group with a name; the user data
/// are another such group.
fn named() -> Vec<u8> {
    let members = [Piece::integer(1, 1), Piece::string(3001, b"QM1 \0 ")];
    let first = Piece::group(8005, &members);
    let part = trace(&[Piece::group(8005, &[]), trace_route(), first]);
    embedded(
        &part,
        &Piece::group(8005, &[Piece::string(3002, b"USER")]).bytes,
    )
}

#[test]
fn groups_and_names_stand_in_the_message() {
    let bytes = named();
    let length = bytes.len();
    let group = |n| activity_group(&bytes, length, EMBEDDED, &sheet(), n);
    let part = |place, length| Part { place, length };
    assert_eq!(group(0), Some(part(68, 16)));
    // Behind the first group's 16 bytes and the TraceRoute group's 144.
    assert_eq!(group(1), Some(part(228, 16 + 16 + 28)));
    assert_eq!(group(2), None);
    assert_eq!(group(usize::MAX), None);
    let name = |n, id| named_string(&bytes, length, EMBEDDED, &sheet(), n, id);
    assert_eq!(name(1, 3001), Named::InMessage(part(228 + 32 + 20, 3)));
    assert_eq!(name(1, 3001).of(&bytes, b"none"), b"QM1");
    for (n, id) in [(0, 3001), (1, 3002), (2, 3002), (1, 1)] {
        assert_eq!(name(n, id), Named::Substitute);
    }
    let refused = [
        named_string(&bytes, length, PLAIN, &sheet(), 1, 3001),
        named_string(&bytes, 67, EMBEDDED, &sheet(), 1, 3001),
        named_string(&bytes, usize::MAX, EMBEDDED, &sheet(), 1, 3001),
        named_string(&bytes, length, EMBEDDED, &Sheet::new([2; 8]), 1, 3001),
    ];
    assert_eq!(refused, [Named::Substitute; 4]);
    assert_eq!(activity_group(&bytes, length, PLAIN, &sheet(), 1), None);
}

#[test]
fn decisions_in_the_embedded_form() {
    let decide = |deliver, forward, supporting| {
        let values = Values {
            deliver,
            forward,
            ..plain_values()
        };
        let bytes = embedded(&composed(&values), b"user data");
        let arrived = arrival(&bytes, 221, EMBEDDED, &sheet()).map_err(|x| x.number);
        let sent = forwarding(&bytes, 221, EMBEDDED, &sheet(), supporting);
        (sent.map_err(|x| x.number), arrived)
    };
    let (put, withhold) = (Ok(Arrival::Put), Ok(Arrival::Withhold));
    assert_eq!(decide(0x2000, 0x200, false), (Err(16), withhold));
    assert_eq!(decide(0x2000, 0x100, false), (Ok(()), withhold));
    assert_eq!(decide(0x11000, 0x100, false), (Err(14), Err(14)));
    assert_eq!(decide(0x11000, 0x100, true), (Ok(()), Err(14)));
    assert_eq!(decide(0x1000, 0x10200, false), (Ok(()), put));
    assert_eq!(decide(0x1000, 0x10200, true), (Err(15), put));
}
