//! Points of the readings about lengths, headers, structures and single steps
//! (sections A, B, C, D). Each test has its reading's name.

use crate::helpers::*;
use decoder::generate::Piece;
use decoder::*;

#[test]
fn a1_bytes_behind_the_length_never_sway() {
    let mut buffer = composed(&plain_values());
    buffer.extend([0xFF; 100]);
    assert_eq!(check(&buffer, 180, PLAIN), Ok(9));
    let contents = plain_contents(&plain_values(), 180);
    assert_eq!(read(&buffer, 180, PLAIN, &sheet()), Ok(contents));
    let text = list(&buffer, 180, PLAIN).unwrap();
    assert!(text.starts_with("pcf 10 75 1 180\n"));
}

#[test]
fn a3_ends_of_the_length() {
    let filler = Piece::string(1, &vec![b'x'; 65_480]);
    let mut bytes = message(&[filler]);
    assert_eq!(bytes.len(), 65_536);
    assert_eq!(check_all(&bytes), Ok(1));
    bytes.push(0);
    assert_eq!(check_all(&bytes), Err(refusal(1, 0)));
    assert_eq!(check(&bytes, 65_536, PLAIN), Ok(1));
    assert_eq!(check(&message(&[]), 36, PLAIN), Ok(0));
    assert_eq!(check(&message(&[]), 35, PLAIN), Err(refusal(1, 0)));
}

#[test]
fn a4_sums_and_products_in_whole_numbers() {
    let wrapping = [
        Piece::new(6, 1, &[0, 65_536, 65_536], &[], &[]),
        Piece::new(6, 1, &[0, i32::MAX as u32, i32::MAX as u32], &[], &[]),
        Piece::new(5, 1, &[1 << 30], &[], &[]),
        Piece::new(25, 1, &[1 << 29], &[], &[]),
        Piece::new(4, 1, &[0, i32::MAX as u32], &[], &[]),
        Piece::new(4, 1, &[0, 0xFFFF_FFEC], &[], &[]),
    ];
    for piece in wrapping {
        assert_eq!(check_all(&message(&[piece])), Err(refusal(3, 36)));
    }
    let third = i32::MAX as u32;
    let values = Values {
        recorded: third,
        unrecorded: third,
        discontinuities: third,
        max_activities: third,
        ..plain_values()
    };
    let mut bytes = composed(&values);
    let answer = discontinuity(&mut bytes, 180, &sheet(), &QUIET);
    assert_eq!(answer, Err(limit_refusal(false)));
}

#[test]
fn b1_only_three_header_fields_are_judged() {
    for place in [0, 12, 16, 20, 24, 28] {
        for value in [0, 3, 20, u32::MAX] {
            let mut bytes = message(&[nested(2, &[])]);
            put(&mut bytes, place, value);
            put(&mut bytes, 8, 1);
            assert_eq!(check_all(&bytes), Ok(2));
        }
    }
}

#[test]
fn b2_refusal_2_before_structures_and_counts() {
    let mut bytes = message(&[Piece::new(99, 1, &[0], &[], &[])]);
    put(&mut bytes, 8, 0);
    assert_eq!(check_all(&bytes), Err(refusal(2, 0)));
    let mut bytes = message(&[Piece::group(1, &[])]);
    put(&mut bytes, 48, 1 << 31);
    assert_eq!(check_all(&bytes), Err(refusal(3, 36)));
    put(&mut bytes, 48, i32::MAX as u32);
    assert_eq!(check_all(&bytes), Err(refusal(3, 52)));
    put(&mut bytes, 32, 1 << 31);
    assert_eq!(check_all(&bytes), Err(refusal(2, 0)));
    put(&mut bytes, 32, i32::MAX as u32);
    assert_eq!(check_all(&bytes), Err(refusal(3, 52)));
}

#[test]
fn b3_structure_due_at_the_end() {
    let mut bytes = message(&[]);
    put(&mut bytes, 32, 1);
    assert_eq!(listing_of_input(&bytes, PLAIN), "refused 3 36\n");
    let mut bytes = message(&[Piece::integer(1, 1)]);
    put(&mut bytes, 32, 2);
    assert_eq!(check_all(&bytes), Err(refusal(3, 52)));
}

#[test]
fn b4_refusal_3_before_4_at_one_structure() {
    let place = 36 + 8 * 16;
    let good = message(&[nested(9, &[])]);
    assert_eq!(check_all(&good), Err(refusal(4, place)));
    for (offset, value) in [(4, 20), (4, 12), (12, 1 << 31), (12, u32::MAX)] {
        let mut bytes = good.clone();
        put(&mut bytes, place + offset, value);
        assert_eq!(check_all(&bytes), Err(refusal(3, place)));
    }
    assert_eq!(check(&good, place + 15, PLAIN), Err(refusal(3, place)));
    // Members that aren't there don't matter: the group itself is too deep.
    let mut bytes = good.clone();
    put(&mut bytes, place + 12, i32::MAX as u32);
    assert_eq!(check_all(&bytes), Err(refusal(4, place)));
}

#[test]
fn b5_only_groups_are_too_deep() {
    let inside = [Piece::integer(5, 5), Piece::string(6, b"six")];
    let bytes = message(&[nested(8, &inside)]);
    assert_eq!(check_all(&bytes), Ok(10));
    let text = listing_of_input(&bytes, PLAIN);
    assert!(text.contains("\n8 148 20 1 16\n9 164 3 5 16\n9 180 4 6 24\nend 10\n"));
    let bytes = message(&[nested(8, &[Piece::integer(5, 5), Piece::group(1, &[])])]);
    assert_eq!(check_all(&bytes), Err(refusal(4, 180)));
}

#[test]
fn b6_each_factor_of_a_string_list_has_the_bound() {
    let list =
        |count, length| check_all(&message(&[Piece::new(6, 1, &[0, count, length], &[], &[])]));
    assert_eq!(list(0, 1 << 31), Err(refusal(3, 36)));
    assert_eq!(list(1 << 31, 0), Err(refusal(3, 36)));
    assert_eq!(list(u32::MAX, 0), Err(refusal(3, 36)));
    assert_eq!(list(0, i32::MAX as u32), Ok(1));
    assert_eq!(list(i32::MAX as u32, 0), Ok(1));
}

#[test]
fn b8_b9_padding_and_zeros() {
    let shapes = [
        Piece::new(4, 1, &[0, 1], b"X", &[9; 979]),
        Piece::new(4, 1, &[0, 0], &[], &[]),
        Piece::new(5, 1, &[0], &[], &[]),
        Piece::new(6, 1, &[0, 0, 0], &[], &[1; 8]),
        Piece::new(9, 1, &[0], &[], &[1; 4]),
        Piece::new(14, 1, &[0, 0, 0], &[], &[1; 4]),
        Piece::new(15, 1, &[0, 0], &[], &[1; 4]),
        Piece::new(25, 1, &[0], &[], &[]),
        Piece::group(1, &[]),
    ];
    assert_eq!(check_all(&message(&shapes)), Ok(9));
    let exact = [
        Piece::new(3, 1, &[0, 0], &[], &[]),
        Piece::new(5, 1, &[0, 0], &[], &[]),
        Piece::new(13, 1, &[0, 0, 0], &[], &[]),
        Piece::new(20, 1, &[0, 0], &[], &[]),
        Piece::new(23, 1, &[0, 0, 0, 0], &[], &[]),
        Piece::new(25, 1, &[0, 0], &[], &[]),
        Piece::new(25, 1, &[1, 0], &[], &[]),
    ];
    for piece in exact {
        assert_eq!(check_all(&message(&[piece])), Err(refusal(3, 36)));
    }
}

#[test]
fn length_rules_at_their_boundary() {
    // Type, fields before the data's length, fixed part.
    let shapes = [
        (4, &[0][..]),
        (9, &[][..]),
        (14, &[0, 0][..]),
        (15, &[0][..]),
    ];
    for (kind, before) in shapes {
        for (length, area, sound) in [(4, 4, true), (5, 4, false), (1, 4, true), (1, 0, false)] {
            let mut fields = before.to_vec();
            fields.push(length);
            let piece = Piece::new(kind, 1, &fields, &[], &vec![0; area]);
            let expected = if sound { Ok(1) } else { Err(refusal(3, 36)) };
            assert_eq!(check_all(&message(&[piece])), expected, "{kind} {length}");
        }
    }
    for (count, length, sound) in [(2, 6, true), (3, 4, true), (13, 1, false), (1, 13, false)] {
        let piece = Piece::new(6, 1, &[0, count, length], &[], &[0; 12]);
        assert_eq!(check_all(&message(&[piece])).is_ok(), sound);
    }
}

#[test]
fn b11_members_are_not_in_the_headers_count() {
    let group = Piece::group(
        1,
        &[
            Piece::integer(2, 2),
            Piece::group(3, &[Piece::integer(4, 4)]),
        ],
    );
    let mut bytes = message(&[group]);
    assert_eq!(get(&bytes, 32), 1);
    assert_eq!(get(&bytes, 48), 2);
    assert_eq!(check_all(&bytes), Ok(4));
    put(&mut bytes, 32, 4);
    assert_eq!(check_all(&bytes), Err(refusal(3, 100)));
    put(&mut bytes, 32, 1);
    put(&mut bytes, 48, 3);
    assert_eq!(check_all(&bytes), Err(refusal(3, 100)));
    put(&mut bytes, 48, 1);
    assert_eq!(check_all(&bytes), Err(refusal(5, 68)));
}

#[test]
fn b13_left_over_place_and_b14_first_fault() {
    let mut bytes = message(&[Piece::integer(1, 1), Piece::integer(2, 2)]);
    put(&mut bytes, 32, 1);
    assert_eq!(check_all(&bytes), Err(refusal(5, 52)));
    let bad = Piece::new(99, 1, &[0], &[], &[]);
    let bytes = message(&[bad.clone(), nested(9, &[])]);
    assert_eq!(check_all(&bytes), Err(refusal(3, 36)));
    let bytes = message(&[nested(9, &[]), bad]);
    assert_eq!(check_all(&bytes), Err(refusal(4, 164)));
}

#[test]
fn b16_tally_of_nothing_and_of_a_refusal() {
    let empty = tally(&message(&[]), 36, PLAIN);
    assert_eq!((empty.counts, empty.refusal), ([0; KINDS], None));
    let refused = tally(&message(&[]), 37, PLAIN);
    assert_eq!(
        (refused.counts, refused.refusal),
        ([0; KINDS], Some(refusal(1, 0)))
    );
}

#[test]
fn c1_refusal_after_sound_structures_prints_one_line() {
    let bytes = message(&[Piece::integer(1, 1), Piece::new(99, 1, &[0], &[], &[])]);
    assert_eq!(listing_of_input(&bytes, PLAIN), "refused 3 52\n");
    assert_eq!(listing_of_input(&vec![0; 70_000], PLAIN), "refused 1 0\n");
}

#[test]
fn c1_largest_numbers_in_the_listing() {
    let mut bytes = message(&[Piece::integer(u32::MAX, 0)]);
    put(&mut bytes, 0, u32::MAX);
    put(&mut bytes, 12, u32::MAX);
    let expected = "pcf 4294967295 4294967295 1 52\n1 36 3 4294967295 16\nend 1\n";
    assert_eq!(listing_of_input(&bytes, PLAIN), expected);
}

#[test]
fn d1_step_never_gives_2_or_5() {
    let mut bytes = message(&[Piece::integer(7, 1)]);
    bytes.extend([1, 2, 3]);
    put(&mut bytes, 8, 99);
    let row = Row {
        depth: 1,
        place: 36,
        kind: 3,
        parameter: 7,
        struc_length: 16,
        count: None,
    };
    assert_eq!(step(&bytes, 55, PLAIN, 36, 1), Ok((row, 52)));
    assert_eq!(step(&bytes, 35, PLAIN, 36, 1), Err(refusal(1, 0)));
    assert_eq!(step(&bytes, 56, PLAIN, 36, 1), Err(refusal(1, 0)));
    assert_eq!(step(&bytes, 55, PLAIN, 52, 1), Err(refusal(3, 52)));
}

#[test]
fn d2_any_place_is_read_as_a_structure() {
    // A header that reads as a string with one byte of data.
    let mut bytes = message(&[]);
    put(&mut bytes, 0, 4);
    let (row, behind) = step(&bytes, 36, PLAIN, 0, 1).unwrap();
    assert_eq!((row.kind, row.struc_length, behind), (4, 36, 36));
    // A structure at a place that is no multiple of 4.
    let mut bytes = message(&[]);
    bytes.push(0);
    bytes.extend(Piece::integer(7, 1).bytes);
    let (row, behind) = step(&bytes, 53, PLAIN, 37, 1).unwrap();
    assert_eq!((row.place, behind), (37, 53));
}

#[test]
fn d3_places_at_and_behind_the_end() {
    let bytes = composed(&plain_values());
    for place in [180, 181, 70_000, usize::MAX - 11, usize::MAX] {
        assert_eq!(step(&bytes, 180, PLAIN, place, 1), Err(refusal(3, place)));
    }
    // Inside the buffer, yet behind the message.
    assert_eq!(step(&bytes, 164, PLAIN, 164, 1), Err(refusal(3, 164)));
    assert_eq!(step(&bytes, 165, PLAIN, 164, 1), Err(refusal(3, 164)));
}

#[test]
fn d4_any_depth() {
    let bytes = composed(&plain_values());
    for depth in [0, 1, 9, u32::MAX] {
        assert_eq!(step(&bytes, 180, PLAIN, 52, depth).unwrap().0.depth, depth);
    }
    for depth in [0, 1, 8] {
        assert_eq!(step(&bytes, 180, PLAIN, 36, depth).unwrap().0.depth, depth);
    }
    for depth in [9, u32::MAX] {
        assert_eq!(step(&bytes, 180, PLAIN, 36, depth), Err(refusal(4, 36)));
    }
    // 3 before 4.
    assert_eq!(step(&bytes, 51, PLAIN, 36, 9), Err(refusal(3, 36)));
}

#[test]
fn d5_d6_behind_a_group_is_its_first_member() {
    let mut bytes = composed(&plain_values());
    put(&mut bytes, 48, i32::MAX as u32);
    let (row, behind) = step(&bytes, 180, PLAIN, 36, 1).unwrap();
    assert_eq!((row.count, behind), (Some(i32::MAX as u32), 52));
    put(&mut bytes, 48, 1 << 31);
    assert_eq!(step(&bytes, 180, PLAIN, 36, 1), Err(refusal(3, 36)));
}
