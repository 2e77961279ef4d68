//! Each refusal number with its place, in the table's order.

use crate::helpers::*;
use decoder::generate::Piece;
use decoder::*;

#[test]
fn refusal_1_length() {
    let bytes = composed(&plain_values());
    for length in [0, 35, 181, 65_537, usize::MAX] {
        assert_eq!(check(&bytes, length, PLAIN), Err(refusal(1, 0)));
        assert_eq!(read(&bytes, length, PLAIN, &sheet()), Err(refusal(1, 0)));
    }
    assert_eq!(check(&vec![0; 70_000], 65_537, PLAIN), Err(refusal(1, 0)));
}

#[test]
fn refusal_2_header() {
    let wrong = [
        (4, 35),
        (4, 40),
        (8, 0),
        (8, 4),
        (32, 1 << 31),
        (32, u32::MAX),
    ];
    for (place, value) in wrong {
        let mut bytes = composed(&plain_values());
        put(&mut bytes, place, value);
        assert_eq!(check_all(&bytes), Err(refusal(2, 0)), "{place} {value}");
    }
}

#[test]
fn refusal_3_structure() {
    let first = Piece::integer(1, 1);
    // Unknown types.
    for kind in (0..30).chain([u32::MAX]) {
        let known = [3, 4, 5, 6, 9, 13, 14, 15, 20, 23, 25].contains(&kind);
        let odd = Piece::new(kind, 1, &[0, 0, 0], &[], &[]);
        let even = check_all(&message(&[first.clone(), odd]));
        if !known {
            assert_eq!(even, Err(refusal(3, 52)), "{kind}");
        }
    }
    // A length that doesn't fit the type.
    let long = Piece::new(3, 1, &[0, 0], &[], &[]);
    assert_eq!(
        check_all(&message(&[first.clone(), long])),
        Err(refusal(3, 52))
    );
    // A count that doesn't fit the length.
    let list = Piece::new(5, 1, &[2, 0], &[], &[]);
    assert_eq!(
        check_all(&message(&[first.clone(), list])),
        Err(refusal(3, 52))
    );
    // Past the end.
    let bytes = message(&[first.clone(), first]);
    assert_eq!(check(&bytes, 64, PLAIN), Err(refusal(3, 52)));
}

#[test]
fn refusal_4_depth() {
    let beside = Piece::integer(1, 1);
    let bytes = message(&[beside, nested(10, &[])]);
    assert_eq!(check_all(&bytes), Err(refusal(4, 52 + 8 * 16)));
}

#[test]
fn refusal_5_left_over() {
    let mut bytes = composed(&plain_values());
    bytes.push(0);
    assert_eq!(check_all(&bytes), Err(refusal(5, 180)));
    assert_eq!(listing_of_input(&bytes, PLAIN), "refused 5 180\n");
    assert_eq!(tally(&bytes, 181, PLAIN).refusal, Some(refusal(5, 180)));
    assert_eq!(tally(&bytes, 181, PLAIN).counts, [0; KINDS]);
}

#[test]
fn refusal_6_trace_header() {
    for (place, value) in [(0, 9), (8, 2), (12, 74), (16, 2), (20, 0), (24, 1), (28, 1)] {
        let mut bytes = composed(&plain_values());
        put(&mut bytes, place, value);
        assert_eq!(check_all(&bytes), Ok(9));
        assert_eq!(read_all(&bytes), Err(refusal(6, 0)), "{place}");
    }
    assert_eq!(read_all(&trace(&[])), Err(refusal(6, 0)));
}

#[test]
fn refusal_7_trace_route_group() {
    let group = trace_route();
    assert_eq!(
        read_all(&trace(std::slice::from_ref(&group))),
        Ok(plain_values())
    );
    assert_eq!(
        read_all(&trace(&[group.clone(), group])),
        Err(refusal(7, 0))
    );
    assert_eq!(
        read_all(&trace(&[Piece::integer(1, 1)])),
        Err(refusal(7, 0))
    );
}

#[test]
fn refusal_8_attributes() {
    let good = attributes(&plain_values());
    for index in 0..8 {
        let mut absent = good.clone();
        absent.remove(index);
        let mut repeated = good.clone();
        repeated.push(good[index].clone());
        let mut mistyped = good.clone();
        mistyped[index] = Piece::new(23, 1201 + index as u32, &[0, 0, 0], &[], &[]);
        for members in [absent, repeated, mistyped] {
            let bytes = trace(&[Piece::group(8003, &members)]);
            assert_eq!(read_all(&bytes), Err(refusal(8, 0)), "{index}");
        }
    }
}

#[test]
fn refusal_8_ranges() {
    let wrong = [
        (0, &[0, 1, 3, 7, 9, 31, 33, 42, u32::MAX][..]),
        (1, &[1 << 31, u32::MAX][..]),
        (2, &[1 << 31, u32::MAX][..]),
        (3, &[1 << 31, u32::MAX][..]),
        (4, &[1 << 31, u32::MAX][..]),
        (5, &[0, 3, 0x10002, 0x10006, 0x20003][..]),
        (6, &[0, 0x300, 0x1000, 0x10000, 0x10300][..]),
        (7, &[0, 0x3000, 0x100, 0x10000, 0x13000][..]),
    ];
    for (attribute, values) in wrong {
        for &value in values {
            let mut all = plain_values().to_array();
            all[attribute] = value;
            let all = Values::from_array(all);
            let bytes = trace(&[Piece::group(8003, &attributes(&all))]);
            assert_eq!(read_all(&bytes), Err(refusal(8, 0)), "{attribute} {value}");
            let mut buffer = [7; 200];
            assert_eq!(
                compose_plain(&sheet(), &all, &mut buffer),
                Err(refusal(8, 0))
            );
            assert_eq!(buffer, [7; 200]);
        }
    }
}

#[test]
fn refusals_9_to_13_of_events() {
    let group = empty_group();
    let accumulating = Values {
        accumulate: ACCUMULATE_WITH_REPLY,
        ..plain_values()
    };
    let full = Values {
        max_activities: 3,
        discontinuities: 3,
        ..accumulating
    };
    let worn = Values {
        recorded: i32::MAX as u32,
        ..accumulating
    };
    let cases = [
        (accumulating, &group[..12], 0, event_refusal(9)),
        (full, &group[..], 0, limit_refusal(true)),
        (worn, &group[..], 0, event_refusal(11)),
        (accumulating, &group[..], 0, event_refusal(12)),
        (accumulating, &group[..], 16, event_refusal(13)),
    ];
    for (values, group, room, expected) in cases {
        let mut bytes = composed(&values);
        bytes.extend(vec![9; room]);
        let (before, mut report) = (bytes.clone(), vec![5; 51]);
        let answer = activity(&mut bytes, 180, &sheet(), &busy(group), &mut report);
        assert_eq!(answer, Err(expected));
        assert_eq!(bytes, before);
        assert_eq!(report, vec![5; 51]);
    }
}

#[test]
fn refusals_14_to_16_of_decisions() {
    let with = |deliver, forward| {
        composed(&Values {
            deliver,
            forward,
            ..plain_values()
        })
    };
    let go = |bytes: &[u8], supporting| forwarding(bytes, 180, PLAIN, &sheet(), supporting);
    assert_eq!(go(&with(0x12000, 0x100), false), Err(refusal(14, 0)));
    assert_eq!(go(&with(0x2000, 0x8000_0100), false), Err(refusal(15, 0)));
    assert_eq!(go(&with(0x2000, 0x200), false), Err(refusal(16, 0)));
    let bytes = with(0x8000_2000, 0x100);
    assert_eq!(arrival(&bytes, 180, PLAIN, &sheet()), Err(refusal(14, 0)));
    assert_eq!(
        arrival(&with(0x1000, 0x100), 180, PLAIN, &sheet()),
        Ok(Arrival::Put)
    );
    assert_eq!(
        arrival(&with(0x2000, 0x100), 180, PLAIN, &sheet()),
        Ok(Arrival::Withhold)
    );
}

#[test]
fn refusal_17_sheet() {
    assert!(sheet().is_sound());
    assert!(Sheet::new([1, 2, 3, 4, 5, 6, 7, i32::MAX as u32]).is_sound());
    let good = sheet().identifiers;
    for index in 0..8 {
        for number in [0, 1 << 31, u32::MAX, good[(index + 1) % 8]] {
            let mut numbers = good;
            numbers[index] = number;
            let bad = Sheet::new(numbers);
            assert!(!bad.is_sound(), "{index} {number}");
            assert_eq!(read(&[], 0, PLAIN, &bad), Err(refusal(17, 0)));
            let mut small = [3; 4];
            let values = Values::from_array([0; 8]);
            assert_eq!(
                compose_plain(&bad, &values, &mut small),
                Err(refusal(17, 0))
            );
            assert_eq!(
                discontinuity(&mut small, 9, &bad, &QUIET),
                Err(event_refusal(17))
            );
            assert_eq!(
                forwarding(&small, 9, PLAIN, &bad, true),
                Err(refusal(17, 0))
            );
            assert_eq!(arrival(&small, 9, PLAIN, &bad), Err(refusal(17, 0)));
        }
    }
}

#[test]
fn compose_needs_180_bytes() {
    let mut short = [7; 179];
    let refused = compose_plain(&sheet(), &plain_values(), &mut short);
    assert_eq!(refused, Err(refusal(12, 0)));
    assert_eq!(short, [7; 179]);
    let mut long = [7; 190];
    assert_eq!(compose_plain(&sheet(), &plain_values(), &mut long), Ok(180));
    assert_eq!(long[180..], [7; 10]);
}
