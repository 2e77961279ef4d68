//! Points of the readings about sheets, traces, decisions and parts
//! (sections E, H, I). Each test has its reading's name.

use crate::helpers::*;
use decoder::generate::Piece;
use decoder::*;

#[test]
fn e2_sheet_numbers_may_equal_other_parameters() {
    let sheet = Sheet::new([8003, 8005, 3, 20, 1, 2, 4, 5]);
    let mut buffer = vec![0; 180];
    assert_eq!(compose_plain(&sheet, &plain_values(), &mut buffer), Ok(180));
    let contents = plain_contents(&plain_values(), 180);
    assert_eq!(read(&buffer, 180, PLAIN, &sheet), Ok(contents));
    assert_eq!(activity_group(&buffer, 180, PLAIN, &sheet, 0), None);
}

#[test]
fn e3_only_top_level_groups_are_trace_route_groups() {
    let beside = [
        Piece::integer(8003, 1),
        Piece::string(8003, b"8003"),
        Piece::group(8005, &[trace_route()]),
        trace_route(),
        Piece::group(1, &[trace_route(), Piece::group(8005, &[])]),
    ];
    let bytes = trace(&beside);
    let found = locate(&bytes, bytes.len(), PLAIN, &sheet()).unwrap();
    assert_eq!(found.contents.values, plain_values());
    let start = beside[..3]
        .iter()
        .map(|piece| piece.bytes.len())
        .sum::<usize>()
        + 36;
    let places: Vec<usize> = (0..8).map(|index| start + 16 + 16 * index).collect();
    assert_eq!(found.places.to_vec(), places);
    let without = [&beside[..3], &beside[4..]].concat();
    assert_eq!(read_all(&trace(&without)), Err(refusal(7, 0)));
}

#[test]
fn e4_direct_members_only() {
    let more = [
        Piece::string(9, b"further"),
        Piece::group(9, &[Piece::integer(1201, 77), Piece::string(1202, b"x")]),
        Piece::group(8003, &attributes(&plain_values())),
    ];
    let mut members = attributes(&plain_values());
    members.reverse();
    members.extend(more);
    let bytes = trace(&[Piece::group(8003, &members)]);
    assert_eq!(read_all(&bytes), Ok(plain_values()));
    let found = locate(&bytes, bytes.len(), PLAIN, &sheet()).unwrap();
    assert_eq!((found.places[7], found.places[0]), (52, 164));
}

#[test]
fn e4_any_second_member_with_an_identifier_is_a_fault() {
    for twin in [
        Piece::string(1203, b"x"),
        Piece::group(1203, &[]),
        Piece::new(13, 1203, &[0, 0], &[], &[]),
        Piece::integer(1203, 0),
    ] {
        for place in [0, 8] {
            let mut members = attributes(&plain_values());
            members.insert(place, twin.clone());
            let bytes = trace(&[Piece::group(8003, &members)]);
            assert_eq!(read_all(&bytes), Err(refusal(8, 0)));
        }
    }
    let mut members = attributes(&plain_values());
    members.remove(2);
    members.push(Piece::group(9, &[Piece::integer(1203, 0)]));
    let bytes = trace(&[Piece::group(8003, &members)]);
    assert_eq!(read_all(&bytes), Err(refusal(8, 0)));
}

#[test]
fn e6_options_with_other_bits() {
    for forward in [0x100, 0x200, 0x10200, 0xFFFF_0100, 0xFFFF_FDFF] {
        for deliver in [0x1000, 0x2000, 0x8000_2000, 0x0000_DFFF] {
            let values = Values {
                forward,
                deliver,
                ..plain_values()
            };
            assert!(values.in_range(), "{forward:x} {deliver:x}");
            assert_eq!(read_all(&composed(&values)), Ok(values));
        }
    }
}

#[test]
fn e7_no_relation_between_values() {
    let values = Values {
        recorded: 9,
        max_activities: 1,
        ..plain_values()
    };
    assert_eq!(read_all(&composed(&values)), Ok(values));
}

#[test]
fn e8_6_after_faults_and_before_7() {
    let mut bytes = composed(&plain_values());
    put(&mut bytes, 0, 7);
    put(&mut bytes, 168, 20);
    assert_eq!(read_all(&bytes), Err(refusal(3, 164)));
    put(&mut bytes, 168, 16);
    bytes.push(0);
    assert_eq!(read_all(&bytes), Err(refusal(5, 180)));
    bytes.pop();
    put(&mut bytes, 44, 8004);
    assert_eq!(read_all(&bytes), Err(refusal(6, 0)));
    put(&mut bytes, 0, 10);
    assert_eq!(read_all(&bytes), Err(refusal(7, 0)));
    put(&mut bytes, 44, 8003);
    put(&mut bytes, 64, 5);
    assert_eq!(read_all(&bytes), Err(refusal(8, 0)));
}

#[test]
fn e8_count_0_of_a_trace_is_6() {
    assert_eq!(read_all(&trace(&[])), Err(refusal(6, 0)));
}

fn decide(deliver: u32, forward: u32, supporting: bool) -> Result<(), u8> {
    let values = Values {
        deliver,
        forward,
        ..plain_values()
    };
    forwarding(&composed(&values), 180, PLAIN, &sheet(), supporting)
        .map_err(|refusal| refusal.number)
}

#[test]
fn h1_supporting_looks_at_forward_only() {
    for deliver in [0x1000, 0x2000, 0x11000, 0x8000_2000] {
        assert_eq!(decide(deliver, 0x200, true), Ok(()));
        assert_eq!(decide(deliver, 0x100, true), Ok(()));
        assert_eq!(decide(deliver, 0x10200, true), Err(15));
        assert_eq!(decide(deliver, 0x8000_0100, true), Err(15));
    }
}

#[test]
fn h2_h3_not_supporting() {
    for forward in [0x100, 0x200, 0x10100, 0x8000_0200] {
        assert_eq!(decide(0x1000, forward, false), Ok(()));
        assert_eq!(decide(0x11000, forward, false), Err(14));
        assert_eq!(decide(0x8000_2000, forward, false), Err(14));
    }
    assert_eq!(decide(0x2000, 0x10100, false), Err(15));
    assert_eq!(decide(0x2000, 0x10200, false), Err(15));
    assert_eq!(decide(0x2000, 0x200, false), Err(16));
    assert_eq!(decide(0x2000, 0x100, false), Ok(()));
    // Bits below the mask are no options.
    assert_eq!(decide(0x2000, 0xFDFF, false), Ok(()));
    assert_eq!(decide(0xDFFF, 0x200, false), Ok(()));
}

#[test]
fn h5_arrival_looks_at_deliver_only() {
    let values = Values {
        forward: 0x10200,
        deliver: 0x1000,
        ..plain_values()
    };
    assert_eq!(
        arrival(&composed(&values), 180, PLAIN, &sheet()),
        Ok(Arrival::Put)
    );
}

/// A trace with two Activity groups, one before the TraceRoute group.
fn named_trace() -> (Vec<u8>, [usize; 3]) {
    let first = Piece::group(
        8005,
        &[
            Piece::group(1, &[Piece::string(3001, b"nested")]),
            Piece::integer(3001, 5),
            Piece::new(9, 3001, &[4], b"byte", &[]),
            Piece::new(4, 3001, &[0, 6], b"QM1   ", b"padd"[..2].into()),
            Piece::string(3001, b"second"),
            Piece::string(3002, b"      "),
            Piece::string(3003, b""),
            Piece::string(3004, b" a b\0 "),
        ],
    );
    let second = Piece::group(8005, &[Piece::group(8005, &[Piece::integer(1, 1)])]);
    let start = 36 + 16 + first.bytes.len() + trace_route().bytes.len();
    let places = [52, start, start + second.bytes.len()];
    let between = Piece::integer(8005, 3);
    (
        trace(&[between.clone(), first, trace_route(), second, between]),
        places,
    )
}

#[test]
fn i6_nth_activity_group_is_whole() {
    let (bytes, [first, second, end]) = named_trace();
    let length = bytes.len();
    let group = |n| activity_group(&bytes, length, PLAIN, &sheet(), n);
    let trace_route = 16 * 9;
    assert_eq!(
        group(0),
        Some(Part {
            place: first,
            length: second - trace_route - first
        })
    );
    assert_eq!(
        group(1),
        Some(Part {
            place: second,
            length: end - second
        })
    );
    assert_eq!(group(2), None);
    assert_eq!(group(usize::MAX), None);
    assert_eq!(activity_group(&bytes, length - 1, PLAIN, &sheet(), 0), None);
    assert_eq!(
        activity_group(&bytes, length, PLAIN, &Sheet::new([1; 8]), 0),
        None
    );
    assert!(lent_group_is_sound(group(0).unwrap().of(&bytes)));
}

#[test]
fn i6_group_at_the_messages_end() {
    let bytes = trace(&[trace_route(), Piece::group(8005, &[Piece::integer(1, 1)])]);
    let expected = Part {
        place: 180,
        length: 32,
    };
    assert_eq!(
        activity_group(&bytes, 212, PLAIN, &sheet(), 0),
        Some(expected)
    );
}

#[test]
fn i7_i8_i9_named_strings() {
    let (bytes, [first, ..]) = named_trace();
    let name = |n, id| named_string(&bytes, bytes.len(), PLAIN, &sheet(), n, id);
    let text = |n, id| name(n, id).of(&bytes, b"none \0 ").to_vec();
    assert_eq!(text(0, 3001), b"QM1");
    let place = first + 16 + 16 + 28 + 16 + 20 + 20;
    assert_eq!(name(0, 3001), Named::InMessage(Part { place, length: 3 }));
    assert!(matches!(
        name(0, 3002),
        Named::InMessage(Part { length: 0, .. })
    ));
    assert!(matches!(
        name(0, 3003),
        Named::InMessage(Part { length: 0, .. })
    ));
    assert_eq!(text(0, 3004), b" a b");
    for (n, id) in [(0, 3005), (1, 1), (2, 3001), (usize::MAX, 3001)] {
        assert_eq!(name(n, id), Named::Substitute);
        assert_eq!(text(n, id), b"none \0 ");
    }
    let refused = named_string(&bytes, bytes.len() - 1, PLAIN, &sheet(), 0, 3001);
    assert_eq!(refused, Named::Substitute);
    let refused = named_string(&bytes, bytes.len(), PLAIN, &Sheet::new([0; 8]), 0, 3001);
    assert_eq!(refused, Named::Substitute);
}
