//! Every example of the rules: the listing, and the hops on both sides of
//! the line.

use crate::helpers::*;
use decoder::generate::Piece;
use decoder::*;

#[test]
fn listing_of_a_composed_message() {
    let bytes = composed(&plain_values());
    assert_eq!(listing_of_input(&bytes, PLAIN), sample::COMPOSED_LISTING);
}

#[test]
fn composed_message_byte_for_byte() {
    let values = Values::from_array([8, 1, 2, 3, 4, 0x10005, 0x200, 0x1000]);
    let bytes = composed(&values);
    let mut words = vec![10, 36, 3, 75, 1, 1, 0, 0, 1, 20, 16, 8003, 8];
    for (id, value) in (1201..).zip(values.to_array()) {
        words.extend([3, 16, id, value]);
    }
    let expected: Vec<u8> = words.iter().flat_map(|x: &u32| x.to_be_bytes()).collect();
    assert_eq!(bytes, expected);
    assert_eq!(read_all(&bytes), Ok(values));
}

#[test]
fn p_0_and_35_bytes_give_1() {
    assert_eq!(check_all(&[]), Err(refusal(1, 0)));
    assert_eq!(check_all(&[0; 35]), Err(refusal(1, 0)));
    assert_eq!(listing_of_input(&[], PLAIN), "refused 1 0\n");
    assert_eq!(listing_of_input(&[0; 35], PLAIN), "refused 1 0\n");
}

#[test]
fn p_sound_header_of_type_7_and_count_0() {
    let bytes = message(&[]);
    assert_eq!(bytes.len(), 36);
    assert_eq!(check_all(&bytes), Ok(0));
    assert_eq!(listing_of_input(&bytes, PLAIN), "pcf 7 99 0 36\nend 0\n");
    assert_eq!(read_all(&bytes), Err(refusal(6, 0)));
}

/// A message with a one-byte string of this StrucLength, and bytes to match.
fn one_byte_string(struc_length: u32) -> Vec<u8> {
    let mut bytes = message(&[Piece::string(1, b"X")]);
    bytes.resize(36 + struc_length.max(24) as usize, 0);
    bytes.truncate(36 + struc_length as usize);
    put(&mut bytes, 40, struc_length);
    bytes
}

#[test]
fn p_lengths_of_a_one_byte_string() {
    assert_eq!(check_all(&one_byte_string(24)), Ok(1));
    assert_eq!(check_all(&one_byte_string(28)), Ok(1));
    assert_eq!(check_all(&one_byte_string(20)), Err(refusal(3, 36)));
    assert_eq!(check_all(&one_byte_string(25)), Err(refusal(3, 36)));
}

#[test]
fn string_list_of_8_bytes_may_have_36() {
    let list = Piece::new(6, 3065, &[0, 1, 8], b"metaylor", &[0; 4]);
    assert_eq!(list.bytes.len(), 36);
    assert_eq!(check_all(&message(&[list])), Ok(1));
    let list = Piece::new(6, 3065, &[0, 1, 8], b"metaylor", &[]);
    assert_eq!(check_all(&message(&[list])), Ok(1));
    let list = Piece::new(6, 3065, &[0, 1, 8], b"meta", &[]);
    assert_eq!(check_all(&message(&[list])), Err(refusal(3, 36)));
}

#[test]
fn p_depth_8_good_9_gives_4() {
    assert_eq!(check_all(&message(&[nested(8, &[])])), Ok(8));
    assert_eq!(
        check_all(&message(&[nested(9, &[])])),
        Err(refusal(4, 36 + 8 * 16))
    );
}

fn limited(limit: u32, counters: [u32; 3]) -> Vec<u8> {
    let [recorded, unrecorded, discontinuities] = counters;
    composed(&Values {
        max_activities: limit,
        recorded,
        unrecorded,
        discontinuities,
        ..plain_values()
    })
}

/// What a discontinuity and an activity say to the same trace.
fn both(bytes: &[u8]) -> [Result<(), EventRefusal>; 2] {
    let group = empty_group();
    let (mut one, mut other) = (bytes.to_vec(), bytes.to_vec());
    [
        discontinuity(&mut one, 180, &sheet(), &QUIET).map(|_| ()),
        activity(&mut other, 180, &sheet(), &idle(&group), &mut []).map(|_| ()),
    ]
}

#[test]
fn p_limit_5() {
    assert_eq!(both(&limited(5, [2, 1, 1])), [Ok(()), Ok(())]);
    assert_eq!(both(&limited(5, [2, 2, 1])), [Err(limit_refusal(false)); 2]);
    assert_eq!(both(&limited(0, [2, 2, 1])), [Ok(()), Ok(())]);
}

#[test]
fn p_recorded_full() {
    let mut bytes = limited(0, [i32::MAX as u32, 0, 0]);
    let group = empty_group();
    let mut report = vec![0; 52];
    let recorded = activity(&mut bytes, 180, &sheet(), &busy(&group), &mut report);
    assert_eq!(recorded, Err(event_refusal(11)));
    assert_eq!(bytes, limited(0, [i32::MAX as u32, 0, 0]));
    let unrecorded = activity(&mut bytes, 180, &sheet(), &idle(&group), &mut report);
    assert_eq!(unrecorded, Ok(counted(Counter::Unrecorded, 180)));
    assert_eq!(bytes, limited(0, [i32::MAX as u32, 1, 0]));
}

fn forward(deliver: u32, forward: u32, supporting: bool) -> Result<(), Refusal> {
    let values = Values {
        deliver,
        forward,
        ..plain_values()
    };
    forwarding(&composed(&values), 180, PLAIN, &sheet(), supporting)
}

#[test]
fn p_forwarding() {
    assert_eq!(forward(0x2000, 0x200, false), Err(refusal(16, 0)));
    assert_eq!(forward(0x2000, 0x100, false), Ok(()));
    assert_eq!(forward(0x11000, 0x100, false), Err(refusal(14, 0)));
    assert_eq!(forward(0x11000, 0x100, true), Ok(()));
    assert_eq!(forward(0x1000, 0x10200, false), Ok(()));
    assert_eq!(forward(0x1000, 0x10200, true), Err(refusal(15, 0)));
}
