//! Compose in the embedded form: whole messages, and the room that they need.

use crate::helpers::*;
use decoder::*;

/// The composed message of the tests below, as numbers up to the PCF part's end:
/// both headers, the group, and its eight members.
const COMPOSED: [&[u32]; 11] = [
    &[0x4550_4820, 1, 212, 273, 1208, 0x4D51_5354, 0x5220_2020, 1],
    &[10, 36, 3, 75, 1, 1, 0, 0, 1],
    &[20, 16, 8003, 8],
    &[3, 16, 1201, 8],
    &[3, 16, 1202, 1],
    &[3, 16, 1203, 2],
    &[3, 16, 1204, 3],
    &[3, 16, 1205, 4],
    &[3, 16, 1206, 0x10005],
    &[3, 16, 1207, 0x200],
    &[3, 16, 1208, 0x1000],
];

pub fn values() -> Values {
    Values::from_array([8, 1, 2, 3, 4, 0x10005, 0x200, 0x1000])
}

fn compose_embedded(user_data: &[u8], buffer: &mut [u8]) -> Result<usize, Refusal> {
    compose(EMBEDDED, &sheet(), &values(), &SENDER, user_data, buffer)
}

pub fn composed_bytes(user_data: &[u8]) -> Vec<u8> {
    [&bytes_of(&COMPOSED)[..], user_data].concat()
}

#[test]
fn composed_message_byte_for_byte() {
    for user_data in [&b""[..], b"U", b"USE", b"USER ", &[0xA5; 300]] {
        let length = 212 + user_data.len();
        let mut buffer = vec![0x77; length + 9];
        assert_eq!(compose_embedded(user_data, &mut buffer), Ok(length));
        let mut wanted = composed_bytes(user_data);
        wanted.extend([0x77; 9]);
        assert_eq!(buffer, wanted);
    }
}

#[test]
fn compose_needs_room_for_the_whole_message() {
    for size in [0, 179, 180, 211, 212, 216] {
        let mut short = vec![7; size];
        let refused = compose_embedded(b"HELLO", &mut short);
        assert_eq!(refused, Err(refusal(12, 0)), "{size}");
        assert_eq!(short, vec![7; size]);
    }
    assert_eq!(compose_embedded(b"HELLO", &mut [7; 217]), Ok(217));
    assert_eq!(compose_embedded(b"", &mut [7; 212]), Ok(212));
    assert_eq!(compose_embedded(b"", &mut [7; 211]), Err(refusal(12, 0)));
}

#[test]
fn user_data_can_fill_a_message_and_no_more() {
    let mut buffer = vec![7; 70_000];
    for (size, answer) in [
        (65_324, Ok(65_536)),
        (65_325, Err(refusal(12, 0))),
        (70_000, Err(refusal(12, 0))),
    ] {
        let user_data = vec![9; size];
        buffer.fill(7);
        assert_eq!(compose_embedded(&user_data, &mut buffer), answer, "{size}");
        match answer {
            Ok(length) => {
                assert_eq!(buffer[..length], composed_bytes(&user_data));
                assert_eq!(buffer[length..], vec![7; 70_000 - length]);
            }
            Err(_) => assert_eq!(buffer, vec![7; 70_000]),
        }
    }
    assert_eq!(
        compose_embedded(&[9; 65_324], &mut buffer[..65_535]),
        Err(refusal(12, 0))
    );
}

#[test]
fn compose_gives_17_then_8_then_12() {
    let bad = Values {
        detail: 3,
        ..values()
    };
    let mut small = [7; 211];
    let go = |sheet: &Sheet, values: &Values, small: &mut [u8]| {
        compose(EMBEDDED, sheet, values, &SENDER, b"", small).map_err(|x| (x.number, x.place))
    };
    assert_eq!(go(&Sheet::new([5; 8]), &bad, &mut small), Err((17, 0)));
    assert_eq!(go(&sheet(), &bad, &mut small), Err((8, 0)));
    assert_eq!(go(&sheet(), &values(), &mut small), Err((12, 0)));
    assert_eq!(small, [7; 211]);
}

#[test]
fn a_plain_message_takes_nothing_of_the_embedding() {
    let user_data = vec![9; 70_000];
    let mut buffer = [7; 180];
    let answer = compose(PLAIN, &sheet(), &values(), &SENDER, &user_data, &mut buffer);
    assert_eq!(answer, Ok(180));
    assert_eq!(buffer[..], composed_bytes(b"")[32..]);
    // Where there is room for more, it stays as it is.
    let mut buffer = [7; 300];
    let answer = compose(PLAIN, &sheet(), &values(), &SENDER, b"USER", &mut buffer);
    assert_eq!(answer, Ok(180));
    assert_eq!(buffer[..180], composed_bytes(b"")[32..]);
    assert_eq!(buffer[180..], [7; 120]);
}
