//! Events on embedded traces: an appended group goes between PCF part and user
//! data, and the whole message is what needs room. Whole buffers are held.

use crate::helpers::*;
use decoder::generate::Piece;
use decoder::*;

/// All on, for an embedded trace.
const ON: Settings = Settings {
    layout: EMBEDDED,
    ..BUSY
};

/// An activity that is to be appended and not reported.
fn silent(group: &[u8]) -> Activity<'_> {
    Activity {
        reports_asked: false,
        settings: ON,
        ..busy(group)
    }
}

/// A group of 32 bytes.
fn group() -> Vec<u8> {
    Piece::group(8005, &[Piece::integer(1202, 9)]).bytes
}

fn appended(message_length: usize) -> Applied {
    Applied {
        counter: Counter::Recorded,
        appended: true,
        report_length: 0,
        message_length,
    }
}

/// The trace up to its user data, with these three of its numbers.
fn numbers(struc_length: u32, count: u32, recorded: u32) -> Vec<u8> {
    let mut bytes = embedded(&composed(&accumulating()), b"");
    put(&mut bytes, 8, struc_length);
    put(&mut bytes, 64, count);
    put(&mut bytes, 112, recorded);
    bytes
}

#[test]
fn user_data_move_back_unharmed() {
    let long: Vec<u8> = (0..200).collect();
    // Room for the group, and six bytes that stay as they are.
    let behind: Vec<u8> = (200..238).collect();
    for user_data in [&b""[..], b"1", b"12", b"123", b"12345", &long] {
        let size = user_data.len();
        let mut buffer = [&numbers(212, 1, 0)[..], user_data, &behind].concat();
        let answer = activity(
            &mut buffer,
            212 + size,
            &sheet(),
            &silent(&group()),
            &mut [],
        );
        assert_eq!(answer, Ok(appended(244 + size)), "{size}");
        let wanted = [&numbers(244, 2, 1)[..], &group(), user_data, &behind[32..]].concat();
        assert_eq!(buffer, wanted, "{size}");
        let contents = read(&buffer, 244 + size, EMBEDDED, &sheet()).unwrap();
        assert_eq!(contents.user_data_place, 244);
        assert_eq!(contents.embedding, SENDER);
    }
}

/// All numbers of a trace after an append: StrucLength and the PCF header's
/// count, a counter, and the group at the end are new.
const APPENDED: [&[u32]; 12] = [
    &[0x4550_4820, 1, 228, 273, 1208, 0x4D51_5354, 0x5220_2020, 1],
    &[10, 36, 3, 75, 1, 1, 0, 0, 2],
    &[20, 16, 8003, 8],
    &[3, 16, 1201, 32],
    &[3, 16, 1202, 1],
    &[3, 16, 1203, 0],
    &[3, 16, 1204, 0],
    &[3, 16, 1205, 0],
    &[3, 16, 1206, 0x10004],
    &[3, 16, 1207, 0x100],
    &[3, 16, 1208, 0x2000],
    &[20, 16, 8005, 0],
];

#[test]
fn appended_message_byte_for_byte() {
    let wanted = [&bytes_of(&APPENDED)[..], b"HELLO"].concat();
    let mut buffer = embedded(&composed(&accumulating()), b"HELLO");
    buffer.extend([0; 16]);
    let answer = activity(&mut buffer, 217, &sheet(), &silent(&empty_group()), &mut []);
    assert_eq!(answer, Ok(appended(233)));
    assert_eq!(buffer, wanted);
}

#[test]
fn one_group_after_another() {
    let mut buffer = [&numbers(212, 1, 0)[..], b"user", &[0xEE; 80]].concat();
    let (first, second) = (group(), empty_group());
    let mut length = 216;
    for group in [&first, &second, &first] {
        let event = silent(group);
        let answer = activity(&mut buffer, length, &sheet(), &event, &mut []).unwrap();
        length = answer.message_length;
    }
    assert_eq!(length, 216 + 80);
    let wanted = [&numbers(292, 4, 3)[..], &first, &second, &first, b"user"].concat();
    assert_eq!(buffer, wanted);
    for (n, (place, size)) in [(212, 32), (244, 16), (260, 32)].into_iter().enumerate() {
        let part = Part {
            place,
            length: size,
        };
        let answer = activity_group(&buffer, length, EMBEDDED, &sheet(), n);
        assert_eq!(answer, Some(part));
    }
}

#[test]
fn room_for_the_whole_message_in_the_buffer() {
    // The PCF part and the group have 244 bytes together.
    for (user_data, size, accepted) in [
        (5, 217 + 32, true),
        (5, 217 + 31, false),
        (5, 217, false),
        (40, 252 + 32, true),
        (40, 252 + 31, false),
        (0, 212 + 32, true),
        (0, 212 + 31, false),
    ] {
        let mut buffer = numbers(212, 1, 0);
        buffer.resize(size, 0x55);
        let before = buffer.clone();
        let group = group();
        let event = silent(&group);
        let answer = activity(&mut buffer, 212 + user_data, &sheet(), &event, &mut []);
        if accepted {
            assert_eq!(answer, Ok(appended(size)), "{user_data}");
            assert_eq!(buffer[244..], before[212..212 + user_data]);
        } else {
            assert_eq!(answer, Err(event_refusal(12)), "{user_data}");
            assert_eq!(buffer, before);
        }
    }
}

#[test]
fn room_for_the_whole_message_in_65536_bytes() {
    // The PCF part is short: only the user data make these messages long.
    for (length, accepted) in [
        (65_536 - 32, true),
        (65_536 - 31, false),
        (65_536 - 16, false),
        (65_536, false),
    ] {
        let mut buffer = numbers(212, 1, 0);
        buffer.resize(length, 0x55);
        buffer.resize(70_000, 0x66);
        let before = buffer.clone();
        let answer = activity(&mut buffer, length, &sheet(), &silent(&group()), &mut []);
        if accepted {
            assert_eq!(answer, Ok(appended(65_536)));
            let user_data = &before[212..length];
            let wanted = [&numbers(244, 2, 1)[..], &group(), user_data].concat();
            assert!(buffer[..65_536] == wanted && buffer[65_536..] == before[65_536..]);
            assert_eq!(check(&buffer, 65_536, EMBEDDED), Ok(11));
        } else {
            assert_eq!(answer, Err(event_refusal(12)), "{length}");
            assert!(buffer == before);
        }
    }
}

#[test]
fn reports_are_plain() {
    let mut buffer = embedded(&composed(&plain_values()), b"user");
    let (group, mut report) = (group(), vec![0xDD; 80]);
    let event = Activity {
        settings: ON,
        ..busy(&group)
    };
    let answer = activity(&mut buffer, 216, &sheet(), &event, &mut report);
    let expected = Applied {
        appended: false,
        report_length: 68,
        ..appended(216)
    };
    assert_eq!(answer, Ok(expected));
    let mut wanted = embedded(&composed(&plain_values()), b"user");
    put(&mut wanted, 112, 1);
    assert_eq!(buffer, wanted);
    assert_eq!(report, [report_of(&group), vec![0xDD; 12]].concat());
    assert_eq!(check(&report, 68, PLAIN), Ok(2));
}

#[test]
fn lent_groups_are_plain() {
    let mut buffer = [&numbers(212, 1, 0)[..], &[0; 200]].concat();
    let before = buffer.clone();
    let wrapped = embedded(&group(), b"");
    let answer = activity(&mut buffer, 212, &sheet(), &silent(&wrapped), &mut []);
    assert_eq!(answer, Err(event_refusal(9)));
    assert_eq!(buffer, before);
}

#[test]
fn counters_alone_move_nothing() {
    for user_data in [&b""[..], b"12345"] {
        let start = [&numbers(212, 1, 0)[..], user_data].concat();
        let length = start.len();
        let mut buffer = start.clone();
        let answer = discontinuity(&mut buffer, length, &sheet(), &ON);
        assert_eq!(answer, Ok(counted(Counter::Discontinuity, length)));
        let mut wanted = start.clone();
        put(&mut wanted, 144, 1);
        assert_eq!(buffer, wanted);
        let quiet = Settings {
            layout: EMBEDDED,
            ..QUIET
        };
        let group = group();
        let event = Activity {
            settings: quiet,
            ..idle(&group)
        };
        let answer = activity(&mut buffer, length, &sheet(), &event, &mut []);
        assert_eq!(answer, Ok(counted(Counter::Unrecorded, length)));
        put(&mut wanted, 128, 1);
        assert_eq!(buffer, wanted);
    }
}

#[test]
fn an_event_names_the_traces_form() {
    let (plain, wrapped) = (
        lent(&accumulating(), 99),
        embedded(&lent(&accumulating(), 99), b""),
    );
    let group = group();
    for (bytes, length, layout, number) in [
        (&plain, 180, EMBEDDED, 18),
        (&plain, 67, EMBEDDED, 1),
        (&wrapped, 212, PLAIN, 2),
    ] {
        let settings = Settings { layout, ..BUSY };
        let (mut buffer, mut report) = (bytes.clone(), [0xDD; 99]);
        let event = Activity {
            settings,
            ..busy(&group)
        };
        let answer = activity(&mut buffer, length, &sheet(), &event, &mut report);
        assert_eq!(answer, Err(event_refusal(number)));
        let answer = discontinuity(&mut buffer, length, &sheet(), &settings);
        assert_eq!(answer, Err(event_refusal(number)));
        assert!(buffer == *bytes && report == [0xDD; 99]);
    }
}

#[test]
fn a_discontinuity_looks_at_its_layout_only() {
    for (activity_recording, trace_route_messaging) in
        [(false, false), (false, true), (true, false), (true, true)]
    {
        for (layout, mut buffer) in [
            (PLAIN, composed(&accumulating())),
            (EMBEDDED, numbers(212, 1, 0)),
        ] {
            let settings = Settings {
                activity_recording,
                trace_route_messaging,
                layout,
            };
            let length = buffer.len();
            let event = Event::Discontinuity(settings);
            assert_eq!(event.settings(), &settings);
            let answer = apply(&mut buffer, length, &sheet(), &event, &mut []);
            assert_eq!(answer, Ok(counted(Counter::Discontinuity, length)));
        }
    }
}

#[test]
fn lengths_that_no_message_has() {
    let start = [&numbers(212, 1, 0)[..], &[0; 99]].concat();
    for length in [0, 67, 312, 65_537, usize::MAX - 32, usize::MAX] {
        let mut buffer = start.clone();
        let answer = activity(&mut buffer, length, &sheet(), &silent(&group()), &mut []);
        assert_eq!(answer, Err(event_refusal(1)), "{length}");
        let answer = discontinuity(&mut buffer, length, &sheet(), &ON);
        assert_eq!(answer, Err(event_refusal(1)), "{length}");
        assert_eq!(buffer, start);
    }
}
