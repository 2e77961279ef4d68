//! The embedded form byte by byte, through the library alone.

use super::sample::{composed, FIELDS, FORMAT, USER_DATA, VALUES};
use decoder::generate::Piece;
use decoder::sample::MADE_UP;
use decoder::{Layout, Sheet};
use differential::compare::fill;
use differential::compare::given::Given;
use differential::compare::text::Text;
use differential::compare::traces::read;
use differential::ffi::{self, Activity, Answer, Around, Contents, Done, Part, Row, EMBEDDED};

/// What VALUES has, but for Accumulate: in the message.
const ACCUMULATING: [u32; 8] = [2, 0, 0, 0, 0, 0x10004, 0x100, 0x2000];

/// Reports asked for, activity recording, trace-route messaging.
const ALL: u32 = 1 | 2 | 4 | EMBEDDED;

const LISTING: &str = "pcf 10 75 1 217\n\
    1 68 20 8003 16\n\
    2 84 3 1201 16\n\
    2 100 3 1202 16\n\
    2 116 3 1203 16\n\
    2 132 3 1204 16\n\
    2 148 3 1205 16\n\
    2 164 3 1206 16\n\
    2 180 3 1207 16\n\
    2 196 3 1208 16\n\
    end 9\n";

fn bytes(numbers: &[u32]) -> Vec<u8> {
    numbers.iter().flat_map(|x| x.to_be_bytes()).collect()
}

/// The message of 217 bytes, number by number.
fn written(values: [u32; 8]) -> Vec<u8> {
    let mut message = b"EPH ".to_vec();
    message.extend(bytes(&[1, 212, 273, 1208]));
    message.extend(b"MQSTR   ");
    message.extend(bytes(&[0x0102_0304]));
    message.extend(bytes(&[10, 36, 3, 75, 1, 1, 0, 0, 1, 20, 16, 8003, 8]));
    for (identifier, value) in MADE_UP.into_iter().zip(values) {
        message.extend(bytes(&[3, 16, identifier, value]));
    }
    message.extend(b"user!");
    message
}

#[test]
fn a_composed_message() {
    let message = composed(Layout::EMBEDDED, VALUES, USER_DATA);
    assert_eq!(message, written(VALUES));
    let given = Given::whole(&message, Layout::EMBEDDED);
    let contents = Contents {
        values: VALUES,
        fields: FIELDS,
        format: FORMAT,
    };
    let found = read(given, &Sheet::new(MADE_UP));
    assert_eq!(found, (Answer::given(212), contents));
    assert_eq!(ffi::check(&message, 217, EMBEDDED), Answer::given(9));
    let listed = Text::new().list(given, LISTING.as_bytes());
    assert_eq!(listed, Answer::given(LISTING.len() as u64));
}

#[test]
fn a_plain_message_has_zeros_and_no_user_data() {
    let message = composed(Layout::PLAIN, VALUES, USER_DATA);
    assert_eq!(message, written(VALUES)[32..212]);
    let given = Given::whole(&message, Layout::PLAIN);
    let contents = Contents {
        values: VALUES,
        fields: [0; 3],
        format: [0; 8],
    };
    let found = read(given, &Sheet::new(MADE_UP));
    assert_eq!(found, (Answer::given(180), contents));
}

#[test]
fn user_data_to_65_536() {
    let user = [0xA5; 65_325];
    let compose = |user: &[u8], buffer: &mut [u8]| {
        let around = Around {
            user,
            ..Around::NOTHING
        };
        ffi::compose(&MADE_UP, &VALUES, EMBEDDED, &around, buffer)
    };
    let mut buffer = vec![1; 65_540];
    // One byte too many of a message, then of the buffer.
    assert_eq!(compose(&user, &mut buffer), Answer::refused(12, 0));
    assert_eq!(
        compose(&user[1..], &mut buffer[1..65_536]),
        Answer::refused(12, 0)
    );
    assert_eq!(buffer, vec![1; 65_540]);
    assert_eq!(
        compose(&user[1..], &mut buffer[..65_536]),
        Answer::given(65_536)
    );
    assert_eq!(buffer[212..65_536], user[1..]);
    assert_eq!(buffer[65_536..], [1; 4]);
}

#[test]
fn steps_end_where_the_part_does() {
    let mut message = composed(Layout::EMBEDDED, VALUES, &Piece::integer(1, 2).bytes);
    let step = |message: &[u8], place| {
        fill::between(fill::ROW, |row| {
            ffi::step(message, 228, EMBEDDED, place, 1, row)
        })
    };
    // The user data are a structure to look at, and none.
    let refused = (Answer::refused(3, 0), fill::ROW);
    assert_eq!(step(&message, 212), refused);
    assert_eq!(step(&message, 228), refused);
    assert_eq!(step(&message, usize::MAX), refused);
    let row = Row {
        depth: 1,
        place: 196,
        kind: 3,
        parameter: 1208,
        length: 16,
        members: 0,
        next: 212,
    };
    assert_eq!(step(&message, 196), (Answer::given(0), row));
    message[0] = b'e';
    assert_eq!(step(&message, 196), (Answer::refused(18, 0), fill::ROW));
}

/// Gives a trace of 217 bytes an activity that is appended and reported, in a
/// buffer of 240.
fn appended(group: &[u8]) -> (Vec<u8>, Vec<u8>, Answer, Done) {
    let mut buffer = composed(Layout::EMBEDDED, ACCUMULATING, USER_DATA);
    buffer.resize(240, 0xEE);
    let mut report = vec![0xDD; 60];
    let event = Activity {
        options: ALL,
        level: 2,
        group,
    };
    let (answer, done) = fill::between(fill::DONE, |done| {
        ffi::activity(&mut buffer, 217, &MADE_UP, &event, &mut report, done)
    });
    (buffer, report, answer, done)
}

#[test]
fn a_group_is_appended_before_the_user_data() {
    let group = Piece::group(8005, &[]).bytes;
    let (buffer, report, answer, done) = appended(&group);
    // StrucLength, ParameterCount and RecordedActivities are higher.
    let [detail, _, rest @ ..] = ACCUMULATING;
    let [a, b, c, d, e, f] = rest;
    let mut wanted = written([detail, 1, a, b, c, d, e, f]);
    wanted[8..12].copy_from_slice(&bytes(&[228]));
    wanted[64..68].copy_from_slice(&bytes(&[2]));
    wanted.splice(212..212, group.iter().copied());
    wanted.extend([0xEE; 7]);
    assert_eq!((answer, buffer), (Answer::given(233), wanted));
    // The report is plain, and what is behind it stays.
    let mut wanted = bytes(&[12, 36, 3, 69, 1, 1, 0, 0, 1]);
    wanted.extend(&group);
    wanted.extend([0xDD; 8]);
    assert_eq!(report, wanted);
    let wanted = Done {
        counter: 1,
        appended: 1,
        report_length: 52,
        message_length: 233,
    };
    assert_eq!(done, wanted);
}

#[test]
fn a_group_and_a_name_before_the_user_data() {
    let member = Piece::string(3001, b"QM");
    // With the group, 217 bytes become 257.
    let mut buffer = composed(Layout::EMBEDDED, ACCUMULATING, USER_DATA);
    buffer.resize(257, 0);
    let event = Activity {
        options: 4 | EMBEDDED,
        level: 2,
        group: &Piece::group(8005, &[member]).bytes,
    };
    let mut done = fill::DONE;
    let answer = ffi::activity(&mut buffer, 217, &MADE_UP, &event, &mut [], &mut done);
    assert_eq!(answer, Answer::given(257));
    let (group, name) = (
        Part {
            place: 212,
            length: 40,
        },
        Part {
            place: 248,
            length: 2,
        },
    );
    let mut part = fill::PART;
    ffi::activity_group(&buffer, 257, &MADE_UP, EMBEDDED, 0, &mut part);
    assert_eq!(part, group);
    let found = ffi::named_string(&buffer, 257, &MADE_UP, EMBEDDED, 0, 3001, &mut part);
    assert_eq!((found, part), (true, name));
    // Read as plain, nothing is found and the part stays.
    let found = ffi::named_string(&buffer, 257, &MADE_UP, 0, 0, 3001, &mut part);
    assert_eq!((found, part), (false, name));
}

#[test]
fn a_discontinuity_writes_four_bytes() {
    let mut buffer = composed(Layout::EMBEDDED, VALUES, USER_DATA);
    let mut done = fill::DONE;
    let answer = ffi::discontinuity(&mut buffer, 217, &MADE_UP, EMBEDDED, &mut done);
    let [a, b, c, _, rest @ ..] = VALUES;
    let [d, e, f, g] = rest;
    assert_eq!(answer, Answer::given(217));
    assert_eq!(buffer, written([a, b, c, 1, d, e, f, g]));
    let wanted = Done {
        counter: 3,
        appended: 0,
        report_length: 0,
        message_length: 217,
    };
    assert_eq!(done, wanted);
}
