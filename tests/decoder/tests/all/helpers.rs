//! Small builders that many tests share.

use decoder::generate::{assemble, Piece};
use decoder::{
    sample, Activity, Applied, Contents, Counter, Embedding, EventRefusal, Layout, Level, Refusal,
    Settings, Sheet, Values, ACCUMULATE_IN_MESSAGE, ACCUMULATE_NONE, DELIVER_NO, DETAIL_HIGH,
    FORWARD_ALL,
};

pub const PLAIN: Layout = Layout::PLAIN;
pub const EMBEDDED: Layout = Layout::EMBEDDED;

/// Settings for a plain trace with all on.
pub const BUSY: Settings = Settings {
    activity_recording: true,
    trace_route_messaging: true,
    layout: PLAIN,
};

/// Settings for a plain trace with nothing on.
pub const QUIET: Settings = Settings {
    activity_recording: false,
    trace_route_messaging: false,
    layout: PLAIN,
};

/// The rules' made-up sheet.
pub fn sheet() -> Sheet {
    Sheet::new(sample::MADE_UP)
}

/// Plain values: high detail, so that every level can be recorded; no limit, no
/// accumulation.
pub fn plain_values() -> Values {
    Values {
        detail: DETAIL_HIGH,
        recorded: 0,
        unrecorded: 0,
        discontinuities: 0,
        max_activities: 0,
        accumulate: ACCUMULATE_NONE,
        forward: FORWARD_ALL,
        deliver: DELIVER_NO,
    }
}

/// Plain values, but with accumulation.
pub fn accumulating() -> Values {
    Values {
        accumulate: ACCUMULATE_IN_MESSAGE,
        ..plain_values()
    }
}

/// Composes a plain message.
pub fn compose_plain(sheet: &Sheet, values: &Values, buffer: &mut [u8]) -> Result<usize, Refusal> {
    decoder::compose(PLAIN, sheet, values, &Embedding::NONE, &[], buffer)
}

/// A composed message under the made-up sheet.
pub fn composed(values: &Values) -> Vec<u8> {
    let mut buffer = vec![0; 180];
    assert_eq!(compose_plain(&sheet(), values, &mut buffer), Ok(180));
    buffer
}

/// What Read gives of a plain trace with these values in so many bytes.
pub fn plain_contents(values: &Values, length: usize) -> Contents {
    Contents {
        values: *values,
        embedding: Embedding::NONE,
        user_data_place: length,
    }
}

/// A composed message in a buffer with room behind it.
pub fn lent(values: &Values, room: usize) -> Vec<u8> {
    let mut buffer = composed(values);
    buffer.extend(vec![0xEE; room]);
    buffer
}

/// The sender's fields in the tests' embedded headers.
pub const SENDER: Embedding = Embedding {
    encoding: 273,
    coded_char_set_id: 1208,
    format: *b"MQSTR   ",
    flags: 1,
};

/// An embedded message, its header written out field by field.
pub fn embedded(part: &[u8], user_data: &[u8]) -> Vec<u8> {
    let mut bytes = b"EPH \0\0\0\x01".to_vec();
    bytes.extend((32 + part.len() as u32).to_be_bytes());
    bytes.extend(*b"\0\0\x01\x11\0\0\x04\xB8MQSTR   \0\0\0\x01");
    bytes.extend([part, user_data].concat());
    bytes
}

/// Header fields of a sound message of Type 7.
pub const EVENT_FIELDS: [u32; 8] = [7, 36, 3, 99, 1, 1, 0, 0];
/// Header fields of a trace-route message.
pub const TRACE_FIELDS: [u32; 8] = [10, 36, 3, 75, 1, 1, 0, 0];

/// A message of Type 7 with these top-level structures.
pub fn message(pieces: &[Piece]) -> Vec<u8> {
    assemble(EVENT_FIELDS, pieces)
}

/// A trace-route message with these top-level structures.
pub fn trace(pieces: &[Piece]) -> Vec<u8> {
    assemble(TRACE_FIELDS, pieces)
}

/// The eight attributes under the made-up sheet.
pub fn attributes(values: &Values) -> Vec<Piece> {
    let pairs = sheet().identifiers.into_iter().zip(values.to_array());
    pairs.map(|(id, value)| Piece::integer(id, value)).collect()
}

/// A TraceRoute group with plain values.
pub fn trace_route() -> Piece {
    Piece::group(8003, &attributes(&plain_values()))
}

pub fn put(bytes: &mut [u8], place: usize, value: u32) {
    bytes[place..place + 4].copy_from_slice(&value.to_be_bytes());
}

pub fn get(bytes: &[u8], place: usize) -> u32 {
    u32::from_be_bytes(bytes[place..place + 4].try_into().unwrap())
}

/// Rows of numbers as they stand in a message.
pub fn bytes_of(rows: &[&[u32]]) -> Vec<u8> {
    let numbers = rows.iter().copied().flatten();
    numbers.flat_map(|number| number.to_be_bytes()).collect()
}

pub fn refusal(number: u8, place: usize) -> Refusal {
    Refusal { number, place }
}

/// A refused event without a word on a reply.
pub fn event_refusal(number: u8) -> EventRefusal {
    EventRefusal {
        number,
        place: 0,
        reply_owed: None,
    }
}

pub fn limit_refusal(reply_owed: bool) -> EventRefusal {
    EventRefusal {
        number: 10,
        place: 0,
        reply_owed: Some(reply_owed),
    }
}

pub fn check_all(bytes: &[u8]) -> Result<usize, Refusal> {
    decoder::check(bytes, bytes.len(), PLAIN)
}

/// The same of an embedded message.
pub fn check_embedded(bytes: &[u8]) -> Result<usize, Refusal> {
    decoder::check(bytes, bytes.len(), EMBEDDED)
}

pub fn read_all(bytes: &[u8]) -> Result<Values, Refusal> {
    let contents = decoder::read(bytes, bytes.len(), PLAIN, &sheet())?;
    assert_eq!(contents, plain_contents(&contents.values, bytes.len()));
    Ok(contents.values)
}

/// Groups nested to so many levels, the innermost with these members.
pub fn nested(depth: u32, members: &[Piece]) -> Piece {
    (1..depth).fold(Piece::group(1, members), |inner, _| {
        Piece::group(1, &[inner])
    })
}

/// The shortest Activity group.
pub fn empty_group() -> Vec<u8> {
    Piece::group(8005, &[]).bytes
}

/// A low activity with everything on and asked for.
pub fn busy(group: &[u8]) -> Activity<'_> {
    Activity {
        level: Level::Low,
        group,
        reports_asked: true,
        settings: BUSY,
    }
}

/// A low activity with nothing on and nothing asked for.
pub fn idle(group: &[u8]) -> Activity<'_> {
    Activity {
        level: Level::Low,
        group,
        reports_asked: false,
        settings: QUIET,
    }
}

/// The report's header in its nine numbers, then the group.
pub fn report_of(group: &[u8]) -> Vec<u8> {
    let words: [u32; 9] = [12, 36, 3, 69, 1, 1, 0, 0, 1];
    let mut bytes: Vec<u8> = words.iter().flat_map(|x| x.to_be_bytes()).collect();
    bytes.extend(group);
    bytes
}

/// The answer of an event that only raised a counter.
pub fn counted(counter: Counter, message_length: usize) -> Applied {
    Applied {
        counter,
        appended: false,
        report_length: 0,
        message_length,
    }
}

pub fn is_fill(byte: &u8) -> bool {
    [0x20, 0x00].contains(byte)
}

/// The name is a beginning of the data, only blanks and zero bytes are behind
/// it there, and it ends in neither. Just one beginning is like that: the
/// longest that ends in neither.
pub fn hold_name(data: &[u8], name: &[u8]) {
    let removed = data.strip_prefix(name).expect("a beginning of the data");
    assert!(removed.iter().all(is_fill), "{name:?} of {data:?}");
    assert!(!name.last().is_some_and(is_fill), "{name:?} of {data:?}");
}
