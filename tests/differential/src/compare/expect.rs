//! The decoder's answers in the library's form.

use super::fill;
use crate::ffi::{Answer, Contents, Done, Fields, Part, Row};
use decoder::{Applied, Arrival, Counter, Embedding, EventRefusal, Refusal};

/// What is given, or number and place.
pub fn answer(result: Result<u64, Refusal>) -> Answer {
    match result {
        Ok(value) => Answer::given(value),
        Err(refusal) => Answer::refused(refusal.number, refusal.place as u64),
    }
}

/// One structure's answer is a number only: the place is the one asked for, or
/// 0 where the message as a whole is refused.
pub fn step_answer<T>(result: &Result<T, Refusal>, place: usize) -> Answer {
    match result {
        Ok(_) => Answer::given(0),
        Err(refusal) => {
            let whole = matches!(refusal.number, 1 | 18);
            let due = if whole { 0 } else { place };
            assert_eq!(refusal.place, due);
            Answer::refused(refusal.number, 0)
        }
    }
}

/// A row with the place behind it.
pub fn row((row, behind): (decoder::Row, usize)) -> Row {
    Row {
        depth: u64::from(row.depth),
        place: row.place as u64,
        kind: u64::from(row.kind),
        parameter: u64::from(row.parameter),
        length: u64::from(row.struc_length),
        members: u64::from(row.count.unwrap_or(0)),
        next: behind as u64,
    }
}

/// What read writes.
pub fn contents(contents: &decoder::Contents) -> Contents {
    Contents {
        values: contents.values.to_array(),
        fields: fields(&contents.embedding),
        format: contents.embedding.format,
    }
}

/// The fields in the order of `enum gw_field`.
pub fn fields(embedding: &Embedding) -> Fields {
    [
        embedding.encoding,
        embedding.coded_char_set_id,
        embedding.flags,
    ]
}

/// `GW_DECIDED_FORWARD`, or a refusal.
pub fn forwarding(result: Result<(), Refusal>) -> Answer {
    answer(result.map(|()| 1))
}

/// `GW_DECIDED_PUT` or `GW_DECIDED_WITHHOLD`, or a refusal.
pub fn arrival(result: Result<Arrival, Refusal>) -> Answer {
    answer(result.map(|arrival| match arrival {
        Arrival::Put => 2,
        Arrival::Withhold => 3,
    }))
}

/// The decoder has none where the library has an empty part at place 0.
pub fn group(part: Option<decoder::Part>) -> Part {
    part.map_or(
        Part {
            place: 0,
            length: 0,
        },
        self::part,
    )
}

pub fn part(part: decoder::Part) -> Part {
    Part {
        place: part.place as u64,
        length: part.length as u64,
    }
}

/// A counter's place in the sheet.
fn counter(counter: Counter) -> u64 {
    match counter {
        Counter::Recorded => 1,
        Counter::Unrecorded => 2,
        Counter::Discontinuity => 3,
    }
}

/// An event's answer: 10 has no place and says instead whether a reply is owed.
pub fn event(result: &Result<Applied, EventRefusal>) -> Answer {
    match result {
        Ok(applied) => Answer::given(applied.message_length as u64),
        Err(refusal) => {
            let value = match refusal.reply_owed {
                Some(owed) => u64::from(owed),
                None => refusal.place as u64,
            };
            Answer::refused(refusal.number, value)
        }
    }
}

/// What an event did; a refused one leaves the lent place as it was.
pub fn done(result: &Result<Applied, EventRefusal>) -> Done {
    match result {
        Ok(applied) => Done {
            counter: counter(applied.counter),
            appended: u64::from(applied.appended),
            report_length: applied.report_length as u64,
            message_length: applied.message_length as u64,
        },
        Err(_) => fill::DONE,
    }
}
