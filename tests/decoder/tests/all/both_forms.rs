//! What an embedded message says is what its PCF part says when it stands
//! alone, with places 32 further on; room alone goes by the whole message.

use crate::helpers::*;
use crate::plain::plain_end;
use decoder::generate::*;
use decoder::*;

/// A place in the part, as a place in the message around it.
fn moved(place: usize) -> usize {
    place + 32
}

fn moved_refusal(refusal: Refusal) -> Refusal {
    match refusal.number {
        3..=5 => Refusal {
            place: moved(refusal.place),
            ..refusal
        },
        _ => refusal,
    }
}

fn moved_row(row: &Row) -> Row {
    Row {
        place: moved(row.place),
        ..*row
    }
}

fn moved_part(part: Part) -> Part {
    Part {
        place: moved(part.place),
        ..part
    }
}

/// The part of an embedded message whose own header is sound.
fn part_of(lent: &Lent) -> Option<&[u8]> {
    if lent.layout == PLAIN {
        return None;
    }
    let end = plain_end(&lent.buffer, lent.length, EMBEDDED).ok()?;
    Some(&lent.buffer[32..end])
}

#[test]
fn structures() {
    let mut random = Random::new(61);
    let mut held = 0;
    for _ in 0..4_000 {
        let lent = any_message(&mut random, EMBEDDED);
        let (place, depth) = any_place(&mut random, &lent);
        let Some(part) = part_of(&lent) else { continue };
        let (buffer, length) = (&lent.buffer, lent.length);
        let inside = rows(part, part.len(), PLAIN).map_err(moved_refusal);
        let inside = inside.map(|rows| rows.iter().map(moved_row).collect());
        assert_eq!(rows(buffer, length, EMBEDDED), inside);
        let counts = tally(part, part.len(), PLAIN).counts;
        assert_eq!(tally(buffer, length, EMBEDDED).counts, counts);
        if let Some(place) = place.checked_sub(32) {
            let inside = step(part, part.len(), PLAIN, place, depth);
            let inside = inside.map(|(row, behind)| (moved_row(&row), moved(behind)));
            let answer = step(buffer, length, EMBEDDED, moved(place), depth);
            assert_eq!(answer, inside.map_err(moved_refusal));
        }
        held += 1;
    }
    assert!(held > 2_500, "{held}");
}

#[test]
fn traces() {
    let mut random = Random::new(62);
    let mut held = 0;
    for _ in 0..4_000 {
        let case = any_trace(&mut random, EMBEDDED);
        let Some(part) = part_of(&case.lent) else {
            continue;
        };
        let (buffer, length, sheet) = (&case.lent.buffer, case.lent.length, &case.sheet);
        let inside = locate(part, part.len(), PLAIN, sheet).map(|found| Trace {
            contents: Contents {
                embedding: Embedding::of(buffer).unwrap(),
                user_data_place: moved(part.len()),
                ..found.contents
            },
            places: found.places.map(moved),
        });
        let answer = locate(buffer, length, EMBEDDED, sheet);
        assert_eq!(answer, inside.map_err(moved_refusal));
        for supporting in [false, true] {
            let inside = forwarding(part, part.len(), PLAIN, sheet, supporting);
            let answer = forwarding(buffer, length, EMBEDDED, sheet, supporting);
            assert_eq!(answer, inside.map_err(moved_refusal));
        }
        let inside = arrival(part, part.len(), PLAIN, sheet).map_err(moved_refusal);
        assert_eq!(arrival(buffer, length, EMBEDDED, sheet), inside);
        parts(buffer, length, part, sheet);
        held += 1;
    }
    assert!(held > 3_000, "{held}");
}

/// Activity groups and names.
fn parts(buffer: &[u8], length: usize, part: &[u8], sheet: &Sheet) {
    for n in 0..4 {
        let inside = activity_group(part, part.len(), PLAIN, sheet, n).map(moved_part);
        let answer = activity_group(buffer, length, EMBEDDED, sheet, n);
        assert_eq!(answer, inside);
        for id in NAMES {
            let inside = match named_string(part, part.len(), PLAIN, sheet, n, id) {
                Named::InMessage(part) => Named::InMessage(moved_part(part)),
                Named::Substitute => Named::Substitute,
            };
            let answer = named_string(buffer, length, EMBEDDED, sheet, n, id);
            assert_eq!(answer, inside);
        }
    }
}

/// A trace with the report buffer, as an event finds and leaves them.
#[derive(Clone, Debug, PartialEq)]
struct State {
    buffer: Vec<u8>,
    length: usize,
    report: Vec<u8>,
}

impl State {
    fn apply(&mut self, sheet: &Sheet, event: &Event) -> Result<Applied, EventRefusal> {
        let State {
            buffer,
            length,
            report,
        } = self;
        let answer = apply(buffer, *length, sheet, event, report);
        *length = answer.map_or(*length, |applied| applied.message_length);
        answer
    }
}

/// The same event for a plain trace.
fn plain_event<'a>(event: &Event<'a>) -> Event<'a> {
    match *event {
        Event::Discontinuity(settings) => Event::Discontinuity(Settings {
            layout: PLAIN,
            ..settings
        }),
        Event::Activity(activity) => Event::Activity(Activity {
            settings: Settings {
                layout: PLAIN,
                ..activity.settings
            },
            ..activity
        }),
    }
}

/// What an event must do to an embedded trace, found by applying it to the part
/// in buffers that have room for all, and putting the message together again.
fn expected(state: &State, sheet: &Sheet, event: &Event) -> (Result<Applied, u8>, State) {
    let end = get(&state.buffer, 8) as usize;
    let (mut part, mut report) = (state.buffer[32..end].to_vec(), vec![0; 65_536]);
    part.resize(2 * 65_536, 0);
    let answer = apply(&mut part, end - 32, sheet, &plain_event(event), &mut report);
    let applied = match answer {
        Ok(applied) => applied,
        Err(refused) => return (Err(refused.number), state.clone()),
    };
    let more = applied.message_length - (end - 32);
    let length = state.length + more;
    if applied.appended && length > state.buffer.len().min(65_536) {
        return (Err(12), state.clone());
    }
    if applied.report_length > state.report.len() {
        return (Err(13), state.clone());
    }
    let mut after = state.clone();
    let user_data = &state.buffer[end..state.length];
    let message = embed(
        &Embedding::of(&state.buffer).unwrap(),
        &part[..applied.message_length],
        user_data,
    );
    after.buffer[..length].copy_from_slice(&message);
    after.report[..applied.report_length].copy_from_slice(&report[..applied.report_length]);
    after.length = length;
    let applied = Applied {
        message_length: length,
        ..applied
    };
    (Ok(applied), after)
}

#[test]
fn events() {
    let mut random = Random::new(63);
    let (mut accepted, mut moves, mut no_room) = (0, 0, 0);
    for _ in 0..4_000 {
        let case = sound_scenario(&mut random, EMBEDDED);
        let mut state = State {
            buffer: case.buffer,
            length: case.length,
            report: case.report,
        };
        for step in &case.events {
            let event = step.event();
            let (wanted, after) = expected(&state, &case.sheet, &event);
            let user_data = state.length - get(&state.buffer, 8) as usize;
            let answer = state.apply(&case.sheet, &event);
            assert_eq!(answer.map_err(|refused| refused.number), wanted);
            assert!(state == after, "{event:?}");
            accepted += usize::from(wanted.is_ok());
            no_room += usize::from(wanted == Err(12));
            let appended = wanted.is_ok_and(|applied| applied.appended);
            moves += usize::from(appended && user_data > 0);
        }
    }
    assert!(
        accepted > 3_000 && moves > 300 && no_room > 300,
        "{accepted} {moves} {no_room}"
    );
}
