//! Every level under every Detail (section F, point 8): up to Detail, that level
//! included, an activity can be recorded; above it the activity is unrecorded,
//! whatever is asked for.

use crate::helpers::*;
use decoder::generate::Piece;
use decoder::*;

/// Level, Detail (2 low, 8 medium, 32 high), and whether the activity can be
/// recorded. Written out, so that no comparison here can err like the decoder's.
const PAIRS: [(Level, u32, bool); 9] = [
    (Level::Low, 2, true),
    (Level::Low, 8, true),
    (Level::Low, 32, true),
    (Level::Medium, 2, false),
    (Level::Medium, 8, true),
    (Level::Medium, 32, true),
    (Level::High, 2, false),
    (Level::High, 8, false),
    (Level::High, 32, true),
];

/// Applies an activity with a group of 32 bytes where there is room for all of
/// it, and holds the answer and each byte of both buffers.
fn hold(values: &Values, event: &Activity, reported: bool, appended: bool) {
    let (mut buffer, mut report) = (lent(values, 40), vec![0xDD; 80]);
    let answer = activity(&mut buffer, 180, &sheet(), event, &mut report);
    let recorded = reported || appended;
    let expected = Applied {
        counter: if recorded {
            Counter::Recorded
        } else {
            Counter::Unrecorded
        },
        appended,
        report_length: if reported { 68 } else { 0 },
        message_length: if appended { 212 } else { 180 },
    };
    assert_eq!(answer, Ok(expected), "{values:?} {event:?}");
    assert_eq!(
        buffer,
        message_after(values, event.group, recorded, appended)
    );
    assert_eq!(report, report_after(event.group, reported));
}

/// One counter is raised; the group stands behind the message if appended.
fn message_after(values: &Values, group: &[u8], recorded: bool, appended: bool) -> Vec<u8> {
    let mut wanted = lent(values, 40);
    if recorded {
        put(&mut wanted, 68 + 12, values.recorded + 1);
    } else {
        put(&mut wanted, 84 + 12, values.unrecorded + 1);
    }
    if appended {
        put(&mut wanted, 32, 2);
        wanted[180..212].copy_from_slice(group);
    }
    wanted
}

fn report_after(group: &[u8], reported: bool) -> Vec<u8> {
    let mut wanted = vec![0xDD; 80];
    if reported {
        wanted[..68].copy_from_slice(&report_of(group));
    }
    wanted
}

#[test]
fn f8_level_against_detail() {
    let group = Piece::group(8005, &[Piece::integer(1202, 9)]).bytes;
    for (level, detail, recordable) in PAIRS {
        for reports_asked in [false, true] {
            for (accumulate, wanted) in [(0x10003, false), (0x10004, true), (0x10005, true)] {
                let values = Values::from_array([detail, 3, 5, 7, 0, accumulate, 0x100, 0x2000]);
                let event = Activity {
                    level,
                    reports_asked,
                    ..busy(&group)
                };
                hold(
                    &values,
                    &event,
                    recordable && reports_asked,
                    recordable && wanted,
                );
            }
        }
    }
}

#[test]
fn f8_levels_have_the_numbers_of_detail() {
    assert_eq!(Level::ALL, [Level::Low, Level::Medium, Level::High]);
    assert_eq!(Level::ALL.map(Level::value), [2, 8, 32]);
}

#[test]
fn f8_no_room_is_needed_above_detail() {
    let group = empty_group();
    for (level, detail, recordable) in PAIRS {
        for (values, number) in [(accumulating(), 12), (plain_values(), 13)] {
            let values = Values { detail, ..values };
            let event = Activity {
                level,
                ..busy(&group)
            };
            let answer = activity(&mut composed(&values), 180, &sheet(), &event, &mut []);
            let expected = if recordable {
                Err(event_refusal(number))
            } else {
                Ok(counted(Counter::Unrecorded, 180))
            };
            assert_eq!(answer, expected, "{level:?} {detail}");
        }
    }
}

#[test]
fn f8_11_follows_the_level() {
    let group = empty_group();
    for (level, detail, recordable) in PAIRS {
        let counted = |recorded, unrecorded| {
            let values = Values {
                detail,
                recorded,
                unrecorded,
                ..accumulating()
            };
            let event = Activity {
                level,
                ..busy(&group)
            };
            let (mut buffer, mut report) = (lent(&values, 16), [0; 52]);
            activity(&mut buffer, 180, &sheet(), &event, &mut report).map(|x| x.counter)
        };
        let answers = [counted(COUNTER_MAX, 0), counted(0, COUNTER_MAX)];
        let expected = if recordable {
            [Err(event_refusal(11)), Ok(Counter::Recorded)]
        } else {
            [Ok(Counter::Unrecorded), Err(event_refusal(11))]
        };
        assert_eq!(answers, expected, "{level:?} {detail}");
    }
}
