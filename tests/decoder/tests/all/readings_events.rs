//! Points of the readings about events (section F); its point 8 has a module of
//! its own, `levels`.

use crate::helpers::*;
use decoder::generate::Piece;
use decoder::*;

#[test]
fn recorded_reported_and_appended() {
    let group = Piece::group(8005, &[Piece::integer(1202, 9)]).bytes;
    let mut buffer = lent(&accumulating(), 40);
    let mut report = vec![0xDD; 80];
    let answer = activity(&mut buffer, 180, &sheet(), &busy(&group), &mut report);
    let expected = Applied {
        counter: Counter::Recorded,
        appended: true,
        report_length: 68,
        message_length: 212,
    };
    assert_eq!(answer, Ok(expected));
    // F15: two numbers and the group, nothing else.
    let mut wanted = lent(&accumulating(), 40);
    put(&mut wanted, 32, 2);
    put(&mut wanted, 68 + 12, 1);
    wanted[180..212].copy_from_slice(&group);
    assert_eq!(buffer, wanted);
    // F11: the report holds the group only, without an embedded header.
    let mut wanted = report_of(&group);
    wanted.extend([0xDD; 12]);
    assert_eq!(report, wanted);
    assert_eq!(check(&report, 68, PLAIN), Ok(2));
}

#[test]
fn f1_9_before_10_and_for_every_activity() {
    let full = Values {
        max_activities: 1,
        recorded: 1,
        ..plain_values()
    };
    let mut buffer = composed(&full);
    let answer = activity(&mut buffer, 180, &sheet(), &idle(&[]), &mut []);
    assert_eq!(answer, Err(event_refusal(9)));
    // Also for one that is unrecorded for its level.
    let low = Values {
        detail: DETAIL_LOW,
        ..plain_values()
    };
    let high = Activity {
        level: Level::High,
        ..busy(&[])
    };
    let answer = activity(&mut composed(&low), 180, &sheet(), &high, &mut []);
    assert_eq!(answer, Err(event_refusal(9)));
    // A discontinuity looks at neither group nor report buffer nor room.
    let mut buffer = composed(&accumulating());
    let answer = discontinuity(&mut buffer, 180, &sheet(), &QUIET);
    assert_eq!(answer, Ok(counted(Counter::Discontinuity, 180)));
    let mut wanted = composed(&accumulating());
    put(&mut wanted, 100 + 12, 1);
    assert_eq!(buffer, wanted);
}

#[test]
fn f2_lent_group_sizes() {
    let sized = |size: usize| Piece::group(8005, &[Piece::string(1, &vec![7; size - 36])]).bytes;
    assert_eq!(sized(65_500).len(), 65_500);
    assert!(lent_group_is_sound(&sized(65_500)));
    assert!(!lent_group_is_sound(&sized(65_504)));
    assert!(lent_group_is_sound(&empty_group()));
    assert!(!lent_group_is_sound(&empty_group()[..15]));
    assert!(!lent_group_is_sound(&[]));
}

#[test]
fn f2_lent_group_shape() {
    let deep = |depth| Piece::group(8005, &[nested(depth, &[Piece::integer(1, 1)])]).bytes;
    assert!(lent_group_is_sound(&deep(7)));
    assert!(!lent_group_is_sound(&deep(8)));
    assert!(!lent_group_is_sound(&Piece::group(8003, &[]).bytes));
    assert!(!lent_group_is_sound(&Piece::integer(8005, 0).bytes));
    let twice = [empty_group(), empty_group()].concat();
    assert!(!lent_group_is_sound(&twice));
    let mut more = empty_group();
    more.push(0);
    assert!(!lent_group_is_sound(&more));
    let mut short = empty_group();
    put(&mut short, 12, 1);
    assert!(!lent_group_is_sound(&short));
}

#[test]
fn f3_limit_is_judged_before_counting() {
    let group = empty_group();
    for (sum, accepted) in [(3, true), (4, true), (5, false), (6, false)] {
        let values = Values {
            unrecorded: sum,
            max_activities: 5,
            ..plain_values()
        };
        let mut buffer = composed(&values);
        let answer = activity(&mut buffer, 180, &sheet(), &idle(&group), &mut []);
        assert_eq!(answer.is_ok(), accepted, "{sum}");
        let after = read_all(&buffer).unwrap().sum();
        assert_eq!(after, u64::from(sum) + u64::from(accepted));
    }
}

#[test]
fn f4_10_before_11() {
    let values = Values {
        discontinuities: COUNTER_MAX,
        max_activities: COUNTER_MAX,
        ..plain_values()
    };
    let mut buffer = composed(&values);
    assert_eq!(
        discontinuity(&mut buffer, 180, &sheet(), &QUIET),
        Err(limit_refusal(false))
    );
    let values = Values {
        max_activities: 0,
        ..values
    };
    let mut buffer = composed(&values);
    assert_eq!(
        discontinuity(&mut buffer, 180, &sheet(), &QUIET),
        Err(event_refusal(11))
    );
}

#[test]
fn f5_11_is_about_the_counter_to_rise() {
    let group = empty_group();
    let worn = Values {
        unrecorded: COUNTER_MAX,
        ..accumulating()
    };
    let mut buffer = lent(&worn, 16);
    let answer = activity(&mut buffer, 180, &sheet(), &idle(&group), &mut []);
    assert_eq!(answer, Err(event_refusal(11)));
    let mut report = [0; 52];
    let answer = activity(&mut buffer, 180, &sheet(), &busy(&group), &mut report);
    assert_eq!(answer.map(|applied| applied.counter), Ok(Counter::Recorded));
    let last = Values {
        unrecorded: COUNTER_MAX - 1,
        ..plain_values()
    };
    let mut buffer = composed(&last);
    let answer = activity(&mut buffer, 180, &sheet(), &idle(&group), &mut []);
    assert!(answer.is_ok());
    assert_eq!(read_all(&buffer).unwrap().unrecorded, COUNTER_MAX);
}

#[test]
fn f6_f7_room() {
    let group = empty_group();
    let apply = |room, report: usize, values: &Values| {
        let (mut buffer, mut report) = (lent(values, room), vec![0; report]);
        activity(&mut buffer, 180, &sheet(), &busy(&group), &mut report).map_err(|r| r.number)
    };
    assert_eq!(apply(15, 0, &accumulating()), Err(12));
    assert_eq!(apply(16, 0, &accumulating()), Err(13));
    assert_eq!(apply(16, 51, &accumulating()), Err(13));
    assert!(apply(16, 52, &accumulating()).is_ok());
    assert!(apply(16, 70_000, &accumulating()).is_ok());
    // Nothing to append: no room needed. No report due: no buffer needed.
    assert!(apply(0, 52, &plain_values()).is_ok());
    let quiet = Activity {
        reports_asked: false,
        ..busy(&group)
    };
    let mut buffer = lent(&accumulating(), 16);
    assert!(activity(&mut buffer, 180, &sheet(), &quiet, &mut []).is_ok());
}

#[test]
fn f6_messages_end_at_65536() {
    let group = empty_group();
    let quiet = Activity {
        reports_asked: false,
        ..busy(&group)
    };
    for (size, accepted) in [(65_520, true), (65_524, false), (65_536, false)] {
        let filler = Piece::string(1, &vec![b' '; size - 180 - 20]);
        let group = Piece::group(8003, &attributes(&accumulating()));
        let mut buffer = trace(&[group, filler]);
        assert_eq!(buffer.len(), size);
        buffer.extend([1; 100]);
        let answer = activity(&mut buffer, size, &sheet(), &quiet, &mut []);
        assert_eq!(answer.is_ok(), accepted, "{size}");
        if !accepted {
            assert_eq!(answer, Err(event_refusal(12)));
        }
    }
}

#[test]
fn f9_f10_reported_and_accumulated_are_apart() {
    let group = empty_group();
    for bits in 0..16 {
        let [asked, recording, messaging, wanted] = [1, 2, 4, 8].map(|bit| bits & bit != 0);
        let values = if wanted {
            accumulating()
        } else {
            plain_values()
        };
        let event = Activity {
            level: Level::Low,
            group: &group,
            reports_asked: asked,
            settings: Settings {
                activity_recording: recording,
                trace_route_messaging: messaging,
                layout: PLAIN,
            },
        };
        let (mut buffer, mut report) = (lent(&values, 16), [0; 52]);
        let answer = activity(&mut buffer, 180, &sheet(), &event, &mut report).unwrap();
        let reported = asked && recording;
        let appended = wanted && messaging;
        assert_eq!(answer.report_length, if reported { 52 } else { 0 });
        assert_eq!(answer.appended, appended);
        assert_eq!(answer.message_length, if appended { 196 } else { 180 });
        let recorded = answer.counter == Counter::Recorded;
        assert_eq!(recorded, reported || appended);
    }
}

#[test]
fn f12_reply_owed() {
    for (accumulate, owed) in [
        (ACCUMULATE_NONE, false),
        (ACCUMULATE_IN_MESSAGE, false),
        (ACCUMULATE_WITH_REPLY, true),
    ] {
        let values = Values {
            accumulate,
            max_activities: 1,
            recorded: 1,
            ..plain_values()
        };
        let mut buffer = composed(&values);
        assert_eq!(
            discontinuity(&mut buffer, 180, &sheet(), &QUIET),
            Err(limit_refusal(owed))
        );
    }
}

#[test]
fn f13_unrecognised_options_play_no_part() {
    let values = Values {
        forward: 0xFFFF_0200,
        deliver: 0x8000_1000,
        ..plain_values()
    };
    assert!(discontinuity(&mut composed(&values), 180, &sheet(), &QUIET).is_ok());
}

#[test]
fn counters_in_other_groups_stay() {
    let decoy = Piece::group(8005, &attributes(&plain_values()));
    let pieces = [decoy.clone(), trace_route(), decoy];
    let mut buffer = trace(&pieces);
    let before = buffer.clone();
    let length = buffer.len();
    assert!(discontinuity(&mut buffer, length, &sheet(), &QUIET).is_ok());
    let place = 36 + 144 + 16 + 3 * 16 + 12;
    let changed: Vec<usize> = (0..length).filter(|&at| buffer[at] != before[at]).collect();
    assert_eq!(changed, [place + 3]);
}
