//! The generators keep what they promise, and the decoder sees it so.

use crate::helpers::*;
use decoder::generate::*;
use decoder::*;
use std::collections::BTreeSet;

/// Each form with the fewest bytes of a message in it.
const FORMS: [(Layout, usize); 2] = [(PLAIN, 36), (EMBEDDED, 68)];

#[test]
fn sound_messages_are_accepted_as_built() {
    for (layout, least) in FORMS {
        accept_sound_messages(layout, least);
    }
}

fn accept_sound_messages(layout: Layout, least: usize) {
    let mut random = Random::new(1);
    let (mut kinds, mut depths) = (BTreeSet::new(), BTreeSet::new());
    let (mut empty_groups, mut largest, mut empty) = (0, 0, 0);
    for _ in 0..3_000 {
        let message = sound_message(&mut random, layout);
        let (bytes, length) = (&message.bytes, message.bytes.len());
        assert_eq!(check(bytes, length, layout), Ok(message.structures));
        assert_eq!(tally(bytes, length, layout).counts, message.tally);
        let rows = rows(bytes, length, layout).unwrap();
        kinds.extend(rows.iter().map(|row| row.kind));
        depths.extend(rows.iter().map(|row| row.depth));
        empty_groups += rows.iter().filter(|row| row.count == Some(0)).count();
        largest += usize::from(message.user_data_place == 65_536);
        empty += usize::from(message.user_data_place == least);
    }
    assert_eq!(
        Vec::from_iter(kinds),
        [3, 4, 5, 6, 9, 13, 14, 15, 20, 23, 25]
    );
    assert_eq!(Vec::from_iter(depths), [1, 2, 3, 4, 5, 6, 7, 8, 9]);
    assert!(empty_groups > 100 && largest > 5 && empty > 50);
}

#[test]
fn sound_traces_read_back() {
    let mut random = Random::new(2);
    for _ in 0..6_000 {
        let layout = any_layout(&mut random);
        let case = sound_trace(&mut random, layout);
        let (buffer, length) = (&case.lent.buffer, case.lent.length);
        assert_eq!(case.lent.layout, layout);
        let contents = Contents {
            values: case.values,
            embedding: case.embedding,
            user_data_place: case.user_data_place,
        };
        assert_eq!(read(buffer, length, layout, &case.sheet), Ok(contents));
        let found = locate(buffer, length, layout, &case.sheet).unwrap();
        assert_eq!(found.contents, contents);
        for (attribute, value) in case.values.to_array().into_iter().enumerate() {
            assert_eq!(get(buffer, found.places[attribute]), 3);
            assert_eq!(
                get(buffer, found.places[attribute] + 8),
                case.sheet.identifiers[attribute]
            );
            assert_eq!(get(buffer, found.value_place(attribute).unwrap()), value);
        }
    }
}

/// What compose is to do, with the message built by the generators' builders.
fn composed_case(case: &ComposeCase) -> (Result<usize, u8>, Vec<u8>) {
    let pairs = case
        .sheet
        .identifiers
        .into_iter()
        .zip(case.values.to_array());
    let members: Vec<Piece> = pairs.map(|(id, value)| Piece::integer(id, value)).collect();
    let part = trace(&[Piece::group(8003, &members)]);
    let message = match case.layout.form {
        Form::Plain => part,
        Form::Embedded => embed(&case.embedding, &part, &case.user_data),
    };
    let room = case.buffer.len().min(65_536);
    let refused = [
        (17, !case.sheet.is_sound()),
        (8, !case.values.in_range()),
        (12, message.len() > room),
    ];
    if let Some((number, _)) = refused.into_iter().find(|(_, holds)| *holds) {
        return (Err(number), case.buffer.clone());
    }
    let behind = &case.buffer[message.len()..];
    (Ok(message.len()), [&message[..], behind].concat())
}

#[test]
fn composed_messages_are_as_built_and_read_back() {
    let mut random = Random::new(3);
    for _ in 0..6_000 {
        let layout = any_layout(&mut random);
        let mut case = compose_case(&mut random, layout);
        let (expected, buffer) = composed_case(&case);
        let answer = compose(
            layout,
            &case.sheet,
            &case.values,
            &case.embedding,
            &case.user_data,
            &mut case.buffer,
        );
        assert_eq!(answer.map_err(|refusal| refusal.number), expected);
        assert!(case.buffer == buffer, "{layout:?} {expected:?}");
        let Ok(length) = answer else { continue };
        let contents = match layout.form {
            Form::Plain => plain_contents(&case.values, 180),
            Form::Embedded => Contents {
                values: case.values,
                embedding: case.embedding,
                user_data_place: 212,
            },
        };
        assert_eq!(read(&buffer, length, layout, &case.sheet), Ok(contents));
    }
}

#[test]
fn faulty_traces_give_their_number() {
    let mut random = Random::new(4);
    for round in 0..8_000 {
        let layout = any_layout(&mut random);
        let fault = FAULTS[round % FAULTS.len()];
        let second = FAULTS[round / FAULTS.len() % FAULTS.len()];
        let case = faulty_trace(&mut random, layout, &[fault, second]);
        // The lower number comes first.
        let number = fault_number(fault).min(fault_number(second));
        let (buffer, length) = (&case.lent.buffer, case.lent.length);
        // Without any other structure a trace has count 0, which is 6.
        let count_place = if layout == PLAIN { 32 } else { 64 };
        let number = if get(buffer, count_place) == 0 {
            6
        } else {
            number
        };
        let answer = read(buffer, length, layout, &case.sheet);
        assert_eq!(answer, Err(refusal(number, 0)), "{fault:?} {second:?}");
    }
}

fn fault_number(fault: Fault) -> u8 {
    match fault {
        Fault::WrongHeader => 6,
        Fault::NoTraceRoute | Fault::TwoTraceRoutes => 7,
        _ => 8,
    }
}

#[test]
fn lent_groups_and_sheets() {
    let mut random = Random::new(5);
    for _ in 0..2_000 {
        let sheet = sound_sheet(&mut random);
        assert!(sheet.is_sound());
        assert!(!unsound_sheet(&mut random).is_sound());
        assert!(lent_group_is_sound(&sound_group(&mut random, &sheet)));
        let unsound = unsound_group(&mut random, &sheet);
        assert!(!lent_group_is_sound(&unsound), "{unsound:?}");
    }
}

#[test]
fn values_in_and_out_of_range() {
    let mut random = Random::new(6);
    for _ in 0..2_000 {
        let mut values = values(&mut random);
        assert!(values.in_range());
        out_of_range(&mut random, &mut values);
        assert!(!values.in_range(), "{values:?}");
    }
}

#[test]
fn wrong_lengths_give_1() {
    let mut random = Random::new(7);
    for _ in 0..1_000 {
        let layout = any_layout(&mut random);
        let message = sound_message(&mut random, layout).bytes;
        let mut lent = lend(&mut random, layout, message);
        wrong_length(&mut random, &mut lent);
        let answer = check(&lent.buffer, lent.length, layout);
        assert_eq!(answer, Err(refusal(1, 0)));
    }
}

#[test]
fn other_layouts_are_refused() {
    let mut random = Random::new(10);
    for _ in 0..1_000 {
        let layout = any_layout(&mut random);
        let bytes = sound_message(&mut random, layout).bytes;
        // Where one form has 36 for a length, the other has 1 for a Version.
        let number = match layout.form {
            Form::Plain if bytes.len() < 68 => 1,
            Form::Plain => 18,
            Form::Embedded => 2,
        };
        let answer = check(&bytes, bytes.len(), other_layout(layout));
        assert_eq!(answer, Err(refusal(number, 0)));
    }
}

#[test]
fn equal_seeds_give_equal_cases() {
    for seed in 0..50 {
        let (mut one, mut other) = (Random::new(seed), Random::new(seed));
        let layout = any_layout(&mut one);
        assert_eq!(layout, any_layout(&mut other));
        assert_eq!(
            any_message(&mut one, layout),
            any_message(&mut other, layout)
        );
        assert_eq!(any_trace(&mut one, layout), any_trace(&mut other, layout));
        assert_eq!(scenario(&mut one, layout), scenario(&mut other, layout));
        assert_eq!(pair(&mut one, layout), pair(&mut other, layout));
        let (one, other) = (&mut one, &mut other);
        assert_eq!(compose_case(one, layout), compose_case(other, layout));
    }
}

#[test]
fn appended_groups_and_names_can_be_read() {
    let mut random = Random::new(8);
    let (mut parts, mut names, mut substitutes) = (0, 0, 0);
    for _ in 0..4_000 {
        let layout = any_layout(&mut random);
        let case = sound_trace(&mut random, layout);
        let (buffer, length) = (&case.lent.buffer, case.lent.length);
        for n in 0..4 {
            if let Some(part) = activity_group(buffer, length, layout, &case.sheet, n) {
                // A lent group has the same shape as an Activity group.
                let small = part.length <= LENT_MAX;
                assert_eq!(lent_group_is_sound(part.of(buffer)), small);
                parts += 1;
            }
            for id in NAMES {
                match named_string(buffer, length, layout, &case.sheet, n, id) {
                    Named::InMessage(part) => {
                        let string = &buffer[part.place - 20..];
                        assert_eq!([get(string, 0), get(string, 8)], [4, id]);
                        let data = &string[20..][..get(string, 16) as usize];
                        hold_name(data, part.of(buffer));
                        names += 1;
                    }
                    Named::Substitute => substitutes += 1,
                }
            }
        }
    }
    assert!(parts > 1000 && names > 400 && substitutes > 1000);
}
