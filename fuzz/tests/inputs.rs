//! What the fuzzer makes of bytes before anything is compared.

use decoder::generate::{
    any_layout, any_message, damaged_trace, embed, sound_trace, unsound_group, Random,
};
use decoder::sample::MADE_UP;
use decoder::{lent_group_is_sound, sample, Embedding, Form, Layout, Sheet};
use fuzz::case::Case;
use fuzz::layout::{Choice, Input};
use fuzz::mend::{mend, mend_group};
use fuzz::mutate::mutate;

const FORMS: [Layout; 2] = [Layout::PLAIN, Layout::EMBEDDED];

#[test]
fn a_message_is_an_input() {
    let plain = sample::event_004();
    let embedded = embed(&Embedding::NONE, &plain, b"user!");
    for (message, layout) in [(plain, Layout::PLAIN), (embedded, Layout::EMBEDDED)] {
        let case = Case::new(&Input::parse(&message));
        assert_eq!((case.length, case.layout), (message.len(), layout));
        assert!(case.buffer.starts_with(&message));
        assert!(lent_group_is_sound(&case.group));
        let checked = decoder::check(&case.buffer, case.length, case.layout);
        assert_eq!(checked, Ok(10));
    }
}

#[test]
fn an_input_is_parsed_as_it_was_written() {
    for layout in FORMS {
        let mut input = Input::new(&[0, 0, 0, 7], layout).choose(Choice::Sheet, 1);
        input = input.with_free(3002);
        input.group = vec![1, 2, 3];
        let again = Input::parse(&input.bytes());
        assert_eq!(again.layout(), layout);
        assert_eq!(again.choice(Choice::Sheet), 1);
        assert_eq!(again.free(), 3002);
        assert_eq!((again.message, again.group), (input.message, input.group));
    }
}

/// Inputs from before there was a form began with 1 where choices came first.
#[test]
fn older_inputs_are_plain() {
    let bytes = [&[1][..], &[0; 29], &[0, 0, 0, 10]].concat();
    let input = Input::parse(&bytes);
    assert_eq!(input.layout(), Layout::PLAIN);
    assert_eq!(input.message, [0, 0, 0, 10]);
}

#[test]
fn long_messages_are_as_long_as_they_are_to_be() {
    let part = sample::event_004();
    let message = embed(&Embedding::NONE, &part, b"user");
    for (swell, size) in [
        (1, 65_536),
        (2, 65_532),
        (5, 65_540),
        (6, 65_536),
        (10, 65_537),
    ] {
        let input = Input::new(&message, Layout::EMBEDDED).choose(Choice::Swell, swell);
        let case = Case::new(&input);
        assert_eq!(case.length, size);
        if size <= 65_536 {
            let structures = 10 + usize::from(swell < 6);
            let checked = decoder::check(&case.buffer, case.length, case.layout);
            assert_eq!(checked, Ok(structures));
        }
    }
}

#[test]
fn mended_messages_are_sound() {
    for seed in 0..4000 {
        let mut random = Random::new(seed);
        let layout = any_layout(&mut random);
        let mut message = damaged_trace(&mut random, layout).lent.buffer;
        message.truncate(65_536);
        mend(&mut message, layout);
        let checked = decoder::check(&message, message.len(), layout);
        assert!(checked.is_ok(), "seed {seed}: {checked:?}");
    }
}

#[test]
fn mending_leaves_user_data() {
    for seed in 0..500 {
        let case = sound_trace(&mut Random::new(seed), Layout::EMBEDDED);
        let mut message = case.lent.buffer;
        message.truncate(case.lent.length);
        let before = message.clone();
        mend(&mut message, Layout::EMBEDDED);
        assert!(message == before, "seed {seed}");
    }
}

/// All but what is no Activity group at all, or cut within its first structure.
#[test]
fn mended_groups_have_their_counts() {
    for seed in 0..2000 {
        let mut group = unsound_group(&mut Random::new(seed), &Sheet::new(MADE_UP));
        group.truncate(65_500);
        mend_group(&mut group);
        let mut message = vec![0; 36];
        message[7] = 36;
        message[11] = 3;
        message[35] = u8::from(!group.is_empty());
        message.extend(group);
        let checked = decoder::check(&message, message.len(), Layout::PLAIN);
        assert!(checked.is_ok(), "seed {seed}: {checked:?}");
    }
}

#[test]
fn mutations_never_fail() {
    for seed in 0..20_000 {
        let mut random = Random::new(seed);
        let layout = any_layout(&mut random);
        let message = any_message(&mut random, layout).buffer;
        for bytes in [&message, &Input::new(&message, layout).bytes()] {
            let mutated = mutate(bytes, &mut random, &mut |bytes| bytes.to_vec());
            Case::new(&Input::parse(&mutated));
        }
    }
}

/// Mutations go on from sound embedded traces to sound ones often enough, and
/// from one form to the other. The engine's own change is one byte here.
#[test]
fn mutations_leave_sound_messages() {
    let (mut sound, mut turned) = ([0; 2], 0);
    for seed in 0..4000 {
        let mut random = Random::new(seed);
        let layout = FORMS[(seed % 2) as usize];
        let case = sound_trace(&mut random, layout).lent;
        let input = Input::new(&case.buffer[..case.length], layout);
        let place = random.number() as usize;
        let mutated = mutate(&input.bytes(), &mut random, &mut |bytes| {
            let mut changed = bytes.to_vec();
            if let Some(byte) = changed.get_mut(place % bytes.len().max(1)) {
                *byte ^= 1;
            }
            changed
        });
        let after = Input::parse(&mutated);
        let checked = decoder::check(&after.message, after.message.len(), after.layout());
        sound[usize::from(layout.form == Form::Embedded)] += usize::from(checked.is_ok());
        turned += usize::from(after.layout() != layout);
    }
    println!("sound {sound:?}, turned {turned}");
    assert!(sound[0] > 1200 && sound[1] > 1200, "{sound:?}");
    assert!(turned > 200, "{turned}");
}
