//! Times are worth something only where the answers agree.

use crate::ffi::{self, Answer, Contents};
use crate::inputs::{options, Input, SHEET};
use crate::plain;
use crate::stage::Stage;
use decoder::generate::{any_message, Random};
use decoder::{Layout, Sheet};

const MESSAGES: u64 = 5_000;

/// Compares the checks on generated messages of both forms, of which the C
/// knows the plain one. The tests beside this package compare library and
/// decoder in full; only the C is new here.
pub fn checks() {
    for seed in 0..MESSAGES {
        for layout in [Layout::PLAIN, Layout::EMBEDDED] {
            let lent = any_message(&mut Random::new(seed), layout);
            let (buffer, length, layout) = (&lent.buffer, lent.length, lent.layout);
            let wanted = match decoder::check(buffer, length, layout) {
                Ok(structures) => Answer::given(structures as u64),
                Err(refusal) => Answer::refused(refusal.number, refusal.place as u64),
            };
            let answer = ffi::check(buffer, length, options(layout));
            assert_eq!(answer, wanted, "library, seed {seed}");
            if layout == Layout::PLAIN {
                assert_eq!(plain::check(buffer, length), wanted, "C, seed {seed}");
            }
        }
    }
}

/// Compares all that is read of the trace, and gives it. A refusal might well
/// be faster.
pub fn read(input: &Input) -> Contents {
    let (message, length, layout, options) = input.lent();
    let theirs = decoder::read(message, length, layout, &Sheet::new(SHEET)).expect("a trace");
    let embedding = theirs.embedding;
    let wanted = Contents {
        values: theirs.values.to_array(),
        fields: [
            embedding.encoding,
            embedding.coded_char_set_id,
            embedding.flags,
        ],
        format: embedding.format,
    };
    let mut contents = Contents {
        values: [0; 8],
        fields: [0; 3],
        format: [0; 8],
    };
    let answer = ffi::read(message, length, &SHEET, options, &mut contents);
    assert_eq!(answer, Answer::given(theirs.user_data_place as u64));
    assert_eq!(contents, wanted);
    contents
}

/// Compares what an activity leaves in all bytes; the second time it starts
/// from what was put back for it.
pub fn activities(input: &Input, recorded: bool) {
    let [mut ours, mut theirs, mut by_hand] = [(); 3].map(|()| Stage::new(input));
    for _ in 0..2 {
        for stage in [&mut ours, &mut theirs, &mut by_hand] {
            stage.again();
        }
        let (answer, done) = ours.library(recorded);
        let applied = theirs.decoder(recorded).expect("an accepted activity");
        // A row's name says what is done.
        assert_eq!(applied.appended, recorded);
        assert_eq!(applied.report_length > 0, recorded);
        assert_eq!(answer, Answer::given(applied.message_length as u64));
        assert_eq!(done.appended, applied.appended.into());
        assert_eq!(done.report_length, applied.report_length as u64);
        // Not with `assert_eq`, which would print them.
        assert!(ours.buffer == theirs.buffer && ours.report == theirs.report);
        if recorded && input.layout == Layout::EMBEDDED {
            by_hand.by_hand();
            assert!(by_hand.buffer == ours.buffer);
        }
    }
}
