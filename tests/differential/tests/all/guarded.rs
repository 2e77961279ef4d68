//! No function reads or writes outside of what it is lent. A fault here ends
//! the program without a word: `SEED` and `CASES` then find the case.

use crate::run::{run, Wanted};
use crate::spare::spare;
use crate::structures::compare;
use decoder::generate::{any_layout, any_message, any_place};
use differential::compare::given::Given;
use differential::compare::structures::compare_step;
use differential::compare::text::Text;
use differential::ffi::{self, LISTING_BYTES};
use differential::guard::{Guarded, EDGES};

#[test]
fn generated_messages() {
    let (mut area, mut text) = (Guarded::new(), Text::new());
    let wanted = Wanted::default();
    run("guarded messages", 20_000, wanted, |random, spread| {
        let layout = any_layout(random);
        let message = any_message(random, layout);
        let (place, depth) = any_place(random, &message);
        let given = Given::of(&message, spare(random));
        // The message alone too, so that its end is the buffer's.
        let exact = message.buffer.get(..message.length).unwrap_or_default();
        for edge in EDGES {
            for (bytes, length) in [(&message.buffer[..], given.length), (exact, exact.len())] {
                let lent = Given {
                    buffer: area.lend(bytes, edge),
                    length,
                    ..given
                };
                compare(lent, &mut text, spread);
                compare_step(lent, place, depth);
            }
        }
    });
}

#[test]
fn generated_texts() {
    let mut area = Guarded::new();
    let before = vec![0; LISTING_BYTES];
    let wanted = Wanted::default();
    run("guarded texts", 2_000, wanted, |random, spread| {
        let layout = any_layout(random);
        let message = any_message(random, layout);
        let given = Given::of(&message, spare(random));
        for edge in EDGES {
            let text = area.lend(&before, edge).try_into().expect("as many bytes");
            let answer = ffi::list(given.buffer, given.length, given.options(), text);
            spread.of(given.layout).answer("list", answer);
        }
    });
}
