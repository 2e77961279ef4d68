//! What a refusal's number stands for: words and IBM's feedback code.

use crate::run::{run, Wanted};
use decoder::generate::Random;
use differential::ffi::{self, WORDS_BYTES};

const UNKNOWN: &str = "no refusal has this number";

/// By number, and the feedback code.
const REFUSALS: [(&str, u32); 19] = [
    ("accepted", 0),
    (
        "fewer than 36 bytes (embedded: 68), or more than 65,536 or than the buffer has",
        0,
    ),
    ("the header is not sound", 0),
    (
        "a structure is not sound: its type, length or count, or it goes past the end",
        0,
    ),
    ("a group is deeper than 8", 0),
    ("bytes are left over behind the last structure", 0),
    ("the header is not that of a trace-route message", 0),
    ("there is no TraceRoute group, or more than one", 0),
    (
        "an attribute is missing, there twice, no integer or out of range",
        0,
    ),
    ("the Activity group is not sound", 0),
    (
        "the limit of activities is reached (MQFB_MAX_ACTIVITIES)",
        282,
    ),
    ("the counter can't be raised any more", 0),
    (
        "there is no room: the message would be longer than the buffer or than 65,536 bytes",
        0,
    ),
    ("there is no room for the report", 0),
    (
        "a delivery option is not supported (MQFB_UNSUPPORTED_DELIVERY)",
        286,
    ),
    (
        "a forwarding option is not supported (MQFB_UNSUPPORTED_FORWARDING)",
        285,
    ),
    (
        "it may not go to this queue manager (MQFB_NOT_FORWARDED)",
        283,
    ),
    ("the sheet of identifiers is not sound", 0),
    (
        "the embedded header is not sound: its identifier, version or length",
        0,
    ),
];

/// The words, the zero byte, and behind them what was there before.
fn compare(number: u32, before: &[u8; WORDS_BYTES], lent: &mut [u8; WORDS_BYTES]) {
    let known = REFUSALS.get(number as usize);
    let (words, feedback) = known.copied().unwrap_or((UNKNOWN, 0));
    let mut wanted = *before;
    wanted[..words.len()].copy_from_slice(words.as_bytes());
    wanted[words.len()] = 0;
    assert_eq!(ffi::words(number, lent), words.len(), "words of {number}");
    assert_eq!(*lent, wanted, "text of {number}");
    assert_eq!(ffi::feedback(number), feedback, "feedback of {number}");
}

fn some_number(random: &mut Random) -> u32 {
    if random.chance(80) {
        random.below(40) as u32
    } else {
        random.word()
    }
}

#[test]
fn generated_numbers() {
    let wanted = Wanted::default();
    run("numbers of refusals", 20_000, wanted, |random, _| {
        let number = some_number(random);
        let before = random.bytes(WORDS_BYTES).try_into().expect("as many bytes");
        compare(number, &before, &mut before.clone());
    });
    compare(u32::MAX, &[1; WORDS_BYTES], &mut [1; WORDS_BYTES]);
}

/// The text lies at either edge of memory that may be written.
#[cfg(target_os = "linux")]
#[test]
fn guarded_texts() {
    use differential::guard::{Guarded, EDGES};
    let mut area = Guarded::new();
    let before = [7; WORDS_BYTES];
    for edge in EDGES {
        for number in 0..40 {
            let text = area.lend(&before, edge).try_into().expect("as many bytes");
            compare(number, &before, text);
        }
    }
}
