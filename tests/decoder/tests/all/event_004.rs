//! The 300-byte event of document 004.

use crate::helpers::*;
use decoder::*;

#[test]
fn listing_of_the_event() {
    let bytes = sample::event_004();
    assert_eq!(bytes.len(), 300);
    assert_eq!(listing_of_input(&bytes, PLAIN), sample::EVENT_004_LISTING);
    assert_eq!(check(&bytes, 300, PLAIN), Ok(10));
}

#[test]
fn tally_of_the_event() {
    let bytes = sample::event_004();
    let mut counts = [0; KINDS];
    counts[3] = 3;
    counts[4] = 3;
    counts[5] = 1;
    counts[6] = 1;
    counts[20] = 2;
    assert_eq!(
        tally(&bytes, 300, PLAIN),
        Tally {
            counts,
            refusal: None
        }
    );
}

#[test]
fn the_event_is_no_trace() {
    let bytes = sample::event_004();
    assert_eq!(read_all(&bytes), Err(refusal(6, 0)));
}

#[test]
fn every_cut_of_the_event_gives_1_or_3() {
    let bytes = sample::event_004();
    for length in 0..300 {
        let refused = check(&bytes, length, PLAIN).unwrap_err();
        let expected = if length < 36 { 1 } else { 3 };
        assert_eq!(refused.number, expected, "{length}");
    }
    // The last structure due is missing altogether.
    assert_eq!(check(&bytes, 276, PLAIN), Err(refusal(3, 276)));
    assert_eq!(check(&bytes, 299, PLAIN), Err(refusal(3, 276)));
}
