//! Comparison of whole buffers.

use std::hint::black_box;

/// Demands equal buffers and names the first place where they part.
#[track_caller]
pub fn same(name: &str, ours: &[u8], wanted: &[u8]) {
    // What C was lent for reading is compared too, and the compiler must not
    // conclude that it cannot have changed.
    let ours = black_box(ours);
    if ours == wanted {
        return;
    }
    let parted = ours
        .iter()
        .zip(wanted)
        .position(|(one, other)| one != other);
    let place = parted.unwrap_or(ours.len().min(wanted.len()));
    panic!(
        "{name} differs at {place}: {:02x?} instead of {:02x?} (sizes {} and {})",
        ours.get(place),
        wanted.get(place),
        ours.len(),
        wanted.len()
    );
}
