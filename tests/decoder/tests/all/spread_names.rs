//! What the names in generated traces are like: data and padding on which each
//! wrong way of trimming differs.

use crate::helpers::{get, is_fill};
use crate::spread::Spread;
use decoder::generate::NEAR_MISSES;

/// Notes what a found string's data and padding are like. Both are taken from
/// the string's own fields, so that nothing depends on the decoder's trim.
pub fn found_name(spread: &mut Spread, buffer: &[u8], place: usize) {
    let [struc_length, string_length] = [16, 4].map(|back| get(buffer, place - back) as usize);
    let (data, padding) = buffer[place..][..struc_length - 20].split_at(string_length);
    let last = data.iter().rposition(|byte| !is_fill(byte));
    let (name, run) = data.split_at(last.map_or(0, |last| last + 1));
    let mut changes = run.to_vec();
    changes.dedup();
    let near = name.last().is_some_and(|last| NEAR_MISSES.contains(last));
    let behind_run = name.iter().nth_back(1).is_some_and(is_fill);
    let others = padding.iter().filter(|byte| !is_fill(byte)).count();
    for (entry, holds) in [
        ("empty", data.is_empty()),
        ("no run", run.is_empty() && !data.is_empty()),
        ("only blanks", changes == [0x20]),
        ("only zeros", changes == [0x00]),
        ("blanks, zeros", changes == [0x20, 0x00]),
        ("zeros, blanks", changes == [0x00, 0x20]),
        ("alternation", changes.len() > 2),
        ("mixture", changes.len() > 1),
        ("all fill", name.is_empty() && !data.is_empty()),
        ("mixed all fill", name.is_empty() && changes.len() > 1),
        ("zero inside", name.contains(&0x00)),
        ("blank inside", name.contains(&0x20)),
        ("either inside", name.iter().any(is_fill)),
        ("near, run", near && !run.is_empty()),
        ("run, near", near && behind_run),
        ("fill padding", !padding.is_empty() && others == 0),
        ("other padding", others > 0),
    ] {
        spread.note(entry, u8::from(holds));
    }
}

/// Every way of trimming that is wrong needs strings on which it differs.
pub fn demand_names(spread: &Spread) {
    spread.demand("empty", &[0, 1], 200);
    for (entry, least) in [
        ("empty", 60),
        ("no run", 200),
        ("only blanks", 100),
        ("only zeros", 100),
        ("blanks, zeros", 40),
        ("zeros, blanks", 40),
        ("alternation", 100),
        ("mixture", 200),
        ("all fill", 130),
        ("mixed all fill", 60),
        ("zero inside", 150),
        ("blank inside", 150),
        ("either inside", 220),
        ("near, run", 150),
        ("run, near", 120),
        ("fill padding", 300),
        ("other padding", 150),
    ] {
        spread.demand_share(entry, least);
    }
}
