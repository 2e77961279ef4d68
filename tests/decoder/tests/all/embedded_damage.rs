//! Every damage of an embedded message that the generators promise occurs, and
//! what the sender's fields are plays no part.

use crate::helpers::*;
use decoder::generate::*;
use decoder::*;
use std::collections::BTreeMap;

/// What one damage did, read off the bytes before and after.
fn kind(before: &[u8], after: &[u8], end: usize) -> String {
    if before.starts_with(after) && before.len() > after.len() {
        return match after.len() {
            67 | 68 => format!("cut to {}", after.len()),
            left if left >= end => "cut in the user data".into(),
            _ => "cut in the part".into(),
        };
    }
    if before.len() != after.len() {
        return "other size".into();
    }
    let changed: Vec<usize> = (0..before.len())
        .filter(|&at| before[at] != after[at])
        .collect();
    let word = |at: &usize| at / 4 * 4;
    match (changed.first().map(word), changed.last().map(word)) {
        (Some(0), Some(0)) if changed.len() == 1 => format!("identifier {}", changed[0]),
        (Some(0), Some(0)) => "identifier".into(),
        (Some(4), Some(4)) => format!("Version {}", get(after, 4).min(3)),
        (Some(8), Some(8)) => struc_length(end, after),
        (Some(place @ 12..32), Some(last @ 12..32)) if place == last => format!("field {place}"),
        (Some(first), _) if first >= end => "user data".into(),
        _ => "other".into(),
    }
}

fn struc_length(old: usize, after: &[u8]) -> String {
    let (new, length) = (get(after, 8) as usize, after.len());
    let by = new as i64 - old as i64;
    match by {
        -4 | -2 | -1 | 1 | 2 | 4 => format!("StrucLength by {by}"),
        _ if new == 64 || new == 68 => format!("StrucLength {new}"),
        _ if new == length => "StrucLength length".into(),
        _ if new == length + 4 => "StrucLength length + 4".into(),
        _ if new >= 1 << 31 => "StrucLength high".into(),
        _ if new > length => "StrucLength beyond".into(),
        _ => "StrucLength".into(),
    }
}

const PROMISED: [&str; 29] = [
    "identifier 0",
    "identifier 1",
    "identifier 2",
    "identifier 3",
    "identifier",
    "Version 0",
    "Version 2",
    "Version 3",
    "StrucLength by -4",
    "StrucLength by -2",
    "StrucLength by -1",
    "StrucLength by 1",
    "StrucLength by 2",
    "StrucLength by 4",
    "StrucLength 64",
    "StrucLength 68",
    "StrucLength length",
    "StrucLength length + 4",
    "StrucLength beyond",
    "StrucLength high",
    "field 12",
    "field 16",
    "field 20",
    "field 24",
    "field 28",
    "cut to 67",
    "cut to 68",
    "cut in the user data",
    "cut in the part",
];

#[test]
fn every_promised_damage_occurs() {
    let mut random = Random::new(71);
    let mut kinds: BTreeMap<String, usize> = BTreeMap::new();
    for _ in 0..12_000 {
        let message = sound_message(&mut random, EMBEDDED);
        if message.bytes.len() > 4_000 {
            continue;
        }
        let mut after = message.bytes.clone();
        damage(&mut random, EMBEDDED, &mut after);
        let kind = kind(&message.bytes, &after, message.user_data_place);
        if kind.starts_with("field") || kind == "user data" {
            assert_eq!(check_embedded(&after), Ok(message.structures));
        }
        *kinds.entry(kind).or_default() += 1;
    }
    println!("{kinds:#?}");
    for kind in PROMISED {
        let count = kinds.get(kind).copied().unwrap_or_default();
        assert!(count >= 10, "{kind}: {count}");
    }
}

#[test]
fn senders_fields_and_user_data_sway_nothing() {
    let mut random = Random::new(72);
    for _ in 0..2_000 {
        let case = any_trace(&mut random, EMBEDDED);
        let (length, layout, sheet) = (case.lent.length, case.lent.layout, &case.sheet);
        let Ok(end) = crate::plain::plain_end(&case.lent.buffer, length, EMBEDDED) else {
            continue;
        };
        let mut other = case.lent.buffer.clone();
        for (at, byte) in other.iter_mut().enumerate() {
            if (12..32).contains(&at) || at >= end {
                *byte = random.word() as u8;
            }
        }
        let buffer = &case.lent.buffer;
        assert_eq!(rows(buffer, length, layout), rows(&other, length, layout));
        let one = locate(buffer, length, layout, sheet);
        let two = locate(&other, length, layout, sheet);
        assert_eq!(
            one.map(|found| (found.contents.values, found.places)),
            two.map(|found| (found.contents.values, found.places))
        );
        if let (Ok(_), Ok(found)) = (one, two) {
            let fields = found.contents.embedding;
            assert_eq!(Embedding::of(&other), Some(fields));
            assert_eq!(fields.encoding.to_be_bytes(), other[12..16]);
            assert_eq!(fields.coded_char_set_id.to_be_bytes(), other[16..20]);
            assert_eq!(fields.format, other[20..28]);
            assert_eq!(fields.flags.to_be_bytes(), other[28..32]);
            assert_eq!(found.contents.user_data_place, end);
        }
    }
}
