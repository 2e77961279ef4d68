//! Changes that keep structures whole. The engine's own changes seldom leave a
//! message sound, and what lies behind a sound message would be met too late.

use crate::embedded::{change_header, change_user_data, on_part, turn};
use crate::layout::{Input, CHOICES};
use crate::mend::{mend, mend_group};
use crate::structure::{put_word, raise};
use crate::tables::VALUES;
use decoder::generate::{
    chain, damage, lent_group, other_layout, sound_group, tree, values, Piece, Random, NAMES,
};
use decoder::sample::{IBM, MADE_UP};
use decoder::{Form, Layout, Row, Sheet, TRACE_ROUTE_GROUP};

/// The engine's own change of bytes.
pub type Engine<'a> = &'a mut dyn FnMut(&[u8]) -> Vec<u8>;

/// The input with one change, in the message, the group or a choice.
pub fn mutate(bytes: &[u8], random: &mut Random, engine: Engine) -> Vec<u8> {
    let mut input = Input::parse(bytes);
    let layout = input.layout();
    match random.below(14) {
        0..=2 => return engine_alone(bytes, random, engine),
        3 => {
            input.message = engine(&input.message);
            mend(&mut input.message, layout);
        }
        4 => {
            input.group = engine(&input.group);
            mend_group(&mut input.group);
        }
        5 | 6 => choose(&mut input.choices, random),
        7 => damage(random, layout, &mut input.message),
        8 => input.group = lent_group(random, &Sheet::new(MADE_UP)),
        9 => {
            // Now and then the message stays as it was, and is read wrongly.
            if random.chance(80) {
                turn(&mut input.message, layout, random);
            }
            input = input.in_layout(other_layout(layout));
        }
        10 | 11 if layout.form == Form::Embedded => around(&mut input.message, random),
        _ => {
            mend(&mut input.message, layout);
            on_part(&mut input.message, layout, |part| edit(part, random));
        }
    }
    input.bytes()
}

/// A change that is the engine's alone. Half of the embedded messages get a sound
/// embedded header again: few changes of bytes leave StrucLength where the part
/// ends, and all the others would be refused for it.
fn engine_alone(bytes: &[u8], random: &mut Random, engine: Engine) -> Vec<u8> {
    let changed = engine(bytes);
    let mut input = Input::parse(&changed);
    let layout = input.layout();
    if layout.form == Form::Plain || random.chance(50) {
        return changed;
    }
    on_part(&mut input.message, layout, |_| ());
    input.bytes()
}

/// What stands around the part of an embedded message.
fn around(message: &mut Vec<u8>, random: &mut Random) {
    if random.chance(50) {
        change_header(message, random);
    } else {
        let alike = fresh(random, 1);
        change_user_data(message, alike, random);
    }
}

/// One choice, mostly to a small number; the first byte, which says the form,
/// stays.
fn choose(choices: &mut [u8; CHOICES], random: &mut Random) {
    let place = random.between(1, CHOICES - 1);
    choices[place] = if random.chance(50) {
        random.below(24) as u8
    } else {
        random.word() as u8
    };
}

/// All structures of a PCF part that is sound.
fn rows_of(part: &[u8]) -> Vec<Row> {
    decoder::rows(part, part.len(), Layout::PLAIN).unwrap_or_default()
}

/// Edits a sound PCF part by one structure.
fn edit(message: &mut Vec<u8>, random: &mut Random) {
    if random.chance(60) {
        one_trace_route(message, random);
    }
    let rows = rows_of(message);
    let index = random.below(rows.len() + 1);
    let Some(row) = rows.get(index) else {
        let end = message.len();
        return insert(message, end, 32, &fresh(random, 1));
    };
    let (count, whole) = (
        count_place(&rows, index),
        whole(&rows, index, message.len()),
    );
    match random.below(7) {
        0 => {
            message.drain(whole);
            raise(message, count, u32::MAX);
        }
        1 => {
            let twin = message[whole].to_vec();
            insert(message, row.place, count, &twin);
        }
        2 => wrap(message, row.place, random),
        3 | 4 => insert(message, row.place, count, &fresh(random, row.depth)),
        _ => retouch(message, row, random),
    }
}

/// Leaves the message one TraceRoute group, or gives it one.
fn one_trace_route(message: &mut Vec<u8>, random: &mut Random) {
    let rows = rows_of(message);
    let top = |row: &&Row| row.depth == 1 && row.is_group() && row.parameter == TRACE_ROUTE_GROUP;
    let mut groups = rows.iter().filter(top);
    if groups.next().is_none() {
        let end = message.len();
        insert(message, end, 32, &trace_route(random));
    }
    for twin in groups {
        put_word(message, twin.place + 8, TRACE_ROUTE_GROUP + 1);
    }
}

/// Where the count stands that this structure is counted in.
fn count_place(rows: &[Row], index: usize) -> usize {
    let depth = rows[index].depth;
    let outer = rows[..index].iter().rev().find(|row| row.depth < depth);
    outer.map_or(32, |group| group.place + 12)
}

/// The structure with all that is in it.
fn whole(rows: &[Row], index: usize, end: usize) -> std::ops::Range<usize> {
    let row = rows[index];
    let next = rows[index + 1..]
        .iter()
        .find(|next| next.depth <= row.depth);
    row.place..next.map_or(end, |next| next.place)
}

fn insert(message: &mut Vec<u8>, place: usize, count: usize, structure: &[u8]) {
    message.splice(place..place, structure.iter().copied());
    raise(message, count, 1);
}

/// Puts a structure into a group of its own.
fn wrap(message: &mut Vec<u8>, place: usize, random: &mut Random) {
    let parameter = random.pick(&[8003, 8005, 1]);
    let group = [20, 16, parameter, 1].map(u32::to_be_bytes);
    message.splice(place..place, group.concat());
}

/// A new structure: a small tree, groups in groups, an Activity group or a
/// TraceRoute group.
fn fresh(random: &mut Random, depth: u32) -> Vec<u8> {
    match random.below(5) {
        0 => sound_group(random, &Sheet::new(MADE_UP)),
        1 => trace_route(random),
        2 if depth <= 8 => chain(random, &NAMES, depth, 8).bytes,
        _ => tree(random, &NAMES, depth, 200).bytes,
    }
}

fn trace_route(random: &mut Random) -> Vec<u8> {
    let values = values(random).to_array();
    let members = [0, 1, 2, 3, 4, 5, 6, 7].map(|at| Piece::integer(MADE_UP[at], values[at]));
    Piece::group(TRACE_ROUTE_GROUP, &members).bytes
}

/// Another parameter, or another value.
fn retouch(message: &mut [u8], row: &Row, random: &mut Random) {
    let attribute = random.below(8);
    if random.chance(30) {
        let known = [MADE_UP[attribute], IBM[attribute], 8003, 8005, 3001, 3002];
        put_word(message, row.place + 8, random.pick(&known));
    } else if row.kind == 3 {
        let own = MADE_UP.iter().position(|&known| known == row.parameter);
        let values = VALUES[own.unwrap_or(attribute)];
        put_word(message, row.place + 12, random.pick(&values));
    }
}
