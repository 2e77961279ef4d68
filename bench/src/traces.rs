//! Read, compose, forward and names.

use crate::agree;
use crate::ffi::{self, Answer, Around, Part};
use crate::inputs::{options, Input, Inputs, APPLICATION, EMBEDDING, SHEET, VALUES};
use crate::measure::{contender, Contender, Row};
use decoder::{Embedding, Layout, Sheet, Values};
use std::hint::black_box;

pub fn rows(inputs: &Inputs) -> Vec<Row<'_>> {
    let row = |entry, input: &Input, contenders| Row::new(entry, input.name, contenders);
    let reads = inputs.of_both_forms().map(|x| row("read", x, read(x)));
    let composing = [
        Row::new("compose", "180 bytes", compose()),
        Row::new("compose", "embedded, 212 bytes", compose_embedded()),
    ];
    let forwards = inputs.plain.iter().map(|x| row("forward", x, forward(x)));
    let mut rows: Vec<Row> = reads.chain(composing).chain(forwards).collect();
    rows.extend(inputs.plain.iter().flat_map(names));
    rows
}

fn read(input: &Input) -> Vec<Contender<'_>> {
    let (message, length, layout, options) = input.lent();
    let sheet = Sheet::new(SHEET);
    let mut contents = agree::read(input);
    vec![
        contender(move || {
            let message = black_box(message);
            let answer = ffi::read(message, length, &SHEET, options, &mut contents);
            black_box(&contents);
            answer
        }),
        contender(move || decoder::read(black_box(message), length, layout, &sheet)),
    ]
}

fn compose<'a>() -> Vec<Contender<'a>> {
    let (sheet, values) = (Sheet::new(SHEET), Values::from_array(VALUES));
    let (layout, none) = (Layout::PLAIN, Embedding::NONE);
    let (mut ours, mut theirs) = ([0; 180], [0; 180]);
    let answer = ffi::compose_plain(&SHEET, &VALUES, &mut ours);
    assert_eq!(answer, Answer::given(180));
    vec![
        contender(move || {
            let (sheet, values) = (black_box(&SHEET), black_box(&VALUES));
            let answer = ffi::compose_plain(sheet, values, &mut ours);
            black_box(&ours);
            answer
        }),
        contender(move || {
            let (sheet, values) = (black_box(&sheet), black_box(&values));
            let answer = decoder::compose(layout, sheet, values, &none, &[], &mut theirs);
            black_box(&theirs);
            answer
        }),
    ]
}

/// Without user data.
fn compose_embedded<'a>() -> Vec<Contender<'a>> {
    let (sheet, values) = (Sheet::new(SHEET), Values::from_array(VALUES));
    let (layout, embedding) = (Layout::EMBEDDED, EMBEDDING);
    let around = Around {
        fields: [
            embedding.encoding,
            embedding.coded_char_set_id,
            embedding.flags,
        ],
        format: embedding.format,
        user: &[],
    };
    let (mut ours, mut theirs) = ([0; 212], [0; 212]);
    let answer = ffi::compose(&SHEET, &VALUES, options(layout), &around, &mut ours);
    assert_eq!(answer, Answer::given(212));
    vec![
        contender(move || {
            let (sheet, values) = (black_box(&SHEET), black_box(&VALUES));
            let answer = ffi::compose(sheet, values, options(layout), &around, &mut ours);
            black_box(&ours);
            answer
        }),
        contender(move || {
            let (sheet, values) = (black_box(&sheet), black_box(&values));
            let answer = decoder::compose(layout, sheet, values, &embedding, &[], &mut theirs);
            black_box(&theirs);
            answer
        }),
    ]
}

/// To a manager that doesn't support trace-route messaging.
fn forward(input: &Input) -> Vec<Contender<'_>> {
    let (message, length, layout, options) = input.lent();
    let sheet = Sheet::new(SHEET);
    assert!(!ffi::forward(message, length, &SHEET, options).is_refused());
    vec![
        contender(move || ffi::forward(black_box(message), length, &SHEET, options)),
        contender(move || decoder::forwarding(black_box(message), length, layout, &sheet, false)),
    ]
}

/// The name in the first and in the last group, where there is any.
fn names(input: &Input) -> Vec<Row<'_>> {
    let (message, length, layout, _) = input.lent();
    let sheet = Sheet::new(SHEET);
    let groups = (0..)
        .take_while(|n| decoder::activity_group(message, length, layout, &sheet, *n).is_some())
        .count();
    if groups == 0 {
        return Vec::new();
    }
    vec![
        Row::new("name, first group", input.name, name(input, 0)),
        Row::new("name, last group", input.name, name(input, groups - 1)),
    ]
}

fn name(input: &Input, n: usize) -> Vec<Contender<'_>> {
    let (message, length, layout, options) = input.lent();
    let sheet = Sheet::new(SHEET);
    let mut part = Part {
        place: 0,
        length: 0,
    };
    let found = ffi::named_string(message, length, &SHEET, options, n, APPLICATION, &mut part);
    assert!(found && part.length > 0);
    vec![
        contender(move || {
            let message = black_box(message);
            let found =
                ffi::named_string(message, length, &SHEET, options, n, APPLICATION, &mut part);
            black_box(&part);
            found
        }),
        contender(move || {
            decoder::named_string(black_box(message), length, layout, &sheet, n, APPLICATION)
        }),
    ]
}
