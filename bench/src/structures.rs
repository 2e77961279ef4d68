//! Check, tally and list.

use crate::ffi::{self, LISTING_BYTES};
use crate::inputs::{Input, Inputs};
use crate::measure::{contender, Contender, Row};
use crate::plain;
use decoder::Layout;
use std::hint::black_box;

pub fn rows(inputs: &Inputs) -> Vec<Row<'_>> {
    let row = |entry, input: &Input, contenders| Row::new(entry, input.name, contenders);
    let checks = inputs.of_both_forms().map(|x| row("check", x, check(x)));
    let tallies = inputs.plain.iter().map(|x| row("tally", x, tally(x)));
    let lists = inputs.plain.iter().map(|x| row("list", x, list(x)));
    checks.chain(tallies).chain(lists).collect()
}

/// Library, Rust, and of plain messages C, which knows no others.
pub fn check(input: &Input) -> Vec<Contender<'_>> {
    let (message, length, layout, options) = input.lent();
    let mut contenders = vec![
        contender(move || ffi::check(black_box(message), length, options)),
        contender(move || decoder::check(black_box(message), length, layout)),
    ];
    if layout == Layout::PLAIN {
        contenders.push(contender(move || plain::check(black_box(message), length)));
    }
    contenders
}

fn tally(input: &Input) -> Vec<Contender<'_>> {
    let (message, length, layout, options) = input.lent();
    let mut counts = [0; 27];
    vec![
        contender(move || {
            let answer = ffi::tally(black_box(message), length, options, &mut counts);
            black_box(&counts);
            answer
        }),
        contender(move || decoder::tally(black_box(message), length, layout)),
    ]
}

fn list(input: &Input) -> Vec<Contender<'_>> {
    let (message, length, layout, options) = input.lent();
    let mut text = Box::new([0; LISTING_BYTES]);
    vec![
        contender(move || {
            let answer = ffi::list(black_box(message), length, options, &mut text);
            black_box(&text);
            answer
        }),
        contender(move || decoder::list(black_box(message), length, layout)),
    ]
}
