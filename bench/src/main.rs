//! Measures the proved library through C beside the independent decoder's own
//! functions, for the check beside plain C, and for an append beside plain Rust
//! that does nothing else. Prints tables in Markdown.
//!
//! First `share/build library` in the repository's root, or the library's
//! folder in `GWIRANDOL_LIB`. Then `cargo run --release --offline`. With the
//! argument `times` it makes one pass and prints the library's times alone, for
//! `bench/before-and-after`, which puts two libraries side by side.

mod agree;
mod events;
#[path = "../../tests/differential/src/ffi/mod.rs"]
// The tests use more of it than is measured here.
#[allow(dead_code, unused_imports)]
mod ffi;
mod growth;
mod inputs;
mod measure;
mod moving;
mod notes;
mod plain;
mod stage;
mod structures;
mod table;
mod traces;
mod turns;

fn main() {
    agree::checks();
    if std::env::args().nth(1).as_deref() == Some("times") {
        times();
    } else {
        tables();
    }
}

fn times() {
    let inputs = inputs::all();
    let mut rows = rows(&inputs);
    measure::measure(&mut rows, 1);
    table::times(&rows);
}

fn rows(inputs: &inputs::Inputs) -> Vec<measure::Row<'_>> {
    let mut rows = structures::rows(inputs);
    rows.extend(traces::rows(inputs));
    rows.extend(events::rows(inputs));
    rows
}

fn tables() {
    let (inputs, grown) = (inputs::all(), growth::inputs());
    let mut measured = growth::rows(&grown);
    let growing = measured.len();
    measured.extend(moving::rows(&inputs.embedded));
    let apart = measured.len();
    measured.extend(rows(&inputs));
    measure::measure(&mut measured, measure::PASSES);
    table::print(&measured[apart..]);
    println!();
    growth::print(&measured[..growing]);
    println!();
    moving::print(&measured[growing..apart]);
    println!();
    notes::print();
}
