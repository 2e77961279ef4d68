//! Tables in Markdown.

use crate::measure::Row;

pub fn print(rows: &[Row]) {
    println!("| entry | input | ns library | ns Rust | library / Rust | ns C | library / C |");
    println!("|---|---|---:|---:|---:|---:|---:|");
    rows.iter().for_each(line);
}

/// The library's times, one row to a line, columns apart by tabs.
pub fn times(rows: &[Row]) {
    for row in rows {
        println!("{}\t{}\t{}", row.entry, row.input, row.best[0]);
    }
}

fn line(row: &Row) {
    let (library, rust) = (row.best[0], row.best[1]);
    let (c, to_c) = match row.best.get(2) {
        Some(c) => (nanoseconds(*c), ratio(library, *c)),
        None => (String::new(), String::new()),
    };
    println!(
        "| {} | {} | {} | {} | {} | {c} | {to_c} |",
        row.entry,
        row.input,
        nanoseconds(library),
        nanoseconds(rust),
        ratio(library, rust)
    );
}

fn ratio(one: f64, other: f64) -> String {
    format!("{:.2}", one / other)
}

/// More digits than these are noise.
pub fn nanoseconds(time: f64) -> String {
    if time < 100.0 {
        format!("{time:.1}")
    } else {
        format!("{time:.0}")
    }
}
