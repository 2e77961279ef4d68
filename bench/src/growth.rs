//! How the check's cost grows with the bytes.

use crate::inputs::{flat, Input};
use crate::measure::Row;
use crate::structures::check;
use crate::table::nanoseconds;

const KILOBYTES: [usize; 4] = [1, 4, 16, 64];

pub fn inputs() -> [Input; 4] {
    let names = ["1 KB", "4 KB", "16 KB", "64 KB"];
    let mut index = 0;
    names.map(|name| {
        index += 1;
        Input::plain(name, flat(1024 * KILOBYTES[index - 1]))
    })
}

pub fn rows(inputs: &[Input; 4]) -> Vec<Row<'_>> {
    inputs
        .iter()
        .map(|x| Row::new("check", x.name, check(x)))
        .collect()
}

pub fn print(rows: &[Row]) {
    println!("| check, flat | ns library | ns Rust | ns C | library, ns for 1 KB |");
    println!("|---|---:|---:|---:|---:|");
    for (row, kilobytes) in rows.iter().zip(KILOBYTES) {
        println!(
            "| {} | {} | {} | {} | {:.0} |",
            row.input,
            nanoseconds(row.best[0]),
            nanoseconds(row.best[1]),
            nanoseconds(row.best[2]),
            row.best[0] / kilobytes as f64
        );
    }
}
