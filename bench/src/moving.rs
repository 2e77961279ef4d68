//! What it costs to move user data back by a group: an append with user data,
//! and the same without.

use crate::agree;
use crate::inputs::Input;
use crate::measure::Row;
use crate::stage::Stage;
use crate::table::nanoseconds;
use crate::turns::Turns;

/// Library, Rust, and plain Rust that does nothing but the append.
pub fn rows(embedded: &[Input; 2]) -> Vec<Row<'static>> {
    let row = |input: &Input| {
        agree::activities(input, true);
        let turns = Turns::on(input);
        let mut contenders = turns.activity(true);
        contenders.push(turns.contender(Stage::by_hand));
        Row::new("append", input.name, contenders)
    };
    embedded.iter().map(row).collect()
}

/// What else is done is done in both rows, so that the move is left.
pub fn print(rows: &[Row]) {
    println!("| activity, appended and reported | ns library | ns Rust | ns append by hand |");
    println!("|---|---:|---:|---:|");
    rows.iter().for_each(|row| line(row.input, &row.best));
    if let [without, with] = rows {
        let pairs = with.best.iter().zip(&without.best);
        let moves: Vec<f64> = pairs.map(|(with, without)| with - without).collect();
        line("the move: the difference", &moves);
    }
}

fn line(name: &str, times: &[f64]) {
    let columns: Vec<String> = times.iter().map(|time| nanoseconds(*time)).collect();
    println!("| {name} | {} |", columns.join(" | "));
}
