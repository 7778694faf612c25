//! How fast the library is beside the Rust: `compare/bench`. Same process, same inputs, taken in turn.
mod commands;
mod drives;
mod files;
mod machine;
mod measure;
mod stacks;
mod table;

use table::{Counted, Table};

/// `bench ours|theirs TIMES ROW`, for compare/counts.
fn count(words: &[String]) {
    let [side, times, row] = words else { panic!("bench ours|theirs TIMES ROW") };
    let (ours, times) = (side == "ours", times.parse().expect("a number of times"));
    let mut table = Table::counting(Counted { row: row.clone(), ours, times });
    commands::rows(&mut table);
    machine::rows(&mut table);
}

fn main() {
    let words: Vec<String> = std::env::args().skip(1).collect();
    if !words.is_empty() {
        return count(&words);
    }
    let mut table = Table::new();
    files::reading(&mut table);
    files::writing(&mut table);
    commands::rows(&mut table);
    machine::rows(&mut table);
    drives::transitions(&mut table);
    drives::calls(&mut table);
    drives::check(&mut table);
    stacks::table();
    table.end();
}
