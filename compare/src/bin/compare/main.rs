//! Holds the library and the Rust side by side: `compare [--first] [SEED [COUNT]]`; with `--first` it ends at the first difference.
mod check;
mod checks;
mod commands;
mod drives;
mod files;
mod limits;
mod machine;
mod sides;
mod small;
mod writers;

use check::Tally;
use mescjadro_compare::chance::Chance;
use std::time::Instant;

const SEED: u64 = 20_261_115;
const COUNT: u64 = 60_000;

fn part(tally: &mut Tally, name: &'static str, compare: impl FnOnce(&mut Tally)) {
    let (began, cases, answers) = (Instant::now(), tally.cases, tally.answers);
    tally.begin(name);
    compare(tally);
    let (cases, answers) = (tally.cases - cases, tally.answers - answers);
    println!("{name}: {cases} cases, {answers} answers, {:.1} s", began.elapsed().as_secs_f32());
}

fn main() {
    let mut arguments: Vec<String> = std::env::args().skip(1).collect();
    let first_only = arguments.first().is_some_and(|first| first == "--first");
    arguments.drain(..first_only as usize);
    let number = |at: usize, otherwise| arguments.get(at).map_or(otherwise, |n| n.parse().expect("a number"));
    let (seed, count) = (number(0, SEED), number(1, COUNT));
    // What a panic says stands in the difference.
    std::panic::set_hook(Box::new(|_| {}));
    let mut tally = Tally::new(seed, first_only);
    let mut c = Chance(seed);
    part(&mut tally, "commands", |tally| commands::compare(tally, &mut c, count));
    part(&mut tally, "files", |tally| files::compare(tally, &mut c, count));
    part(&mut tally, "writers", |tally| writers::compare(tally, &mut c, count));
    part(&mut tally, "machine", |tally| machine::compare(tally, &mut c, 4 * count));
    part(&mut tally, "drives", |tally| drives::compare(tally, &mut c, 4 * count));
    part(&mut tally, "disc checks", |tally| checks::compare(tally, &mut c, count));
    part(&mut tally, "limits", limits::compare);
    part(&mut tally, "short inputs", |tally| small::compare(tally, &mut c));
    check::print_seen();
    tally.finish()
}
