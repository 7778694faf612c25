//! The table of rows: what is done, how long each side takes, and whether the target is met.
use crate::measure::{Time, Work, interleaved};

/// The work of one side of a row, to be done so many times and not measured: for who counts its instructions.
pub struct Counted {
    pub row: String,
    pub ours: bool,
    pub times: u32,
}

pub struct Table {
    rows: usize,
    short: usize,
    counted: Option<Counted>,
}

fn nanoseconds(time: f64) -> String {
    match time {
        ..1e3 => format!("{time:.1} ns"),
        ..1e6 => format!("{:.1} µs", time / 1e3),
        _ => format!("{:.2} ms", time / 1e6),
    }
}

fn shown(time: Time) -> String {
    format!("{} ({})", nanoseconds(time.smallest), nanoseconds(time.median))
}

impl Table {
    /// A table that prints nothing and does the works of one row.
    pub fn counting(counted: Counted) -> Self {
        Table { rows: 0, short: 0, counted: Some(counted) }
    }

    pub fn new() -> Self {
        println!("| work | the Rust: smallest (median) | Mescjadro: smallest (median) | Rust / Mescjadro | target | |");
        println!("|---|---|---|---|---|---|");
        Table { rows: 0, short: 0, counted: None }
    }

    /// A row with times that were taken already; a target is how many times as fast as the Rust the library is to be.
    pub fn row(&mut self, what: &str, theirs: Time, ours: Time, target: Option<f64>) {
        let ratio = theirs.smallest / ours.smallest;
        let short = target.is_some_and(|target| ratio < target);
        self.rows += 1;
        self.short += short as usize;
        let wanted = target.map_or("stated".into(), |target| format!("{target}"));
        let verdict = if short { "short" } else { "" };
        println!("| {what} | {} | {} | {ratio:.2} | {wanted} | {verdict} |", shown(theirs), shown(ours));
    }

    /// A row of two works, each of which does something `count` times.
    pub fn both<'a>(
        &mut self,
        what: &str,
        count: usize,
        target: Option<f64>,
        mut theirs: Work<'a>,
        mut ours: Work<'a>,
    ) {
        if let Some(counted) = &self.counted {
            if what.starts_with(&counted.row) {
                let work = if counted.ours { &mut ours } else { &mut theirs };
                (0..counted.times).for_each(|_| work());
                println!("{count}");
            }
            return;
        }
        let times = interleaved(&mut [theirs, ours]);
        self.row(what, times[0].each(count as f64), times[1].each(count as f64), target);
    }

    /// A row of what only the library has.
    pub fn ours(&mut self, what: &str, count: usize, ours: Work) {
        if self.counted.is_some() {
            return;
        }
        let time = interleaved(&mut [ours])[0].each(count as f64);
        self.rows += 1;
        println!("| {what} | | {} | | stated | |", shown(time));
    }

    /// A row that holds two of the library's own times together.
    pub fn flat(&mut self, what: &str, few: Time, many: Time, most: f64) {
        let ratio = many.smallest / few.smallest;
        self.rows += 1;
        self.short += (ratio > most) as usize;
        let verdict = if ratio > most { "short" } else { "" };
        println!("| {what} | | {} and {} | {ratio:.2} | at most {most} | {verdict} |", shown(few), shown(many));
    }

    pub fn end(&self) {
        println!();
        println!("rows {}, short {}", self.rows, self.short);
    }
}
