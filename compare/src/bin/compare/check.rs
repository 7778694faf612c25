//! Cases, what two sides answer to them, and the count.
use std::fmt::Debug;
use std::panic::{AssertUnwindSafe, catch_unwind};
use std::sync::atomic::{AtomicU64, Ordering::Relaxed};

/// Two answers that differ: `theirs` is the Rust's, or document 01's where the Rust has none.
pub struct Difference {
    what: String,
    ours: String,
    theirs: String,
}

/// How many answers agree, or the first that doesn't.
pub type Compared = Result<u64, Difference>;

pub fn same<T: PartialEq + Debug>(what: &str, ours: T, theirs: T) -> Compared {
    if ours == theirs {
        return Ok(1);
    }
    Err(Difference { what: what.into(), ours: format!("{ours:?}"), theirs: format!("{theirs:?}") })
}

/// The same for long lists: a difference names its first place.
pub fn same_list<T: PartialEq + Debug>(what: &str, ours: &[T], theirs: &[T]) -> Compared {
    if ours == theirs {
        return Ok(1);
    }
    let at = ours.iter().zip(theirs).take_while(|(a, b)| a == b).count();
    same(&format!("{what}, from place {at} on"), shortened(&ours[at..]), shortened(&theirs[at..]))
}

fn shortened<T: Debug>(list: &[T]) -> String {
    format!("{:?} of {}", &list[..list.len().min(8)], list.len())
}

pub fn text(bytes: &[u8]) -> String {
    String::from_utf8_lossy(bytes).into_owned()
}

pub fn hex(bytes: &[u8]) -> String {
    bytes.iter().map(|byte| format!("{byte:02x}")).collect()
}

/// How often each refusal and each outcome of a drive was expected.
static REFUSALS: [AtomicU64; 11] = [const { AtomicU64::new(0) }; 11];
static OUTCOMES: [AtomicU64; 8] = [const { AtomicU64::new(0) }; 8];

pub fn refusal_seen(refusal: u32) {
    REFUSALS[refusal as usize].fetch_add(1, Relaxed);
}

pub fn outcome_seen(outcome: [u32; 6]) {
    OUTCOMES[outcome[0] as usize].fetch_add(1, Relaxed);
}

pub fn print_seen() {
    const NAMES: [&str; 8] = [
        "finished", "play", "request", "bad title", "bad object", "budget exhausted", "object stack full",
        "title stack full",
    ];
    let refusals: Vec<String> = (1..11).map(|n| format!("{n}: {}", REFUSALS[n].load(Relaxed))).collect();
    let outcomes: Vec<String> = (0..8).map(|n| format!("{} {}", NAMES[n], OUTCOMES[n].load(Relaxed))).collect();
    println!("refusals by number: {}", refusals.join(", "));
    println!("outcomes of drives: {}", outcomes.join(", "));
}

pub trait Case: Sized {
    fn compare(&self) -> Compared;

    /// Cases with a little less in them.
    fn smaller(&self) -> Vec<Self>;

    /// What is needed to see it again.
    fn show(&self) -> String;
}

/// A side that panics differs from one that answers.
fn compared<C: Case>(case: &C) -> Compared {
    catch_unwind(AssertUnwindSafe(|| case.compare())).unwrap_or_else(|panic| {
        let said = panic.downcast_ref::<String>().cloned();
        let said = said.or(panic.downcast_ref::<&str>().map(|s| s.to_string()));
        Err(Difference { what: "panic".into(), ours: "no".into(), theirs: said.unwrap_or_default() })
    })
}

const SMALLER_TRIED: usize = 3_000;

/// The smallest case found that still differs.
fn smallest<C: Case>(case: &C) -> Option<(C, Difference)> {
    let mut found: Option<(C, Difference)> = None;
    let mut tried = 0;
    loop {
        let from = found.as_ref().map_or(case, |(smaller, _)| smaller);
        let next = from.smaller().into_iter().find_map(|smaller| {
            tried += 1;
            compared(&smaller).err().map(|difference| (smaller, difference))
        });
        match next {
            Some(smaller) if tried < SMALLER_TRIED => found = Some(smaller),
            _ => return found,
        }
    }
}

const SHOWN: u64 = 20;

pub struct Tally {
    seed: u64,
    /// The comparison ends at the first difference.
    first_only: bool,
    part: &'static str,
    /// The cases before this part's.
    before: u64,
    pub cases: u64,
    pub answers: u64,
    differences: u64,
}

impl Tally {
    pub fn new(seed: u64, first_only: bool) -> Self {
        Tally { seed, first_only, part: "", before: 0, cases: 0, answers: 0, differences: 0 }
    }

    /// Begins a part of the comparison.
    pub fn begin(&mut self, part: &'static str) {
        self.part = part;
        self.before = self.cases;
    }

    pub fn hold<C: Case>(&mut self, case: &C) {
        self.cases += 1;
        match compared(case) {
            Ok(answers) => self.answers += answers,
            Err(difference) => {
                self.differences += 1;
                if self.differences <= SHOWN {
                    self.report(case, &difference);
                }
                if self.first_only {
                    self.finish();
                }
            }
        }
    }

    fn report<C: Case>(&self, case: &C, first: &Difference) {
        let small = smallest(case);
        let (shown, difference) = small.as_ref().map_or((case, first), |(case, difference)| (case, difference));
        let Tally { part, seed, differences, .. } = self;
        println!("difference {differences} in {part}, case {}, seed {seed}", self.cases - self.before);
        println!("  {}", difference.what);
        println!("  the Rust:  {}", difference.theirs);
        println!("  Mescjadro: {}", difference.ours);
        println!("  {}", shown.show());
    }

    /// The last line, and the exit status.
    pub fn finish(&self) -> ! {
        let Tally { cases, answers, differences, .. } = self;
        println!("cases {cases}, answers compared {answers}, differences {differences}");
        std::process::exit((*differences > 0) as i32)
    }
}
