//! Transitions between objects and titles, whole calls with their reading, and the disc check.
use crate::measure::{Time, Work, interleaved};
use crate::table::Table;
use mescjadro_compare::bdmv::index_bdmv::{IndexBdmv, TitleEntry};
use mescjadro_compare::bdmv::mobj_runner;
use mescjadro_compare::bdmv::movie_object::MovieObjects;
use mescjadro_compare::bdmv::nav_driver::{self, NavDriver};
use mescjadro_compare::generate::commands::{
    BREAK, CALL_OBJECT, CALL_TITLE, JUMP_OBJECT, JUMP_TITLE, Words, assign, goto, play, transfer,
};
use mescjadro_compare::generate::discs::{self, Disc, hdmv};
use mescjadro_compare::library::raw;
use std::hint::black_box;

/// What the driver is lent.
pub struct Player {
    gpr: Vec<u32>,
    psr: Vec<u32>,
    frames: Vec<u32>,
    titles: Vec<u32>,
    session: [u32; 6],
    outcome: [u32; 6],
}

impl Player {
    pub fn new() -> Self {
        Player {
            gpr: vec![0; 4096],
            psr: vec![0; 128],
            frames: vec![0; 64],
            titles: vec![0; 60],
            session: [65_536, 0, 0, 0, 0, 0],
            outcome: [0; 6],
        }
    }

    /// Starts first playback, or goes on.
    pub fn drive(&mut self, start: bool, index: &[u8], file: &[u8], budgets: [u32; 3]) -> u32 {
        let (g, p, f, t) =
            (self.gpr.as_mut_ptr(), self.psr.as_mut_ptr(), self.frames.as_mut_ptr(), self.titles.as_mut_ptr());
        let (fl, tl, s, o) = (self.frames.len(), self.titles.len(), &mut self.session, &mut self.outcome);
        let (i, il, m, ml, b) = (index.as_ptr(), index.len(), file.as_ptr(), file.len(), budgets.as_ptr());
        let (s, o) = (s.as_mut_ptr(), o.as_mut_ptr());
        let refusal = unsafe {
            if start {
                raw::mescjadro_driver_run(g, 4096, p, 128, f, fl, t, tl, i, il, m, ml, 65_536, b, 3, s, 6, o, 6)
            } else {
                raw::mescjadro_driver_resume(g, 4096, p, 128, f, fl, t, tl, i, il, m, ml, b, 3, s, 6, o, 6)
            }
        };
        assert_eq!(refusal, 0);
        black_box(self.outcome[0])
    }
}

impl Player {
    /// The runner starts object 0, or goes on.
    pub fn drive_objects(&mut self, start: bool, file: &[u8], budgets: [u32; 3]) -> u32 {
        let Player { gpr, psr, frames, titles, session, outcome } = self;
        let (g, p, f, t) = (gpr.as_mut_ptr(), psr.as_mut_ptr(), frames.as_mut_ptr(), titles.as_ptr());
        let (fl, tl, m, ml, b) = (frames.len(), titles.len(), file.as_ptr(), file.len(), budgets.as_ptr());
        let (s, o) = (session.as_mut_ptr(), outcome.as_mut_ptr());
        unsafe {
            if start {
                raw::mescjadro_runner_run(g, 4096, p, 128, f, fl, t, tl, m, ml, 0, b, 3, s, 6, o, 6)
            } else {
                raw::mescjadro_runner_resume(g, 4096, p, 128, f, fl, t, tl, m, ml, b, 3, s, 6, o, 6)
            }
        }
    }
}

/// The Rust's driver with the same budgets.
fn rust_driver<'a>(index: &'a IndexBdmv, objects: &'a MovieObjects, budgets: [u32; 3]) -> NavDriver<'a> {
    let mut driver = NavDriver::new(index, objects);
    driver.set_title_budget(budgets[2] as u64);
    let runner = nav_driver::probe::runner_mut(&mut driver);
    mobj_runner::probe::set_budgets(runner, budgets[0] as u64, budgets[1] as u64);
    driver
}

/// `count` objects and titles, the two at the ends with commands; title n leads to object n - 1.
fn two_of(count: usize, first: Vec<Words>, last: Vec<Words>) -> Disc {
    let mut objects = vec![vec![]; count];
    objects[0] = first;
    objects[count - 1] = last;
    discs::of((0..count).map(|n| hdmv(n as u16)).collect(), objects)
}

/// Budgets that end a loop after so many transitions, and those that end it before the first.
struct Loop {
    budgets: [u32; 3],
    none: [u32; 3],
    count: u32,
}

const OBJECTS: Loop = Loop { budgets: [100, 100_000, 0], none: [100, 0, 0], count: 100_000 };
const TITLES: Loop = Loop { budgets: [100, 10, 10_000], none: [100, 10, 0], count: 10_000 };

/// The times of one transition on both sides: a call whose budget ends it, less the same call with no transition.
fn transition(disc: &Disc, of: &Loop) -> (Time, Time) {
    let (index, file) = (disc.index_file(), disc.object_file());
    let (read_index, objects) = (IndexBdmv::parse(&index).unwrap(), MovieObjects::parse(&file).unwrap());
    let theirs = |budgets: [u32; 3]| -> Work {
        let mut driver = rust_driver(&read_index, &objects, budgets);
        Box::new(move || {
            black_box(driver.run(TitleEntry::FirstPlayback));
        })
    };
    let ours = |budgets: [u32; 3]| -> Work {
        let mut player = Player::new();
        let (index, file) = (&index, &file);
        Box::new(move || assert_eq!(player.drive(true, index, file, budgets), 5))
    };
    let times = interleaved(&mut [theirs(of.budgets), theirs(of.none), ours(of.budgets), ours(of.none)]);
    let count = of.count as f64;
    (times[0].less(times[1], count), times[2].less(times[3], count))
}

fn transition_rows(table: &mut Table, what: &str, of: &Loop, disc: &dyn Fn(usize) -> Disc) {
    let [few, many] = [2, 60_000].map(|size| {
        let (theirs, ours) = transition(&disc(size), of);
        table.row(&format!("{what}, {size} objects and titles"), theirs, ours, Some(1.7));
        ours
    });
    table.flat(&format!("{what}: 60,000 against 2"), few, many, 1.3);
}

pub fn transitions(table: &mut Table) {
    let last = |count: usize| count as u32 - 1;
    let calls = |option, to| vec![transfer(option, to), goto(0)];
    let jumps = |option, to| vec![transfer(option, to)];
    transition_rows(table, "CallObject and return, each", &OBJECTS, &|n| {
        two_of(n, calls(CALL_OBJECT, last(n)), vec![BREAK])
    });
    transition_rows(table, "JumpObject", &OBJECTS, &|n| two_of(n, jumps(JUMP_OBJECT, last(n)), jumps(JUMP_OBJECT, 0)));
    transition_rows(table, "JumpTitle", &TITLES, &|n| two_of(n, jumps(JUMP_TITLE, n as u32), jumps(JUMP_TITLE, 1)));
    transition_rows(table, "CallTitle and return, each", &TITLES, &|n| {
        two_of(n, calls(CALL_TITLE, n as u32), vec![BREAK])
    });
}

const DEFAULTS: [u32; 3] = [1_000_000, 100_000, 10_000];

/// A disc of so many titles and objects with two commands each: the second asks to play.
fn small_scripts(count: usize) -> Disc {
    discs::of(vec![hdmv(0); count], vec![vec![assign(5, 16), play(0, 7, 0)]; count])
}

pub fn calls(table: &mut Table) {
    for (count, target) in [(2, 1.0), (100, 5.0), (1_000, 5.0), (60_000, 8.0)] {
        let disc = small_scripts(count);
        let (index, file) = (disc.index_file(), disc.object_file());
        let mut player = Player::new();
        let theirs = || {
            let (index, objects) = (IndexBdmv::parse(&index).unwrap(), MovieObjects::parse(&file).unwrap());
            let mut driver = NavDriver::new(&index, &objects);
            black_box(driver.run(TitleEntry::FirstPlayback));
        };
        let ours = || assert_eq!(player.drive(true, &index, &file, DEFAULTS), 1);
        let what = format!("read both files and drive two commands, {count} objects and titles");
        table.both(&what, 1, Some(target), Box::new(theirs), Box::new(ours));
    }
    let mut disc = small_scripts(100);
    disc.objects[0].commands = vec![play(0, 7, 0), goto(0)];
    let (index, file) = (disc.index_file(), disc.object_file());
    let (read_index, objects) = (IndexBdmv::parse(&index).unwrap(), MovieObjects::parse(&file).unwrap());
    let mut driver = NavDriver::new(&read_index, &objects);
    driver.run(TitleEntry::FirstPlayback);
    let mut player = Player::new();
    player.drive(true, &index, &file, DEFAULTS);
    let theirs = || {
        black_box(driver.resume());
    };
    let ours = || assert_eq!(player.drive(false, &index, &file, DEFAULTS), 1);
    let what = "a resume on a disc of 100 objects (the Rust holds its parsed files)";
    table.both(what, 1, None, Box::new(theirs), Box::new(ours));
}

pub fn check(table: &mut Table) {
    let disc = crate::files::disc_of_length(crate::files::MIB, 100);
    let commands: usize = disc.objects.iter().map(|object| object.commands.len()).sum();
    let (index, file) = (disc.index_file(), disc.object_file());
    let ours = || {
        let mut result = [0; 3];
        let (i, il, m, ml) = (index.as_ptr(), index.len(), file.as_ptr(), file.len());
        let refusal = unsafe { raw::mescjadro_disc_check(i, il, m, ml, result.as_mut_ptr(), 3) };
        assert_eq!((refusal, black_box(result)), (0, [0, 0, 0]));
    };
    table.ours("disc check of 1 MiB, a command", commands, Box::new(ours));
}
