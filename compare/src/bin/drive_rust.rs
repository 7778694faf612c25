//! What the program `drive` prints, from the Rust, with the words that `drive` takes.
use mescjadro_compare::bdmv::index_bdmv::{IndexBdmv, TitleEntry};
use mescjadro_compare::bdmv::mobj_runner;
use mescjadro_compare::bdmv::movie_object::MovieObjects;
use mescjadro_compare::bdmv::nav_command::Operation;
use mescjadro_compare::bdmv::nav_driver::{DriveOutcome, NavDriver, PlayRequest, probe};
use mescjadro_compare::bdmv::vm::NavRequest;

fn request(q: &NavRequest) -> String {
    let (name, a, b) = match *q {
        NavRequest::TerminatePlayList => ("TerminatePL".into(), 0, 0),
        NavRequest::LinkPlayItem { play_item } => ("LinkPI".into(), play_item, 0),
        NavRequest::LinkMark { mark } => ("LinkMK".into(), mark, 0),
        NavRequest::SetSystem { op: Operation::Unknown { selector, .. }, operand1, operand2 } => {
            (format!("of code {selector}"), operand1, operand2)
        }
        NavRequest::SetSystem { op, operand1, operand2 } => (op.mnemonic().to_string(), operand1, operand2),
        _ => unreachable!("the driver follows it"),
    };
    format!("request {name} {a}, {b}")
}

fn play(p: &PlayRequest) -> String {
    let item = p.play_item.map_or(String::new(), |n| format!(" from item {n}"));
    let mark = p.mark.map_or(String::new(), |n| format!(" from mark {n}"));
    format!("play list {}{item}{mark}", p.playlist)
}

fn words(outcome: &DriveOutcome) -> String {
    match outcome {
        DriveOutcome::Finished => "finished".into(),
        DriveOutcome::Play(p) => play(p),
        DriveOutcome::Request(q) => request(q),
        DriveOutcome::BadTitle(t) => format!("bad title {t}"),
        DriveOutcome::BadObject(o) => format!("bad object {o}"),
        DriveOutcome::BudgetExhausted => "budget exhausted".into(),
    }
}

fn entry(n: u32) -> (TitleEntry, String) {
    match n {
        65536 => (TitleEntry::FirstPlayback, "first playback".into()),
        65537 => (TitleEntry::TopMenu, "top menu".into()),
        n => (TitleEntry::Title { number: n as u16 }, format!("title {n}")),
    }
}

fn line(what: &str, driver: &NavDriver, outcome: &DriveOutcome) {
    let runner = probe::runner(driver);
    println!("{what}: {} (object {}, pc {})", words(outcome), runner.current_object(), runner.vm.pc());
}

/// The option `name` among the words, or what stands without it.
fn option(words: &[String], name: &str, without: u32) -> u32 {
    let given = words.iter().filter_map(|w| w.strip_prefix(name)?.strip_prefix('=')).last();
    given.map_or(without, |v| v.parse().expect("a number"))
}

fn set_registers(driver: &mut NavDriver, words: &[String]) {
    for (name, value) in words.iter().filter_map(|w| w.split_once('=')) {
        let value = value.parse().expect("a number");
        let number = |letter| name.strip_prefix(letter).and_then(|n: &str| n.parse::<u16>().ok());
        if let Some(n) = number('r') {
            driver.registers_mut().set_gpr(n, value);
        }
        if let Some(n) = number('p') {
            driver.registers_mut().set_psr_player(n as u8, value);
        }
    }
}

fn main() {
    let args: Vec<String> = std::env::args().skip(1).collect();
    let read = |i: usize| std::fs::read(&args[i]).expect("a file");
    let index = IndexBdmv::parse(&read(0)).expect("an index file");
    let objects = MovieObjects::parse(&read(1)).expect("an object file");
    let words_given = &args[2..];
    let mut driver = NavDriver::new(&index, &objects);
    set_registers(&mut driver, words_given);
    let steps = option(words_given, "steps", 1_000_000) as u64;
    let transitions = option(words_given, "objects", 100_000) as u64;
    mobj_runner::probe::set_budgets(probe::runner_mut(&mut driver), steps, transitions);
    driver.set_title_budget(option(words_given, "titles", 10_000) as u64);
    let (from, name) = entry(option(words_given, "entry", 65536));
    let mut outcome = driver.run(from);
    line(&format!("run from {name}"), &driver, &outcome);
    for k in 1..=option(words_given, "resumes", 100) {
        if !probe::pending(&driver) {
            break;
        }
        outcome = driver.resume();
        line(&format!("resume {k}"), &driver, &outcome);
    }
    let waits = if probe::pending(&driver) { ", and waits for a resume" } else { "" };
    println!("ended: {}{waits}", words(&outcome));
}
