//! Runs and resumes of the runner and of the driver, with the Rust's answers; compare/README.md says what the list holds.
use mescjadro_compare::bdmv::index_bdmv::{AppInfoBdmv, IndexBdmv, IndexEntry, IndexObjectType};
use mescjadro_compare::bdmv::mobj_runner;
use mescjadro_compare::bdmv::movie_object::{MovieObject, MovieObjects, NavCommand};
use mescjadro_compare::bdmv::nav_driver::{self, NavDriver};
use mescjadro_compare::chance::Chance;
use mescjadro_compare::lists::{put, put_register, put_registers};
use mescjadro_compare::numbers::{drove, entry_number, entry_of, ran};
use std::io::Write;

const CASES: usize = 1200;
const CASES_A_DISC: usize = 4;
/// Frames of each kind that a call may leave, and those that the replay has room for.
const DEEPEST: usize = 16;
const OBJECT_ROOM: usize = 1024;
const TITLE_ROOM: usize = 128;

const STEPS: [u16; 10] = [0, 1, 2, 3, 5, 10, 20, 20, 60, 60];
const OBJECTS: [u16; 10] = [0, 1, 2, 3, 4, 5, 7, 9, 12, 30];
const TITLES: [u16; 10] = [0, 1, 2, 3, 4, 5, 7, 9, 12, 20];
const NUMBERS: [u32; 12] = [0, 1, 2, 3, 4, 5, 65_534, 65_535, 65_536, 65_537, 65_538, 0xffff_ffff];
const ENTRIES: [u32; 14] = [0, 1, 1, 1, 2, 2, 2, 3, 4, 65_535, 65_536, 65_536, 65_537, 65_537];
const GENERAL: [u32; 5] = [0, 1, 2, 3, 4095];
const STATUS: [u32; 7] = [0, 4, 4, 7, 8, 13, 128];

// Discs.

struct Disc {
    index: IndexBdmv,
    objects: MovieObjects,
}

fn register(c: &mut Chance) -> u32 {
    if c.once_in(3) { 0x8000_0000 | c.one(&STATUS) } else { c.one(&GENERAL) }
}

fn number(c: &mut Chance) -> u32 {
    if c.once_in(3) { c.one(&NUMBERS) } else { c.below(5) as u32 }
}

/// A command with one operand, which is mostly a number of its own.
fn one(c: &mut Chance, rest: u32, value: u32) -> [u32; 3] {
    if c.once_in(8) { [1 << 29 | rest, register(c), 0] } else { [1 << 29 | 1 << 23 | rest, value, 0] }
}

/// A command with two operands, of which the first is a number of its own or a register.
fn two(c: &mut Chance, rest: u32, first: bool) -> [u32; 3] {
    let second = c.once_in(2);
    let a = if first { number(c) } else { register(c) };
    let b = if second { number(c) } else { register(c) };
    [2 << 29 | (first as u32) << 23 | (second as u32) << 22 | rest, a, b]
}

fn branch(sub_grp: u32, option: u32) -> u32 {
    sub_grp << 24 | option << 16
}

fn compare(code: u32) -> u32 {
    1 << 27 | code << 8
}

fn set(sub_grp: u32, code: u32) -> u32 {
    2 << 27 | sub_grp << 24 | code
}

fn object(c: &mut Chance, objects: u64) -> u32 {
    if c.once_in(12) { objects as u32 + number(c) } else { c.below(objects + 1 - (objects > 0) as u64) as u32 }
}

fn title(c: &mut Chance) -> u32 {
    if c.once_in(5) { c.one(&NUMBERS) } else { 1 + c.below(3) as u32 }
}

fn to_object(c: &mut Chance, option: u32, objects: u64) -> [u32; 3] {
    let to = object(c, objects);
    one(c, branch(1, option), to)
}

fn to_title(c: &mut Chance, option: u32) -> [u32; 3] {
    let to = title(c);
    one(c, branch(1, option), to)
}

fn play(c: &mut Chance, options: u64) -> [u32; 3] {
    let option = c.below(options) as u32;
    two(c, branch(2, option), true)
}

fn command(c: &mut Chance, objects: u64) -> [u32; 3] {
    match c.below(28) {
        0 | 1 => to_object(c, 0, objects),
        2..=5 => to_object(c, 2, objects),
        6 | 7 => to_title(c, 1),
        8..=11 => to_title(c, 3),
        12 => [branch(1, 4), 0, 0],
        13 => [branch(0, 2), 0, 0],
        14 => {
            let to = c.below(6) as u32;
            one(c, branch(0, 1), to)
        }
        15..=17 => play(c, 3),
        18 | 19 => play(c, 6),
        20 | 21 => {
            let code = c.below(14) as u32;
            two(c, set(1, code), false)
        }
        22 | 23 => {
            let code = c.below(8) as u32;
            two(c, compare(code), false)
        }
        24 => two(c, set(0, 1), false),
        25 => two(c, set(0, 3), false),
        26 => [2 << 29 | 1 << 22 | set(0, 1), 0x8000_0004, number(c)],
        _ => {
            let code = c.below(17) as u32;
            two(c, set(0, code), false)
        }
    }
}

fn nav_command(words: [u32; 3]) -> NavCommand {
    NavCommand { bytes: words.map(u32::to_be_bytes).concat().try_into().unwrap() }
}

fn movie_object(commands: Vec<NavCommand>) -> MovieObject {
    MovieObject { resume_intention_flag: 0, menu_call_mask: 0, title_search_mask: 0, commands }
}

fn hdmv(object: u16) -> IndexEntry {
    IndexEntry { object: IndexObjectType::Hdmv { playback_type: 0, movie_object_id_ref: object } }
}

fn entry(c: &mut Chance, objects: u64) -> IndexEntry {
    if c.once_in(10) {
        let bdjo_file_name = "00000".to_string();
        return IndexEntry { object: IndexObjectType::BdJ { playback_type: 1, bdjo_file_name } };
    }
    hdmv(object(c, objects) as u16)
}

fn disc_of(
    first_playback_title: IndexEntry,
    menu_title: IndexEntry,
    titles: Vec<IndexEntry>,
    objects: Vec<MovieObject>,
) -> Disc {
    let app_info =
        AppInfoBdmv { initial_output_mode_preference: 0, content_exist_flag: 0, video_format: 6, frame_rate: 1 };
    let index = IndexBdmv { version: *b"0200", app_info, first_playback_title, menu_title, titles };
    Disc { index, objects: MovieObjects { version: *b"0200", movie_objects: objects } }
}

fn disc(c: &mut Chance) -> Disc {
    let count = if c.once_in(30) { 0 } else { 1 + c.below(4) };
    let objects = (0..count)
        .map(|_| {
            let length = if c.once_in(8) { 0 } else { 1 + c.below(5) };
            movie_object((0..length).map(|_| nav_command(command(c, count))).collect())
        })
        .collect();
    let (first, menu) = (entry(c, count), entry(c, count));
    let titles = (0..if c.once_in(6) { c.below(2) } else { 2 + c.below(3) }).map(|_| entry(c, count)).collect();
    disc_of(first, menu, titles, objects)
}

/// Object 0 calls itself, object 1 jumps to title 65,537; title 1 is object 2, which plays.
fn example_disc() -> Disc {
    let objects = [[0x2182_0000, 0, 0], [0x2181_0000, 65_537, 0], [0x2280_0000, 7, 0]];
    let objects = objects.map(|words| movie_object(vec![nav_command(words)])).into();
    disc_of(hdmv(1), hdmv(0), vec![hdmv(2)], objects)
}

// Calls.

enum Call {
    Drive { kind: u8, argument: u32, steps: u16, objects: u16, titles: u16 },
    Write { status: bool, index: u16, value: u32 },
}

/// A case's calls: of the runner, of the driver, or of both (the driver's runner is a fresh one too).
fn calls(c: &mut Chance, disc: &Disc) -> Vec<Call> {
    let objects = disc.objects.movie_objects.len() as u64;
    let who = c.below(10);
    let count = 2 + c.below(5);
    let mut calls: Vec<Call> = Vec::new();
    for i in 0..count {
        if i > 0 && c.once_in(3) {
            let status = c.once_in(2);
            let index = if status { c.one(&STATUS) } else { c.one(&GENERAL) } as u16;
            calls.push(Call::Write { status, index, value: number(c) });
        }
        let runner = who == 0 || (who <= 2 && c.once_in(3));
        let resume = if i == 0 { c.once_in(20) } else { !c.once_in(4) };
        // The Rust's runner cannot resume on a disc without objects.
        let resume = resume && !(runner && objects == 0);
        let argument = match (runner, resume) {
            (_, true) => 0,
            (true, false) => object(c, objects),
            (false, false) => c.one(&ENTRIES),
        };
        let kind = 2 * !runner as u8 + resume as u8;
        let (steps, objects, titles) = (c.one(&STEPS), c.one(&OBJECTS), c.one(&TITLES));
        calls.push(Call::Drive { kind, argument, steps, objects, titles });
    }
    calls
}

/// The session that a call left, and its live frames; none where there are more of them than the list takes.
fn put_session(out: &mut Vec<u8>, driver: &NavDriver) -> Option<()> {
    let runner = nav_driver::probe::runner(driver);
    let frames = mobj_runner::probe::frames(runner);
    let titles = nav_driver::probe::frames(driver);
    if frames.len() > DEEPEST || titles.len() > DEEPEST {
        return None;
    }
    let (object, pc, pending) = (runner.current_object(), runner.vm.pc(), nav_driver::probe::pending(driver));
    put(out, &[entry_number(driver.current_entry()), object as u32, pc as u32]);
    put(out, &[frames.len() as u32, titles.len() as u32, pending as u32]);
    for (object, pc) in frames {
        put(out, &[object as u32, pc as u32]);
    }
    for (entry, object, pc) in titles {
        put(out, &[entry_number(entry), object as u32, pc as u32]);
    }
    Some(())
}

fn write(driver: &mut NavDriver, status: bool, index: u16, value: u32, out: &mut Vec<u8>) {
    if status {
        driver.registers_mut().set_psr_player(index as u8, value);
    } else {
        driver.registers_mut().set_gpr(index, value);
    }
    out.push(4);
    put_register(out, status, index, value);
}

fn make(driver: &mut NavDriver, call: &Call, out: &mut Vec<u8>, seen: &mut [usize]) -> Option<()> {
    match *call {
        Call::Write { status, index, value } => {
            write(driver, status, index, value, out);
            seen[4] += 1;
        }
        Call::Drive { kind, argument, steps, objects, titles } => {
            // At most so many frames can be live during the call.
            assert!(DEEPEST + objects as usize * (titles as usize + 1) <= OBJECT_ROOM);
            assert!(DEEPEST + titles as usize <= TITLE_ROOM);
            driver.set_title_budget(titles as u64);
            let waited = nav_driver::probe::pending(driver);
            let runner = nav_driver::probe::runner_mut(driver);
            mobj_runner::probe::set_budgets(runner, steps as u64, objects as u64);
            let outcome = match kind {
                0 => ran(runner.run(argument as usize)),
                1 => ran(runner.resume()),
                2 => drove(driver.run(entry_of(argument).unwrap())),
                _ => drove(driver.resume()),
            };
            out.push(kind);
            put(out, &[argument]);
            out.extend([steps, objects, titles].map(u16::to_be_bytes).concat());
            put(out, &outcome);
            put_session(out, driver)?;
            seen[kind as usize] += 1;
            seen[5] += (kind == 3 && waited) as usize;
            seen[8 + outcome[0] as usize] += 1;
        }
    }
    Some(())
}

/// A case, or none where it leaves too many frames, or resumes the driver too often with nothing pending.
fn case(disc: &Disc, place: u32, calls: &[Call], idle: usize, seen: &mut Vec<usize>) -> Option<Vec<u8>> {
    let mut out = place.to_be_bytes().to_vec();
    out.push(calls.len().try_into().unwrap());
    let mut driver = NavDriver::new(&disc.index, &disc.objects);
    let mut counted = seen.clone();
    for call in calls {
        make(&mut driver, call, &mut out, &mut counted)?;
        put_registers(&mut out, driver.registers());
    }
    if counted[3] - counted[5] > seen[3] - seen[5] + idle {
        return None;
    }
    *seen = counted;
    Some(out)
}

/// Stores a disc, and hands back its place and how the Rust reads it.
fn put_disc(discs: &mut Vec<u8>, disc: Disc) -> (u32, Disc) {
    let place = 6 + discs.len() as u32;
    let (index, objects) = (disc.index.encode(), disc.objects.encode());
    discs.extend((index.len() as u16).to_be_bytes());
    discs.extend((objects.len() as u16).to_be_bytes());
    discs.extend(&index);
    discs.extend(&objects);
    (place, Disc { index: IndexBdmv::parse(&index).unwrap(), objects: MovieObjects::parse(&objects).unwrap() })
}

/// Document 01's: an object budget of 0 meets CallObject 0, and JumpTitle 65,537 goes to title 1.
fn examples() -> [Vec<Call>; 2] {
    let call = |kind, argument, objects| vec![Call::Drive { kind, argument, steps: 10, objects, titles: 10 }];
    [call(0, 0, 0), call(2, 65_536, 10)]
}

fn main() {
    let mut c = Chance(0x6472_6976_6573);
    let (mut discs, mut cases) = (Vec::new(), Vec::new());
    let mut seen = vec![0; 16];
    let (place, disc_read) = put_disc(&mut discs, example_disc());
    for calls in examples() {
        cases.push(case(&disc_read, place, &calls, 0, &mut seen).unwrap());
    }
    // Outcome, object, pc and depth of the one; outcome, PlayList and entry of the other.
    let told = |case: &[u8], n: usize| u32::from_be_bytes(case[16 + 4 * n..20 + 4 * n].try_into().unwrap());
    assert_eq!([0, 7, 8, 9].map(|n| told(&cases[0], n)), [5, 0, 1, 0]);
    assert_eq!([0, 1, 6].map(|n| told(&cases[1], n)), [1, 7, 1]);
    while cases.len() < CASES {
        let (place, disc_read) = put_disc(&mut discs, disc(&mut c));
        let mut left = CASES_A_DISC;
        for _ in 0..40 {
            let (calls, idle) = (calls(&mut c, &disc_read), c.once_in(3) as usize);
            let made = case(&disc_read, place, &calls, idle, &mut seen);
            left -= made.is_some() as usize;
            cases.extend(made);
            if left == 0 || cases.len() == CASES {
                break;
            }
        }
    }
    let mut out = (CASES as u16).to_be_bytes().to_vec();
    out.extend((6 + discs.len() as u32).to_be_bytes());
    out.extend(discs);
    out.extend(cases.concat());
    assert!(out.len() < 400_000, "{} bytes", out.len());
    eprintln!("runner: {} runs, {} resumes; {} writes by the player", seen[0], seen[1], seen[4]);
    eprintln!("driver: {} runs, {} resumes, {} of them pending", seen[2], seen[3], seen[5]);
    eprintln!("outcomes by number: {:?}", &seen[8..]);
    std::io::stdout().write_all(&out).expect("standard output");
}
