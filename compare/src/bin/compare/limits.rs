//! Limits: the largest counts and files and one over each, full buffers, budgets at their upper ends.
use crate::check::Tally;
use crate::checks::Check;
use crate::drives::{Act, Drives};
use crate::files::{IndexFile, ObjectFile};
use crate::machine::Program;
use crate::writers::{WriteIndex, WriteObjects};
use mescjadro_compare::generate::commands::{
    BREAK, CALL_OBJECT, CALL_TITLE, JUMP_OBJECT, JUMP_TITLE, NOP, RESUME, Words, assign, goto, play, transfer,
};
use mescjadro_compare::generate::discs::{self, Disc, bdj, hdmv};
use mescjadro_compare::paper::drives::{Call, Sizes};
use mescjadro_compare::paper::files::LIMIT;

const MOST_STEPS: u32 = 1_000_000;
const MOST_OBJECTS: u32 = 100_000;
const MOST_TITLES: u32 = 10_000;
const MOST: [u32; 3] = [MOST_STEPS, MOST_OBJECTS, MOST_TITLES];

fn of_length(mut file: Vec<u8>, length: usize) -> Vec<u8> {
    file.resize(length, 0);
    file
}

fn files(tally: &mut Tally) {
    let most_objects = discs::of(vec![hdmv(0); 65_535], vec![vec![]; 65_535]);
    let mixed: Vec<Vec<Words>> = (0..65_535).map(|n| vec![NOP; n % 3]).collect();
    let most_commands = discs::of(vec![], vec![vec![assign(5, 16); 65_535]]);
    for disc in [&most_objects, &discs::of(vec![bdj(*b"00001"); 65_535], mixed), &most_commands] {
        let (index, objects) = (disc.index_file(), disc.object_file());
        for short in [0, 1, 12] {
            tally.hold(&IndexFile(index[..index.len() - short].to_vec()));
            tally.hold(&ObjectFile(objects[..objects.len() - short].to_vec()));
        }
        tally.hold(&Check::of(disc));
    }
    let full = discs::of(vec![], vec![vec![NOP; 65_535]; 21]);
    for length in [LIMIT - 1, LIMIT, LIMIT + 1] {
        tally.hold(&ObjectFile(of_length(full.object_file(), length)));
        tally.hold(&IndexFile(of_length(most_objects.index_file(), length)));
    }
}

fn writers(tally: &mut Tally) {
    let objects = |count: usize, commands: usize| discs::of(vec![], vec![vec![NOP; commands]; count]);
    // 21 objects of 66,573 bytes and one more object end just at or just over the limit.
    let near = |last: usize| {
        let mut disc = objects(21, 65_535);
        disc.objects.push(discs::Object { flags: [1, 1, 1], commands: vec![BREAK; last] });
        disc
    };
    let left = (LIMIT - 78 - 22 * 4 - 21 * 12 * 65_535) / 12;
    for disc in [objects(65_535, 0), objects(65_536, 0), objects(1, 65_535), near(left), near(left + 1)] {
        for spare in [0, -1, 5] {
            tally.hold(&WriteObjects::of(&disc, spare));
        }
    }
    for titles in [65_535, 65_536] {
        for spare in [0, -1, 5] {
            tally.hold(&WriteIndex::of(&discs::of(vec![hdmv(7); titles], vec![]), spare));
        }
    }
}

fn machine(tally: &mut Tally) {
    let counting = vec![[0x5040_0003, 0, 1], goto(0)];
    for budget in [0, 1, 999_999, MOST_STEPS] {
        let calls = vec![true, false, true];
        tally.hold(&Program { commands: counting.clone(), held: vec![], pc: 0, budget, calls });
    }
    for pc in [65_534, 65_535, 65_536, usize::MAX] {
        let commands = vec![[0x5040_0003, 0, 1]; 65_535];
        tally.hold(&Program { commands, held: vec![], pc, budget: 10, calls: vec![false, true] });
    }
}

fn driven(tally: &mut Tally, disc: &Disc, rooms: (usize, usize), budgets: [u32; 3], calls: &[Call]) {
    let acts = calls.iter().map(|&call| Act::Drive(call, budgets)).collect();
    let sizes = Sizes::of_rooms(rooms.0, rooms.1);
    tally.hold(&Drives { index: disc.index_file(), file: disc.object_file(), sizes, acts });
}

/// Loops that only a budget or a full stack ends.
fn loops(tally: &mut Tally) {
    let run = [Call::DriverRun(65_536), Call::DriverResume, Call::RunnerResume];
    let one = |commands: Vec<Words>| discs::of(vec![hdmv(0)], vec![commands]);
    let whole = (131_072, 196_608);
    driven(tally, &one(vec![goto(0)]), whole, MOST, &run);
    for budgets in [MOST, [9, MOST_OBJECTS - 1, 3], [9, 65_536, 3], [9, 65_535, 0]] {
        driven(tally, &one(vec![transfer(JUMP_OBJECT, 0)]), whole, budgets, &run);
        driven(tally, &one(vec![transfer(CALL_OBJECT, 0)]), whole, budgets, &run);
        driven(tally, &one(vec![transfer(CALL_OBJECT, 0)]), (131_073, 0), budgets, &run);
    }
    for titles in [0, 1, MOST_TITLES - 1, MOST_TITLES] {
        driven(tally, &one(vec![transfer(JUMP_TITLE, 1)]), (0, 0), [9, 9, titles], &run);
        driven(tally, &one(vec![transfer(CALL_TITLE, 1)]), whole, [9, 9, titles], &run);
        driven(tally, &one(vec![transfer(CALL_TITLE, 65_537)]), (2, 3 * 10_000), [9, 9, titles], &run);
        driven(tally, &one(vec![transfer(CALL_TITLE, 1)]), (2, 3 * 10_000 - 1), [9, 9, titles], &run);
    }
}

/// Calls that all return: exactly as many frames as there is room for, and as many transitions as the budget holds.
fn returns(tally: &mut Tally) {
    // r0 counts down from the depth; the deepest object asks to play.
    let calls = |depth: u32, option: u32, to: u32| {
        let first = vec![assign(0, depth), transfer(option, to)];
        let again = vec![[0x4840_0200, 0, 0], play(0, 1, 0), [0x5040_0004, 0, 1], transfer(option, to), RESUME];
        discs::of(vec![hdmv(1)], vec![first, again])
    };
    let run = [Call::DriverRun(65_536), Call::DriverResume, Call::DriverResume];
    for depth in [0, 1, 49_998, 49_999, 50_000, 65_534, 65_535, 65_536] {
        driven(tally, &calls(depth, CALL_OBJECT, 1), (131_072, 0), MOST, &run);
        driven(tally, &calls(depth, CALL_OBJECT, 1), (100_000, 0), [9, 50_000, 0], &run);
    }
    for depth in [0, 1, 4_998, 4_999, 5_000, 9_998, 9_999, 10_000] {
        driven(tally, &calls(depth, CALL_TITLE, 1), (0, 196_608), MOST, &run);
        driven(tally, &calls(depth, CALL_TITLE, 1), (0, 30_000), [9, 9, MOST_TITLES], &run);
    }
}

/// Discs on both sides of the places where a table of another size is taken, and the largest ones.
fn many_objects(tally: &mut Tally) {
    for count in [1, 1_023, 1_024, 1_025, 60_000, 65_534, 65_535] {
        let last = count as u32 - 1;
        let mut objects = vec![vec![]; count];
        objects[0] = vec![transfer(CALL_OBJECT, last), transfer(CALL_TITLE, count as u32), play(0, 1, 2)];
        objects[count - 1].push([0x5040_0003, 3, 1]);
        objects[count - 1].push(transfer(JUMP_OBJECT, last / 2));
        let titles = (0..count).map(|n| hdmv(n as u16)).collect();
        let disc = discs::of(titles, objects);
        let calls = [
            Call::DriverRun(65_536),
            Call::DriverResume,
            Call::RunnerRun(last),
            Call::RunnerRun(last + 1),
            Call::RunnerResume,
            Call::DriverRun(count as u32),
        ];
        driven(tally, &disc, (20, 20), [20, 20, 20], &calls);
        tally.hold(&Check::of(&disc));
    }
}

pub fn compare(tally: &mut Tally) {
    files(tally);
    writers(tally);
    machine(tally);
    loops(tally);
    returns(tally);
    many_objects(tally);
}
