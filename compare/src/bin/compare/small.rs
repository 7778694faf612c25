//! Short inputs, all of them: codes and operands, beginnings of small files, names of boundary bytes, discs of two objects.
use crate::check::Tally;
use crate::checks::Check;
use crate::commands::{all_codes, all_operands};
use crate::drives::{Act, Drives};
use crate::files::{IndexFile, ObjectFile};
use crate::machine::all_registers;
use mescjadro_compare::chance::Chance;
use mescjadro_compare::generate::commands::{BREAK, NOP, RESUME, Words};
use mescjadro_compare::generate::discs::{self, Disc, bdj, hdmv};
use mescjadro_compare::generate::files;
use mescjadro_compare::paper::drives::{Call, Sizes};

/// Title 1 is object 0, title 2 object 1, title 3 an object that isn't there.
const PALETTE: [Words; 13] = [
    [0x2182_0000, 1, 0],      // CallObject 1
    [0x2182_0000, 2, 0],      // CallObject 2, off the disc
    [0x2180_0000, 0, 0],      // JumpObject 0
    [0x2183_0000, 2, 0],      // CallTitle 2
    [0x2183_0000, 3, 0],      // CallTitle 3
    [0x2181_0000, 65_537, 0], // JumpTitle 1
    [0x2181_0000, 65_536, 0], // JumpTitle 0, which never resolves
    RESUME,
    BREAK,
    [0x42c1_0000, 7, 8], // PlayPLatPlayItem 7, 8
    [0x5040_0003, 0, 1], // Add r0, 1
    [0x4840_0700, 0, 2], // Lt r0, 2
    [0x2081_0000, 0, 0], // GoTo 0
];

fn titles() -> Vec<discs::Entry> {
    vec![hdmv(0), hdmv(1), hdmv(9)]
}

fn disc_number(n: usize) -> Disc {
    let command = |place: u32| PALETTE[n / PALETTE.len().pow(place) % PALETTE.len()];
    discs::of(titles(), vec![vec![command(0), command(1)], vec![command(2), command(3)]])
}

/// Every disc of two objects with two commands of the palette: checked, and driven with every triple of small budgets.
fn all_discs(tally: &mut Tally) {
    let index = disc_number(0).index_file();
    for n in 0..PALETTE.len().pow(4) {
        let disc = disc_number(n);
        let file = disc.object_file();
        tally.hold(&Check::of(&disc));
        for triple in 0..48 {
            let budgets = [triple % 4, triple / 4 % 4, triple / 16];
            let calls = [Call::DriverRun(65_536), Call::DriverResume, Call::DriverResume];
            let acts = calls.map(|call| Act::Drive(call, budgets)).to_vec();
            let sizes = Sizes::of_rooms(2 * 30, 3 * 4);
            tally.hold(&Drives { index: index.clone(), file: file.clone(), sizes, acts });
        }
    }
}

/// The same discs by the runner's calls, in rooms that fill up.
fn all_discs_in_little_room(tally: &mut Tally) {
    let index = disc_number(0).index_file();
    for n in 0..PALETTE.len().pow(4) {
        let file = disc_number(n).object_file();
        let room = n % 3;
        let calls =
            [Call::RunnerRun(n as u32 % 3), Call::RunnerResume, Call::DriverRun(1 + n as u32 % 3), Call::DriverResume];
        let acts = calls.map(|call| Act::Drive(call, [9, 6, 5])).to_vec();
        let sizes = Sizes::of_rooms(2 * room + 1, 3 * (n / 3 % 3) + 2);
        tally.hold(&Drives { index: index.clone(), file, sizes, acts });
    }
}

/// Every beginning of small files, plain and loose ones.
fn all_beginnings(tally: &mut Tally, c: &mut Chance) {
    let disc =
        discs::of(vec![hdmv(0), bdj(*b"\xe2\x82\xacxy"), hdmv(65_535)], vec![vec![NOP, BREAK], vec![], vec![NOP]]);
    let mut indexes = vec![disc.index_file()];
    let mut objects = vec![disc.object_file(), discs::of(vec![], vec![]).object_file()];
    for _ in 0..30 {
        indexes.push(files::loose_index(c, &disc));
        indexes.push(files::folded_index(c));
        objects.push(files::loose_objects(c, &disc));
    }
    for file in indexes {
        (0..=file.len()).for_each(|length| tally.hold(&IndexFile(file[..length].to_vec())));
    }
    for file in objects {
        (0..=file.len()).for_each(|length| tally.hold(&ObjectFile(file[..length].to_vec())));
    }
}

/// Every value of the fields that say where something stands, how long or how many it is, as far as it is small.
fn all_lengths(tally: &mut Tally) {
    let disc = discs::of(vec![hdmv(0), hdmv(1)], vec![vec![NOP, BREAK], vec![NOP]]);
    let (index, objects) = (disc.index_file(), disc.object_file());
    for value in (0..400u32).chain([65_535, 65_536, 0x7fff_ffff, 0xffff_fff0, u32::MAX]) {
        let with = |file: &[u8], at: usize, bytes: &[u8]| {
            let mut copy = file.to_vec();
            copy[at..at + bytes.len()].copy_from_slice(bytes);
            copy
        };
        for at in [8, 40, 78] {
            tally.hold(&IndexFile(with(&index, at, &value.to_be_bytes())));
        }
        tally.hold(&IndexFile(with(&index, 106, &(value as u16).to_be_bytes())));
        tally.hold(&ObjectFile(with(&objects, 40, &value.to_be_bytes())));
        for at in [76, 80, 108] {
            tally.hold(&ObjectFile(with(&objects, at, &(value as u16).to_be_bytes())));
        }
    }
}

/// Every BD-J name of boundary bytes.
fn all_names(tally: &mut Tally) {
    const BYTES: [u8; 12] = [0x7f, 0x80, 0x8f, 0x90, 0x9f, 0xa0, 0xbf, 0xc2, 0xe0, 0xed, 0xf0, 0xf4];
    let mut file = discs::of(vec![bdj([0; 5])], vec![]).index_file();
    for n in 0..BYTES.len().pow(5) {
        let name = [0, 1, 2, 3, 4].map(|place| BYTES[n / BYTES.len().pow(place) % BYTES.len()]);
        file[112..117].copy_from_slice(&name);
        tally.hold(&IndexFile(file.clone()));
    }
}

pub fn compare(tally: &mut Tally, c: &mut Chance) {
    all_codes(tally);
    all_operands(tally);
    all_registers(tally);
    all_beginnings(tally, c);
    all_lengths(tally);
    all_names(tally);
    all_discs_in_little_room(tally);
    all_discs(tally);
}
