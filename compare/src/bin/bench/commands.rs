//! One command: decoding, encoding, listing; and the listing of objects.
use crate::files::{MIB, disc_of_length};
use crate::table::Table;
use mescjadro_compare::bdmv::movie_object::MovieObjects;
use mescjadro_compare::bdmv::nav_command::DecodedCommand;
use mescjadro_compare::chance::Chance;
use mescjadro_compare::generate::commands::{bytes, goto, play, system, transfer};
use mescjadro_compare::library::raw;
use mescjadro_compare::numbers;
use std::hint::black_box;

const COMMANDS: usize = 4096;

type Commands = Vec<[u8; 12]>;

/// Named operations with a register and a number.
fn known() -> Commands {
    let sets = (1..16).map(|code| [0x5040_0000 | code, code, 0x1000 + code]);
    let compares = (1..8).map(|code| [0x4840_0000 | code << 8, 0x8000_0000 | code, code]);
    let branches = (0..4).map(|option| transfer(option, 1));
    let others = [goto(3), play(0, 7, 8), play(1, 7, 8), system(3, 4, 5), system(1, 4, 5)];
    let all: Commands = sets.chain(compares).chain(branches).chain(others).map(bytes).collect();
    (0..COMMANDS).map(|n| all[n % all.len()]).collect()
}

fn random() -> Commands {
    let mut c = Chance(3);
    (0..COMMANDS).map(|_| bytes([c.word(), c.word(), c.word()])).collect()
}

fn decode_row(table: &mut Table, what: &str, commands: &Commands) {
    let theirs = || {
        for command in commands {
            black_box(DecodedCommand::decode(black_box(command)));
        }
    };
    let ours = || {
        let mut numbers = [0; 13];
        for command in commands {
            unsafe { raw::mescjadro_decode(black_box(command).as_ptr(), 12, numbers.as_mut_ptr(), 13) };
            black_box(&numbers);
        }
    };
    table.both(what, COMMANDS, Some(1.0), Box::new(theirs), Box::new(ours));
}

fn encode_row(table: &mut Table, what: &str, commands: &Commands) {
    let decoded: Vec<[u32; 13]> =
        commands.iter().map(|command| numbers::decoded(&DecodedCommand::decode(command))).collect();
    let ours = || {
        let mut out = [0; 12];
        for numbers in &decoded {
            unsafe { raw::mescjadro_encode(black_box(numbers).as_ptr(), 13, out.as_mut_ptr(), 12) };
            black_box(&out);
        }
    };
    table.ours(what, COMMANDS, Box::new(ours));
}

fn list_row(table: &mut Table, what: &str, commands: &Commands) {
    let theirs = || {
        for command in commands {
            black_box(DecodedCommand::decode(black_box(command)).disassemble());
        }
    };
    let ours = || {
        let mut out = [0; 128];
        for command in commands {
            let mut length = 0;
            unsafe { raw::mescjadro_list_command(black_box(command).as_ptr(), 12, out.as_mut_ptr(), 128, &mut length) };
            black_box((&out, length));
        }
    };
    table.both(what, COMMANDS, Some(3.5), Box::new(theirs), Box::new(ours));
}

/// The first objects of a file, listed from it by one call.
fn listing_row(table: &mut Table, what: &str, file: &[u8], objects: usize, list: fn(&[u8], &mut [u8]) -> u32) {
    let theirs = || {
        let read = MovieObjects::parse(black_box(file)).unwrap();
        for (n, object) in read.movie_objects[..objects].iter().enumerate() {
            black_box(object.disassemble(n));
        }
    };
    let mut out = vec![0; 16 * MIB];
    let ours = || assert_eq!(list(black_box(file), &mut out), 0);
    table.both(what, 1, Some(3.5), Box::new(theirs), Box::new(ours));
}

fn list_first(file: &[u8], out: &mut [u8]) -> u32 {
    let mut length = 0;
    unsafe { raw::mescjadro_list_object(file.as_ptr(), file.len(), 0, out.as_mut_ptr(), out.len(), &mut length) }
}

fn list_all(file: &[u8], out: &mut [u8]) -> u32 {
    let mut length = 0;
    unsafe { raw::mescjadro_list(file.as_ptr(), file.len(), out.as_mut_ptr(), out.len(), &mut length) }
}

pub fn rows(table: &mut Table) {
    let (known, random) = (known(), random());
    decode_row(table, "decode a known command", &known);
    decode_row(table, "decode a random command", &random);
    encode_row(table, "encode a known command", &known);
    encode_row(table, "encode a random command", &random);
    list_row(table, "list a known command", &known);
    list_row(table, "list a random command", &random);
    let one = disc_of_length(1400, 100).object_file();
    listing_row(table, "list one object of 100 commands, from its file", &one, 1, list_first);
    let disc = disc_of_length(MIB, 100);
    let (file, count) = (disc.object_file(), disc.objects.len());
    listing_row(table, "the whole listing of 1 MiB, 100 commands an object, from the file", &file, count, list_all);
}
