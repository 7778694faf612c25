//! Commands as three words.
use crate::chance::Chance;

pub type Words = [u32; 3];

pub const NOP: Words = [0, 0, 0];
pub const BREAK: Words = [0x0002_0000, 0, 0];
pub const RESUME: Words = [0x0104_0000, 0, 0];

/// Branch options of sub-group 1.
pub const JUMP_OBJECT: u32 = 0;
pub const JUMP_TITLE: u32 = 1;
pub const CALL_OBJECT: u32 = 2;
pub const CALL_TITLE: u32 = 3;

const GENERAL: [u32; 7] = [0, 1, 2, 3, 5, 127, 4095];
const STATUS: [u32; 22] = [0, 3, 4, 7, 8, 9, 10, 12, 13, 14, 15, 20, 29, 36, 39, 40, 41, 44, 61, 62, 127, 128];
const VALUES: [u32; 17] =
    [0, 1, 2, 3, 5, 7, 31, 32, 33, 63, 255, 4096, 65_535, 65_536, 0x7fff_ffff, 0x8000_0000, 0xffff_ffff];
const FAR: [u32; 9] = [0, 4, 65_534, 65_535, 65_536, 65_537, 65_538, 0x0002_0001, 0xffff_ffff];

pub fn bytes(words: Words) -> [u8; 12] {
    let mut all = [0; 12];
    for (place, word) in all.chunks_exact_mut(4).zip(words) {
        place.copy_from_slice(&word.to_be_bytes());
    }
    all
}

pub fn file_part(commands: &[Words]) -> Vec<u8> {
    commands.iter().flat_map(|&words| bytes(words)).collect()
}

pub fn goto(command: u32) -> Words {
    [0x2081_0000, command, 0]
}

/// A jump or call with a number of its own.
pub fn transfer(option: u32, to: u32) -> Words {
    [0x2180_0000 | option << 16, to, 0]
}

pub fn play(option: u32, playlist: u32, place: u32) -> Words {
    [0x42c0_0000 | option << 16, playlist, place]
}

/// Sets a register, given as an operand's word, to a number.
pub fn assign(register: u32, value: u32) -> Words {
    [0x5040_0001, register, value]
}

pub fn system(code: u32, a: u32, b: u32) -> Words {
    [0x51c0_0000 | code, a, b]
}

/// A number that is worth trying.
pub fn value(c: &mut Chance) -> u32 {
    if c.once_in(8) { c.word() } else { c.one(&VALUES) }
}

/// An operand's word that names a register, with its ignored bits set now and then.
pub fn register(c: &mut Chance) -> u32 {
    let debris = if c.once_in(6) { c.word() & 0x3fff_f000 } else { 0 };
    let status = if c.once_in(8) { c.below(4096) as u32 } else { c.one(&STATUS) };
    debris
        | match c.below(7) {
            0..=2 => c.one(&GENERAL),
            3 => 0x4000_0000 | c.one(&GENERAL),
            4 | 5 => 0x8000_0000 | status,
            _ => 0xc000_0000 | status,
        }
}

fn operand(c: &mut Chance, immediate: bool) -> u32 {
    if immediate { value(c) } else { register(c) }
}

/// An operand count: mostly both.
pub fn count(c: &mut Chance) -> u32 {
    match c.below(10) {
        0 => 0,
        1 => 1,
        2 => c.below(8) as u32,
        _ => 2,
    }
}

/// The group, sub-group and codes of a first word: each group often, unknown codes and debris now and then.
fn selector(c: &mut Chance) -> u32 {
    match c.below(20) {
        0 => (c.below(4) as u32) << 24 | (c.below(8) as u32) << 16,
        1 | 2 => 0x0100_0000 | (c.below(6) as u32) << 16,
        3 => 0x0200_0000 | (c.below(8) as u32) << 16,
        4..=7 => 1 << 27 | (c.below(10) as u32) << 8,
        8 => 1 << 27 | (c.below(8) as u32) << 24 | (c.below(256) as u32) << 8,
        9 | 10 => 2 << 27 | 2,
        11..=16 => 2 << 27 | c.below(17) as u32,
        17 => 0x1100_0000 | c.below(14) as u32,
        18 => 2 << 27 | (c.below(8) as u32) << 24 | c.below(256) as u32,
        _ => c.word() & 0x1fff_ffff,
    }
}

/// Any command: named ones mostly, with every count and flag.
pub fn any(c: &mut Chance) -> Words {
    if c.once_in(10) {
        return [c.word(), c.word(), c.word()];
    }
    let (first, second) = (c.once_in(4), c.once_in(2));
    let debris = if c.once_in(5) { c.word() & 0x0030_0000 } else { 0 };
    let head = count(c) << 29 | (first as u32) << 23 | (second as u32) << 22 | debris;
    [head | selector(c), operand(c, first), operand(c, second)]
}

/// A command for the machine over so many commands: loops, skips and arithmetic on few registers.
pub fn for_machine(c: &mut Chance, commands: usize) -> Words {
    match c.below(12) {
        0 | 1 => goto(c.below(commands as u64 + 2) as u32),
        2 => [0x2001_0000, register(c), 0],
        3 => [0x4800_0000 | (c.below(9) as u32) << 8, register(c), register(c)],
        4 => [0x5000_0002, register(c), register(c)],
        5 => [0x5040_0000 | c.below(17) as u32, register(c), value(c)],
        _ => any(c),
    }
}

/// An object's number on a disc of so many, off the disc now and then.
pub fn object(c: &mut Chance, objects: u64) -> u32 {
    if objects == 0 || c.once_in(14) { objects as u32 + c.one(&FAR) } else { c.below(objects) as u32 }
}

/// A title's number for a jump or call: uncut ones too.
pub fn title(c: &mut Chance, titles: u64) -> u32 {
    if c.once_in(6) {
        c.one(&FAR)
    } else {
        1 + c.below(titles.max(1)) as u32 + if c.once_in(5) { 65_536 * (1 + c.below(65_535) as u32) } else { 0 }
    }
}

fn transfer_by(c: &mut Chance, option: u32, to: u32) -> Words {
    if c.once_in(9) { [0x2100_0000 | option << 16, register(c), 0] } else { transfer(option, to) }
}

/// A command for a drive over so many objects and titles.
pub fn for_drive(c: &mut Chance, objects: u64, titles: u64) -> Words {
    match c.below(24) {
        n @ 0..=5 => {
            let to = object(c, objects);
            transfer_by(c, if n < 2 { JUMP_OBJECT } else { CALL_OBJECT }, to)
        }
        n @ 6..=11 => {
            let to = title(c, titles);
            transfer_by(c, if n < 8 { JUMP_TITLE } else { CALL_TITLE }, to)
        }
        12 => RESUME,
        13 => BREAK,
        14 => goto(c.below(6) as u32),
        15..=17 => play(c.below(6) as u32, value(c), value(c)),
        18 => system(c.below(14) as u32, value(c), value(c)),
        19 => assign(0x8000_0004, value(c)),
        20 => [0x4840_0000 | (1 + c.below(7) as u32) << 8, register(c), value(c)],
        21 => assign(c.one(&GENERAL), c.below(4) as u32),
        _ => for_machine(c, 5),
    }
}
