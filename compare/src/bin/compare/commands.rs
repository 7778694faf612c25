//! One command: its fields, its text, and the bytes of its fields.
use crate::check::{Case, Compared, Tally, hex, refusal_seen, same, text};
use mescjadro_compare::bdmv::nav_command::DecodedCommand;
use mescjadro_compare::chance::Chance;
use mescjadro_compare::generate::commands::{any, bytes};
use mescjadro_compare::paper::{BAD_BUFFER, NO_ROOM, NOT_ENCODABLE};
use mescjadro_compare::{library, numbers};

/// Twelve bytes, decoded and listed.
struct Command([u8; 12]);

impl Case for Command {
    fn compare(&self) -> Compared {
        let decoded = DecodedCommand::decode(&self.0);
        let fields = numbers::decoded(&decoded);
        let line = decoded.disassemble();
        let length = line.len();
        let mut answers = same("fields", library::decode(&self.0, 13), Ok(fields))?;
        for room in [length, length + 1, 110] {
            let listed = library::list_command(&self.0, room).map(|line| text(&line));
            answers += same("listing", listed, Ok(line.clone()))?;
        }
        answers += same("listing one byte short", library::list_command(&self.0, length - 1), Err(NO_ROOM))?;
        answers += same("encoded", library::encode(&fields, 12), Ok(numbers::cleared(self.0).to_vec()))?;
        Ok(answers + same("encoded one byte short", library::encode(&fields, 11), Err(NO_ROOM))?)
    }

    fn smaller(&self) -> Vec<Self> {
        let lit = (0..96).filter(|bit| self.0[bit / 8] & 0x80 >> (bit % 8) != 0);
        let without = |bit: usize| {
            let mut bytes = self.0;
            bytes[bit / 8] &= !(0x80 >> (bit % 8));
            Command(bytes)
        };
        lit.map(without).collect()
    }

    fn show(&self) -> String {
        format!("command {}", hex(&self.0))
    }
}

/// Thirteen numbers that may be no command's, and room for the bytes.
struct Fields {
    numbers: [u32; 13],
    room: usize,
}

/// The first word's fields but for its code, and both operands' words, if the numbers fit them.
fn words(n: &[u32; 13]) -> Option<[u32; 3]> {
    if n[0] > 7 || n[1] > 3 || n[3] > 7 || n[4] > 1 || n[5] > 1 {
        return None;
    }
    let head = n[0] << 29 | n[1] << 27 | n[3] << 24 | n[4] << 23 | n[5] << 22;
    let word = |kind, value| match kind {
        0..=2 => value,
        3 => 0x8000_0000 | value,
        _ => 0xc000_0000 | value,
    };
    Some([head, word(n[9], n[10]), word(n[11], n[12])])
}

/// The twelve bytes that the Rust decodes to these numbers, if there are any: every code is tried.
fn encoded(n: &[u32; 13]) -> Option<[u8; 12]> {
    let [head, one, two] = words(n)?;
    let (codes, shift) = [(16, 16), (256, 8), (256, 0), (256, 0)][n[1] as usize];
    let tried = (0..codes).map(|code: u32| bytes([head | code << shift, one, two]));
    tried.into_iter().find(|bytes| numbers::decoded(&DecodedCommand::decode(bytes)) == *n)
}

impl Case for Fields {
    fn compare(&self) -> Compared {
        let expected = match encoded(&self.numbers) {
            None => Err(NOT_ENCODABLE),
            Some(_) if self.room < 12 => Err(NO_ROOM),
            Some(bytes) => Ok(bytes.to_vec()),
        };
        if let Err(refusal) = expected {
            refusal_seen(refusal);
        }
        same("encoded", library::encode(&self.numbers, self.room), expected)
    }

    fn smaller(&self) -> Vec<Self> {
        let set = (0..13).filter(|&at| self.numbers[at] != 0);
        let without = |at: usize| {
            let mut numbers = self.numbers;
            numbers[at] = 0;
            Fields { numbers, room: self.room }
        };
        set.map(without).collect()
    }

    fn show(&self) -> String {
        format!("fields {:?}, room {}", self.numbers, self.room)
    }
}

fn fields(c: &mut Chance) -> Fields {
    let mut numbers = numbers::decoded(&DecodedCommand::decode(&bytes(any(c))));
    for _ in 0..c.below(3) {
        let at = c.below(13) as usize;
        numbers[at] = c.one(&[0, 1, 2, 3, 4, 5, 7, 8, 15, 16, 47, 48, 255, 256, 4095, 4096, 0x8000_0000, u32::MAX]);
    }
    Fields { numbers, room: c.one(&[0, 11, 12, 12, 12, 13, 20]) }
}

/// Arrays of lengths that the header doesn't give.
struct WrongLengths;

impl Case for WrongLengths {
    fn compare(&self) -> Compared {
        let fields = [0; 14];
        let mut answers = 0;
        for wrong in [0, 1, 11, 13, 14, 24] {
            let command = vec![0; wrong];
            answers += same("decode", library::decode(&command, 13), Err(BAD_BUFFER))?;
            answers += same("list", library::list_command(&command, 110), Err(BAD_BUFFER))?;
        }
        for wrong in [0, 1, 12, 14] {
            answers += same("decode", library::decode(&[0; 12], wrong), Err(BAD_BUFFER))?;
            answers += same("encode", library::encode(&fields[..wrong], 12), Err(BAD_BUFFER))?;
        }
        Ok(answers)
    }

    fn smaller(&self) -> Vec<Self> {
        Vec::new()
    }

    fn show(&self) -> String {
        "lengths of the header's arrays".into()
    }
}

/// Every first word's fields with every code, and each with a few operands.
pub fn all_codes(tally: &mut Tally) {
    let operands = [[0x8000_0004, 0xc000_0080], [7, 0xffff_ffff], [0xc000_0030, 0x4000_0fff]];
    for high in 0..1024u32 {
        for code in 0..256 {
            let place = if (high >> 5) & 3 == 0 { (code & 15) << 16 | code } else { code << 8 | code };
            let [one, two] = operands[((high + code) % 3) as usize];
            tally.hold(&Command(bytes([high << 22 | place, one, two])));
        }
    }
}

/// Every register of every bank as each operand.
pub fn all_operands(tally: &mut Tally) {
    for bank in [0, 0x4000_0000, 0x8000_0000, 0xc000_0000] {
        for index in 0..4096 {
            tally.hold(&Command(bytes([0x5000_0001, bank | index, 0x8000_0004])));
            tally.hold(&Command(bytes([0x4800_0200, 7, bank | index])));
        }
    }
}

pub fn compare(tally: &mut Tally, c: &mut Chance, count: u64) {
    tally.hold(&WrongLengths);
    for _ in 0..count {
        tally.hold(&Command(bytes(any(c))));
        tally.hold(&fields(c));
    }
}
