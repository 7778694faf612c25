//! Commands with the Rust's answers; compare/README.md says what the list holds.
use mescjadro_compare::bdmv::nav_command::{CommandGroup, DecodedCommand, Operand, Operation, RegisterBank};
use mescjadro_compare::chance::Chance;
use mescjadro_compare::numbers::{SHEET, cleared};
use std::io::Write;

const INDICES: [u32; 10] = [0, 4, 48, 61, 127, 128, 255, 256, 999, 4095];
const IMMEDIATES: [u32; 6] = [0, 9, 10, 0xABCDEF, 0x8000_0000, 0xFFFF_FFFF];
const BANKS: [u32; 4] = [0, 0x4000_0000, 0x8000_0000, 0xC000_0000];

fn bytes(words: [u32; 3]) -> [u8; 12] {
    let mut all = [0; 12];
    for (i, word) in words.iter().enumerate() {
        all[4 * i..4 * i + 4].copy_from_slice(&word.to_be_bytes());
    }
    all
}

fn operand(o: Option<Operand>, out: &mut Vec<u8>) {
    let (kind, value) = match o {
        None => (0, 0),
        Some(Operand::Immediate(value)) => (1, value),
        Some(Operand::Register { bank: RegisterBank::Gpr, index }) => (2, index as u32),
        Some(Operand::Register { bank: RegisterBank::Psr, index }) => (3, index as u32),
        Some(Operand::Register { bank: RegisterBank::PsrSecondary, index }) => (4, index as u32),
    };
    out.push(kind);
    out.extend(value.to_be_bytes());
}

fn record(command: [u8; 12], out: &mut Vec<u8>) {
    let d = DecodedCommand::decode(&command);
    out.extend(command);
    out.extend(cleared(command));
    let group = match d.group {
        CommandGroup::Branch => 0,
        CommandGroup::Compare => 1,
        CommandGroup::Set => 2,
        CommandGroup::Reserved(bits) => bits,
    };
    out.extend([d.operand_count, group, d.sub_group, d.imm_op1 as u8 | (d.imm_op2 as u8) << 1]);
    out.extend(match d.operation {
        Operation::Unknown { sub_grp, selector } => [0, sub_grp, selector],
        named => [1 + SHEET.iter().position(|&op| op == named).expect("a named operation") as u8, 0, 0],
    });
    operand(d.operand1, out);
    operand(d.operand2, out);
    let text = d.disassemble();
    out.push(text.len() as u8);
    out.extend(text.bytes());
}

/// Every code with a name and those beside it, by group, sub-group and count.
fn codes(all: &mut Vec<[u32; 3]>) {
    let mut c = Chance(1);
    let mut word = |flag: u32| if flag == 1 { c.one(&IMMEDIATES) } else { c.one(&BANKS) | c.one(&INDICES) };
    for group in 0..4u32 {
        for sub in 0..8u32 {
            for code in 0..17u32 {
                let count = (group + sub + code) % 8;
                let flags = (sub + 3 * code) % 4;
                let place = [(code % 16) << 16, code << 8, code, code][group as usize];
                let head = count << 29 | group << 27 | sub << 24 | flags << 22 | place;
                all.push([head, word(flags >> 1), word(flags & 1)]);
            }
        }
    }
    for count in 0..8 {
        for flags in 0..4 {
            all.push([count << 29 | 2 << 27 | flags << 22 | 1, word(flags >> 1), word(flags & 1)]);
        }
    }
}

/// All codes; every bank and edge of an operand; and chance.
fn commands() -> Vec<[u32; 3]> {
    let mut all = Vec::new();
    codes(&mut all);
    for bank in BANKS {
        for index in INDICES {
            all.push([0x5000_0001, bank | index, 0x8000_0004]);
            all.push([0x4800_0200, 7, bank | index]);
        }
    }
    for index in 0..132 {
        all.push([0x2000_0001, 0x8000_0000 | index, 0]);
        all.push([0x2000_0001, 0xC000_0000 | index, 0]);
    }
    for value in IMMEDIATES {
        all.push([0x50C0_0003, value, value]);
    }
    for code in 0..256 {
        all.push([0x4800_0000 | code << 8, 1, 2]);
        all.push([0x5000_0000 | code, 1, 2]);
    }
    all.push([0x5F00_00FF, 0xC000_0030, 0xC000_0030]);
    let mut c = Chance(2);
    for _ in 0..900 {
        all.push([c.word(), c.word(), c.word()]);
    }
    all
}

fn main() {
    let mut out = Vec::new();
    for command in commands() {
        record(bytes(command), &mut out);
    }
    std::io::stdout().write_all(&out).expect("the answers are written");
}
