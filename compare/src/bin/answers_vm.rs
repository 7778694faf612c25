//! Cases for the command machine, with the Rust's answers; compare/README.md says what the list holds.
use mescjadro_compare::bdmv::movie_object::NavCommand;
use mescjadro_compare::bdmv::vm::{HdmvVm, Step};
use mescjadro_compare::chance::Chance;
use mescjadro_compare::generate::commands::count;
use mescjadro_compare::lists::{put, put_register, put_registers};
use mescjadro_compare::numbers;
use std::io::Write;

const CASES: u16 = 1200;
const GENERAL: [u32; 6] = [0, 1, 2, 3, 5, 4095];
const STATUS: [u32; 18] = [0, 4, 7, 8, 9, 10, 12, 13, 14, 15, 20, 36, 40, 42, 44, 61, 127, 128];
const VALUES: [u32; 14] = [0, 1, 2, 3, 5, 7, 31, 32, 33, 255, 4096, 0x7fff_ffff, 0x8000_0000, 0xffff_ffff];

/// The word of an operand that names a register.
fn register(c: &mut Chance) -> u32 {
    match c.below(6) {
        0..=2 => c.one(&GENERAL) | if c.once_in(6) { 0x7000 } else { 0 },
        3 | 4 => 0x8000_0000 | c.one(&STATUS),
        _ => 0xc000_0000 | c.one(&STATUS) | if c.once_in(4) { 0x300 } else { 0 },
    }
}

fn operand(c: &mut Chance, immediate: bool) -> u32 {
    if immediate { c.one(&VALUES) } else { register(c) }
}

/// A command: jumps, compares, swaps and protected registers come up often.
fn command(c: &mut Chance, commands: usize) -> [u32; 3] {
    let (first, second) = (c.once_in(8), c.once_in(2));
    let head = count(c) << 29 | (first as u32) << 23 | (second as u32) << 22;
    let words = |c: &mut Chance| [operand(c, first), operand(c, second)];
    let rest = match c.below(20) {
        0 | 1 => {
            let target = c.below(commands as u64 + 1) as u32;
            return [1 << 29 | 0x0081_0000, target, 0];
        }
        2 => (c.below(4) as u32) << 24 | (c.below(8) as u32) << 16,
        3 => 0x0100_0000 | (c.below(6) as u32) << 16,
        4..=7 => 1 << 27 | (c.below(10) as u32) << 8,
        8 => 1 << 27 | (c.below(8) as u32) << 24 | (c.below(256) as u32) << 8,
        9..=11 => 2 << 27 | 2,
        12..=17 => 2 << 27 | c.below(17) as u32,
        18 => 2 << 27 | (c.below(3) as u32) << 24 | c.below(20) as u32,
        _ => (c.below(4) as u32) << 27 | (c.word() & 0x070f_ffff),
    };
    let [a, b] = words(c);
    [head | rest, a, b]
}

/// Registers that the player sets before the first call.
fn put_held(c: &mut Chance, vm: &mut HdmvVm, out: &mut Vec<u8>) {
    let sets = 5 + c.below(6) as u16;
    out.extend(sets.to_be_bytes());
    for _ in 0..sets {
        let value = c.one(&VALUES[1..]);
        if c.once_in(2) {
            let index = c.one(&GENERAL) as u16;
            vm.registers.set_gpr(index, value);
            put_register(out, false, index, value);
        } else {
            let index = c.one(&STATUS) as u16;
            vm.registers.set_psr_player(index as u8, value);
            put_register(out, true, index, value);
        }
    }
}

/// Steps and runs with their answers; the last call is a run.
fn put_calls(c: &mut Chance, vm: &mut HdmvVm, commands: &[NavCommand], out: &mut Vec<u8>) {
    let most = 2 + c.below(9);
    let mut calls = Vec::new();
    let mut made = 0;
    for i in 1..=most {
        let run = i == most || c.once_in(12);
        let step = if run { vm.run(commands) } else { vm.step(commands) };
        calls.push(run as u8);
        put(&mut calls, &numbers::step(step));
        put(&mut calls, &[vm.pc() as u32]);
        made += 1;
        if step == Step::Halted && !c.once_in(4) {
            break;
        }
    }
    out.push(made);
    out.extend(calls);
}

fn case(c: &mut Chance, out: &mut Vec<u8>) {
    let length = if c.once_in(10) { c.below(2) } else { 2 + c.below(7) } as usize;
    let nav_command = |c: &mut Chance| {
        let words = command(c, length).map(u32::to_be_bytes);
        NavCommand { bytes: words.concat().try_into().unwrap() }
    };
    let commands: Vec<NavCommand> = (0..length).map(|_| nav_command(c)).collect();
    let pc = if c.once_in(8) { c.below(length as u64 + 3) as usize } else { 0 };
    let budget = if c.once_in(6) { c.below(3) } else { c.below(40) };
    let mut vm = HdmvVm::new();
    vm.set_pc(pc);
    vm.set_step_budget(budget);
    out.extend((length as u16).to_be_bytes());
    put(out, &[pc as u32, budget as u32]);
    put_held(c, &mut vm, out);
    for command in &commands {
        out.extend(command.bytes);
    }
    put_calls(c, &mut vm, &commands, out);
    put_registers(out, &vm.registers);
}

fn main() {
    let mut chance = Chance(0x6d65_7363_6a61);
    let mut out = CASES.to_be_bytes().to_vec();
    for _ in 0..CASES {
        case(&mut chance, &mut out);
    }
    assert!(out.len() < 400_000, "{} bytes", out.len());
    std::io::stdout().write_all(&out).expect("standard output");
}
