//! Steps of the command machine.
use crate::table::Table;
use mescjadro_compare::bdmv::movie_object::NavCommand;
use mescjadro_compare::bdmv::vm::{HdmvVm, probe};
use mescjadro_compare::chance::Chance;
use mescjadro_compare::generate::commands::{Words, bytes, file_part, goto};
use mescjadro_compare::library::raw;
use std::hint::black_box;

const STEPS: u32 = 100_000;

fn nav_commands(commands: &[Words]) -> Vec<NavCommand> {
    commands.iter().map(|&words| NavCommand { bytes: bytes(words) }).collect()
}

struct Machine {
    gpr: Vec<u32>,
    psr: Vec<u32>,
    pc: usize,
}

impl Machine {
    fn new() -> Self {
        Machine { gpr: vec![0; 4096], psr: vec![0; 128], pc: 0 }
    }

    fn run(&mut self, commands: &[u8], budget: u32) {
        let mut answer = [0; 5];
        let (g, p, c) = (self.gpr.as_mut_ptr(), self.psr.as_mut_ptr(), commands.as_ptr());
        let answer = answer.as_mut_ptr();
        let refusal =
            unsafe { raw::mescjadro_vm_run(g, 4096, p, 128, c, commands.len(), &mut self.pc, budget, answer, 5) };
        assert_eq!(black_box(refusal), 0);
    }
}

/// A loop that only its budget ends.
fn loop_row(table: &mut Table, what: &str, commands: &[Words], target: f64) {
    let (theirs, ours) = (nav_commands(commands), file_part(commands));
    let mut vm = HdmvVm::new();
    vm.set_step_budget(STEPS as u64);
    let mut machine = Machine::new();
    let theirs = move || {
        vm.set_pc(0);
        black_box(vm.run(black_box(&theirs)));
    };
    let ours = move || {
        machine.pc = 0;
        machine.run(black_box(&ours), STEPS);
    };
    table.both(what, STEPS as usize, Some(target), Box::new(theirs), Box::new(ours));
}

/// Random commands but for GoTo, so that pc goes from the first to past the last: each stop is gone on from.
fn random_row(table: &mut Table, what: &str, target: f64) {
    let mut c = Chance(5);
    let goes_to = |words: &Words| words[0] & 0x1f0f_0000 == 0x0001_0000;
    let random = std::iter::repeat_with(|| [c.word(), c.word(), c.word()]);
    let commands: Vec<Words> = random.filter(|words| !goes_to(words)).take(4096).collect();
    let (theirs, ours) = (nav_commands(&commands), file_part(&commands));
    let mut vm = HdmvVm::new();
    let (mut steps, mut calls) = (0, 0);
    while vm.pc() < commands.len() {
        vm.run(&theirs);
        steps += probe::steps_taken(&vm) as usize;
        calls += 1;
    }
    let theirs = move || {
        let mut vm = HdmvVm::new();
        for _ in 0..calls {
            black_box(vm.run(black_box(&theirs)));
        }
    };
    let ours = move || {
        let mut machine = Machine::new();
        for _ in 0..calls {
            machine.run(black_box(&ours), 1_000_000);
        }
    };
    table.both(
        &format!("{what}, {steps} steps in {calls} runs"),
        steps,
        Some(target),
        Box::new(theirs),
        Box::new(ours),
    );
}

pub fn rows(table: &mut Table) {
    let add = [0x5040_0003, 0, 1];
    loop_row(table, "one step: Add and GoTo", &[add, goto(0)], 3.0);
    let mixed = [
        add,
        [0x5000_0001, 1, 0],
        [0x5040_0009, 1, 255],
        [0x4840_0200, 1, 300],
        [0x5040_000e, 2, 3],
        [0x5000_0002, 2, 3],
        [0x5040_0001, 0x8000_000a, 7],
        goto(0),
    ];
    loop_row(table, "one step: eight mixed commands", &mixed, 3.0);
    random_row(table, "one step: 4,096 random commands", 1.5);
}
