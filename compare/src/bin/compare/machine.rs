//! The command machine, step by step and by runs: answer, pc and every register.
use crate::check::{Case, Compared, Tally, hex, same, same_list};
use mescjadro_compare::bdmv::movie_object::NavCommand;
use mescjadro_compare::bdmv::vm::{HdmvVm, probe};
use mescjadro_compare::chance::Chance;
use mescjadro_compare::generate::commands::{self, Words, file_part};
use mescjadro_compare::library::machine::Banks;
use mescjadro_compare::numbers;
use mescjadro_compare::paper::{BAD_BUDGET, BAD_BUFFER, FINE, first, unless};

/// A register that the player writes before the first call.
pub type Held = (bool, u16, u32);

#[derive(Clone)]
pub struct Program {
    pub commands: Vec<Words>,
    pub held: Vec<Held>,
    pub pc: usize,
    pub budget: u32,
    /// A step or, if true, a run.
    pub calls: Vec<bool>,
}

fn nav_commands(commands: &[Words]) -> Vec<NavCommand> {
    commands.iter().map(|&words| NavCommand { bytes: commands::bytes(words) }).collect()
}

fn same_banks(banks: &Banks, vm: &HdmvVm) -> Compared {
    let answers = same_list("general registers", banks.gpr.held(), probe::general(&vm.registers))?;
    Ok(answers + same_list("status registers", banks.psr.held(), probe::status(&vm.registers))?)
}

impl Program {
    /// Both sides with the same registers.
    fn start(&self) -> Result<(HdmvVm, Banks), crate::check::Difference> {
        let (mut vm, mut banks) = (HdmvVm::new(), Banks::zeros(4096, 128));
        for &(status, number, value) in &self.held {
            if !status {
                vm.registers.set_gpr(number, value);
            } else if let Ok(number) = u8::try_from(number) {
                vm.registers.set_psr_player(number, value);
            }
            same("a write by the player", banks.write(status, number, value), FINE)?;
        }
        vm.set_pc(self.pc);
        vm.set_step_budget(self.budget as u64);
        Ok((vm, banks))
    }
}

impl Case for Program {
    fn compare(&self) -> Compared {
        let (mut vm, mut banks) = self.start()?;
        let (theirs, ours) = (nav_commands(&self.commands), file_part(&self.commands));
        let mut pc = self.pc;
        let mut answers = same_banks(&banks, &vm)?;
        for &run in &self.calls {
            let step = if run { vm.run(&theirs) } else { vm.step(&theirs) };
            let answer = banks.obey(run, &ours, &mut pc, self.budget, 5);
            answers += same("answer", answer, Ok(numbers::step(step)))?;
            answers += same("pc", pc, vm.pc())?;
            answers += same_banks(&banks, &vm)?;
        }
        Ok(answers)
    }

    fn smaller(&self) -> Vec<Self> {
        let mut all = Vec::new();
        for calls in (0..self.calls.len()).map(|n| &self.calls[..n]) {
            all.push(Program { calls: calls.to_vec(), ..self.clone() });
        }
        for at in 0..self.commands.len() {
            let mut without = self.clone();
            without.commands.remove(at);
            all.push(without);
        }
        for at in 0..self.held.len() {
            let mut without = self.clone();
            without.held.remove(at);
            all.push(without);
        }
        if self.pc > 0 {
            all.push(Program { pc: 0, ..self.clone() });
        }
        all
    }

    fn show(&self) -> String {
        let Program { commands, held, pc, budget, calls } = self;
        let commands = hex(&file_part(commands));
        format!("commands {commands}, held {held:?}, pc {pc}, budget {budget}, runs {calls:?}")
    }
}

fn program(c: &mut Chance) -> Program {
    let length = if c.once_in(10) { c.below(2) } else { 2 + c.below(7) } as usize;
    let status = |c: &mut Chance| if c.once_in(6) { c.word() as u16 } else { c.below(130) as u16 };
    let held = |c: &mut Chance| match c.once_in(2) {
        true => (true, status(c), commands::value(c)),
        false => (false, if c.once_in(9) { c.word() as u16 } else { c.below(8) as u16 }, commands::value(c)),
    };
    Program {
        commands: (0..length).map(|_| commands::for_machine(c, length)).collect(),
        held: (0..4 + c.below(8)).map(|_| held(c)).collect(),
        pc: if c.once_in(8) { c.below(length as u64 + 3) as usize } else { 0 },
        budget: if c.once_in(6) { c.below(3) as u32 } else { c.below(200) as u32 },
        calls: (0..1 + c.below(8)).map(|_| c.once_in(3)).collect(),
    }
}

/// Buffers, a budget or an answer that the machine refuses: nothing may change.
struct Refused {
    banks: (usize, usize),
    commands: usize,
    budget: u32,
    answer: usize,
    run: bool,
}

impl Case for Refused {
    fn compare(&self) -> Compared {
        let (gpr, psr) = self.banks;
        let mut banks = Banks::zeros(gpr, psr);
        banks.gpr.held_mut().fill(7);
        banks.psr.held_mut().fill(9);
        let mut pc = 0;
        // Each command would write a register and go on.
        let commands = [0x50, 0x40, 0, 1, 0, 0, 0, 5, 0, 0, 0, 16].repeat(self.commands / 12 + 1);
        let answer = banks.obey(self.run, &commands[..self.commands], &mut pc, self.budget, self.answer);
        let refusal = first(&[
            &|| unless(self.answer == 5, BAD_BUFFER),
            &|| unless(self.banks == (4096, 128), BAD_BUFFER),
            &|| unless(self.commands.is_multiple_of(12), BAD_BUFFER),
            &|| unless(self.budget <= 1_000_000, BAD_BUDGET),
        ]);
        let mut answers = same("refusal", answer.err().unwrap_or(FINE), refusal)?;
        if refusal != FINE {
            answers += same("pc", pc, 0)?;
            answers += same_list("general registers", banks.gpr.held(), &vec![7; gpr])?;
            answers += same_list("status registers", banks.psr.held(), &vec![9; psr])?;
        }
        Ok(answers)
    }

    fn smaller(&self) -> Vec<Self> {
        Vec::new()
    }

    fn show(&self) -> String {
        let Refused { banks, commands, budget, answer, run } = self;
        format!("banks {banks:?}, {commands} bytes of commands, budget {budget}, answer {answer}, run {run}")
    }
}

fn refused(c: &mut Chance) -> Refused {
    let gpr = c.one(&[4096, 4096, 4096, 4096, 0, 1, 128, 4095, 4097, 8192]);
    let psr = c.one(&[128, 128, 128, 128, 0, 1, 127, 129, 4096]);
    Refused {
        banks: (gpr, psr),
        commands: c.one(&[0, 12, 12, 24, 24, 1, 11, 13, 23, 25]),
        budget: c.one(&[0, 1, 2, 1_000_000, 1_000_001, u32::MAX]),
        answer: c.one(&[5, 5, 5, 5, 0, 4, 6]),
        run: c.once_in(2),
    }
}

/// A player's read and write of one register, on banks that may have a wrong length.
struct Player {
    status: bool,
    length: usize,
    number: u16,
    value: u32,
}

impl Case for Player {
    fn compare(&self) -> Compared {
        let Player { status, length, number, value } = *self;
        let right = if status { 128 } else { 4096 };
        let mut banks = if status { Banks::zeros(4096, length) } else { Banks::zeros(length, 128) };
        let refusal = unless(length == right, BAD_BUFFER);
        let mut answers = same("write", banks.write(status, number, value), refusal)?;
        let mut theirs = HdmvVm::new();
        let (mut read, mut bank) = (None, vec![0; length]);
        if !status {
            theirs.registers.set_gpr(number, value);
            read = theirs.registers.gpr(number);
        } else if let Ok(number) = u8::try_from(number) {
            theirs.registers.set_psr_player(number, value);
            read = theirs.registers.psr(number);
        }
        if refusal == FINE {
            let set: &[u32] = if status { probe::status(&theirs.registers) } else { probe::general(&theirs.registers) };
            bank.copy_from_slice(set);
        }
        answers += same_list("bank", if status { banks.psr.held() } else { banks.gpr.held() }, &bank)?;
        let fine = read.map_or([0, 0], |value| [1, value]);
        answers += same("read", banks.read(status, number, 2), if refusal == FINE { Ok(fine) } else { Err(refusal) })?;
        Ok(answers + same("read into three numbers", banks.read(status, number, 3), Err(BAD_BUFFER))?)
    }

    fn smaller(&self) -> Vec<Self> {
        Vec::new()
    }

    fn show(&self) -> String {
        let Player { status, length, number, value } = self;
        format!("status {status}, {length} registers, number {number}, value {value}")
    }
}

fn player(c: &mut Chance) -> Player {
    let status = c.once_in(2);
    let right = if status { 128 } else { 4096 };
    Player {
        status,
        length: if c.once_in(3) { c.one(&[0, 1, 127, 129, 4095, 4097]) } else { right },
        number: c.one(&[0, 4, 127, 128, 129, 255, 256, 4095, 4096, 65_535]),
        value: commands::value(c),
    }
}

/// Every status register, and some numbers that name none, written by Move and taken by Swap.
pub fn all_registers(tally: &mut Tally) {
    for index in (0..140u32).chain([200, 255, 256, 260, 4095]) {
        for bank in [0x8000_0000, 0xc000_0000] {
            let word = bank | index;
            let commands = vec![commands::assign(word, 9), [0x5000_0002, 1, word], [0x5000_0002, word, 2]];
            let held = vec![(true, index as u16, 5), (false, 1, 6), (false, 2, 7)];
            tally.hold(&Program { commands, held, pc: 0, budget: 9, calls: vec![false, false, false] });
        }
    }
}

pub fn compare(tally: &mut Tally, c: &mut Chance, count: u64) {
    for _ in 0..count {
        tally.hold(&program(c));
        if c.once_in(8) {
            tally.hold(&refused(c));
            tally.hold(&player(c));
        }
    }
}
