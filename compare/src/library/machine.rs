//! The banks, the command machine and the drives on what they are lent.
use super::lent::{Lent, place};
use super::{Answer, numbers, raw};
use crate::paper::drives::Call;

/// Register banks; their lengths may be wrong ones.
#[derive(Clone)]
pub struct Banks {
    pub gpr: Lent<u32>,
    pub psr: Lent<u32>,
}

impl Banks {
    pub fn zeros(gpr: usize, psr: usize) -> Self {
        Banks { gpr: Lent::filled(gpr, 0), psr: Lent::filled(psr, 0) }
    }

    pub fn fresh(&mut self) -> u32 {
        let (gl, pl) = (self.gpr.len(), self.psr.len());
        unsafe { raw::mescjadro_fresh_banks(self.gpr.pointer(), gl, self.psr.pointer(), pl) }
    }

    /// A register as the player reads it.
    pub fn read(&mut self, status: bool, number: u16, room: usize) -> Answer<[u32; 2]> {
        let bank = if status { &mut self.psr } else { &mut self.gpr };
        let (from, length) = (bank.pointer(), bank.len());
        numbers(room, |at, len| unsafe {
            if status {
                raw::mescjadro_psr(from, length, number, at, len)
            } else {
                raw::mescjadro_gpr(from, length, number, at, len)
            }
        })
    }

    /// A register as the player writes it.
    pub fn write(&mut self, status: bool, number: u16, value: u32) -> u32 {
        let bank = if status { &mut self.psr } else { &mut self.gpr };
        let (at, length) = (bank.pointer(), bank.len());
        unsafe {
            if status {
                raw::mescjadro_set_psr_player(at, length, number, value)
            } else {
                raw::mescjadro_set_gpr(at, length, number, value)
            }
        }
    }

    /// A step or a run of the machine from `pc` on, with room for so many numbers of an answer.
    pub fn obey(&mut self, run: bool, commands: &[u8], pc: &mut usize, budget: u32, room: usize) -> Answer<[u32; 5]> {
        let (gp, gl, pp, pl) = (self.gpr.pointer(), self.gpr.len(), self.psr.pointer(), self.psr.len());
        let (cp, cl) = (place(commands), commands.len());
        numbers(room, |at, len| unsafe {
            if run {
                raw::mescjadro_vm_run(gp, gl, pp, pl, cp, cl, pc, budget, at, len)
            } else {
                raw::mescjadro_vm_step(gp, gl, pp, pl, cp, cl, pc, budget, at, len)
            }
        })
    }
}

pub fn fresh_session(room: usize) -> Answer<[u32; 6]> {
    numbers(room, |at, len| unsafe { raw::mescjadro_fresh_session(at, len) })
}

pub fn default_budgets(room: usize) -> Answer<[u32; 3]> {
    numbers(room, |at, len| unsafe { raw::mescjadro_default_budgets(at, len) })
}

/// What a drive is lent and may write.
#[derive(Clone)]
pub struct Lending {
    pub banks: Banks,
    pub frames: Lent<u32>,
    pub titles: Lent<u32>,
    pub session: Lent<u32>,
}

impl Lending {
    /// Calls a drive with room for so many numbers of an outcome.
    pub fn drive(&mut self, call: Call, index: &[u8], file: &[u8], budgets: &[u32], room: usize) -> Answer<[u32; 6]> {
        let Lending { banks: Banks { gpr, psr }, frames, titles, session } = self;
        let (gl, pl, fl, tl, sl) = (gpr.len(), psr.len(), frames.len(), titles.len(), session.len());
        let (g, p, f, t, s) = (gpr.pointer(), psr.pointer(), frames.pointer(), titles.pointer(), session.pointer());
        let (ip, il, mp, ml) = (place(index), index.len(), place(file), file.len());
        let (bp, bl) = (place(budgets), budgets.len());
        numbers(room, |o, ol| unsafe {
            match call {
                Call::RunnerRun(object) => {
                    raw::mescjadro_runner_run(g, gl, p, pl, f, fl, t, tl, mp, ml, object, bp, bl, s, sl, o, ol)
                }
                Call::RunnerResume => {
                    raw::mescjadro_runner_resume(g, gl, p, pl, f, fl, t, tl, mp, ml, bp, bl, s, sl, o, ol)
                }
                Call::DriverRun(entry) => {
                    raw::mescjadro_driver_run(g, gl, p, pl, f, fl, t, tl, ip, il, mp, ml, entry, bp, bl, s, sl, o, ol)
                }
                Call::DriverResume => {
                    raw::mescjadro_driver_resume(g, gl, p, pl, f, fl, t, tl, ip, il, mp, ml, bp, bl, s, sl, o, ol)
                }
            }
        })
    }
}
