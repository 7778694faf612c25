//! What the runner's public calls don't show.
use super::{MobjRunner, ResumeFrame};

pub fn frames(runner: &MobjRunner) -> Vec<(usize, usize)> {
    runner.resume.iter().map(|f| (f.object, f.pc)).collect()
}

pub fn set_frames(runner: &mut MobjRunner, frames: &[(usize, usize)]) {
    runner.resume = frames.iter().map(|&(object, pc)| ResumeFrame { object, pc }).collect();
}

pub fn set_budgets(runner: &mut MobjRunner, steps: u64, objects: u64) {
    runner.vm.set_step_budget(steps);
    runner.object_budget = objects;
}
