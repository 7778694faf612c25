//! What the machine's public calls don't show.
use super::{HdmvVm, Registers};

pub fn set_budget(vm: &mut HdmvVm, budget: u64) {
    vm.step_budget = budget;
}

pub fn steps_taken(vm: &HdmvVm) -> u64 {
    vm.steps_taken
}

pub fn general(registers: &Registers) -> &[u32; 4096] {
    &registers.gpr
}

pub fn status(registers: &Registers) -> &[u32; 128] {
    &registers.psr
}

pub fn set(registers: &mut Registers, general: &[u32], status: &[u32]) {
    registers.gpr.copy_from_slice(general);
    registers.psr.copy_from_slice(status);
}
