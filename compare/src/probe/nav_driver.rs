//! What the driver's public calls don't show.
use super::{NavDriver, TitleFrame};
use crate::bdmv::index_bdmv::TitleEntry;
use crate::bdmv::mobj_runner::MobjRunner;

pub fn runner<'a, 'b>(driver: &'b NavDriver<'a>) -> &'b MobjRunner<'a> {
    &driver.runner
}

pub fn runner_mut<'a, 'b>(driver: &'b mut NavDriver<'a>) -> &'b mut MobjRunner<'a> {
    &mut driver.runner
}

pub fn pending(driver: &NavDriver) -> bool {
    driver.pending
}

pub fn frames(driver: &NavDriver) -> Vec<(TitleEntry, usize, usize)> {
    driver.title_stack.iter().map(|f| (f.entry, f.object, f.pc)).collect()
}

pub fn set(driver: &mut NavDriver, entry: TitleEntry, pending: bool, frames: &[(TitleEntry, usize, usize)]) {
    driver.current_entry = entry;
    driver.pending = pending;
    driver.title_stack = frames.iter().map(|&(entry, object, pc)| TitleFrame { entry, object, pc }).collect();
}
