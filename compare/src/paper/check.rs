//! The disc check by the machine's own steps: every command is met with every register holding each of some numbers.
use crate::bdmv::index_bdmv::{IndexBdmv, TitleEntry};
use crate::bdmv::movie_object::MovieObjects;
use crate::bdmv::vm::{HdmvVm, NavRequest, Step, probe};

fn leads_nowhere(index: &IndexBdmv, count: usize, title: u32) -> bool {
    let led = index.resolve_movie_object(TitleEntry::Title { number: title as u16 });
    led.is_none_or(|object| object as usize >= count)
}

fn lacks(index: &IndexBdmv, count: usize, request: NavRequest) -> bool {
    match request {
        NavRequest::JumpObject { mobj_id } | NavRequest::CallObject { mobj_id } => mobj_id as usize >= count,
        NavRequest::JumpTitle { title } | NavRequest::CallTitle { title } => leads_nowhere(index, count, title),
        _ => false,
    }
}

/// 0, 0, 0 if no command can ask for what the disc lacks; else 1, and object and command of the first.
pub fn check(index: &IndexBdmv, objects: &MovieObjects) -> [u32; 3] {
    let count = objects.movie_objects.len();
    let mut machines: Vec<HdmvVm> = [0, 1, 2, count as u32, 65_535, 65_536, u32::MAX]
        .map(|held| {
            let mut vm = HdmvVm::new();
            probe::set(&mut vm.registers, &[held; 4096], &[held; 128]);
            vm
        })
        .into();
    for (n, object) in objects.movie_objects.iter().enumerate() {
        for (k, command) in object.commands.iter().enumerate() {
            // Only branches of sub-group 1 ask; others would change the registers.
            let asks = command.bytes[0] & 0x1f == 1;
            let offends = |vm: &mut HdmvVm| {
                vm.set_pc(k);
                matches!(vm.step(&object.commands), Step::Branch(asked) if lacks(index, count, asked))
            };
            if asks && machines.iter_mut().any(offends) {
                return [1, n as u32, k as u32];
            }
        }
    }
    [0, 0, 0]
}
