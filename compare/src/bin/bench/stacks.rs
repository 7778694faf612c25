//! How much stack each public call takes: what lies below a frame is painted, and after the call the paint is looked for.
use crate::drives::Player;
use mescjadro_compare::generate::commands::{CALL_OBJECT, NOP, assign, file_part, transfer};
use mescjadro_compare::generate::discs::{self, Disc, hdmv};
use mescjadro_compare::library::raw::*;
use mescjadro_compare::library::{Index, Objects};
use std::hint::black_box;

const DEPTH: usize = 2 << 20;
const PAINT: u64 = 0x5ca1_ab1e_5ca1_ab1e;

/// What lies so near below the painting frame is that frame's own, and stays unpainted.
const UNPAINTED: usize = 256;

/// Bytes below the caller's frame that no longer hold the paint; none if the call stays in what is unpainted.
#[inline(never)]
fn stack_of(call: &mut dyn FnMut()) -> Option<usize> {
    let here = 0u64;
    let top = (black_box(&here) as *const u64 as usize - UNPAINTED) & !7;
    let painted = (top - DEPTH..top).step_by(8);
    for at in painted.clone() {
        unsafe { (at as *mut u64).write_volatile(PAINT) }
    }
    call();
    let deepest = painted.into_iter().find(|&at| unsafe { (at as *const u64).read_volatile() } != PAINT);
    deepest.map(|at| top + UNPAINTED - at)
}

fn print(call: &str, mut work: impl FnMut() -> u32) {
    let taken = stack_of(&mut || {
        black_box(work());
    });
    let taken = taken.map_or(format!("at most {UNPAINTED}"), |taken| taken.to_string());
    println!("| {call} | {taken} |");
}

fn one_command() {
    let command = [0x5f, 0, 0, 0xff, 0xc0, 0, 0, 0x30, 0xc0, 0, 0, 0x30];
    let (c, mut numbers, mut out, mut length) = (command.as_ptr(), [0; 13], [0; 102], 0);
    let (n, o) = (numbers.as_mut_ptr(), out.as_mut_ptr());
    print("decode", || unsafe { mescjadro_decode(c, 12, n, 13) });
    print("encode", || unsafe { mescjadro_encode(n, 13, o, 12) });
    print("list_command", || unsafe { mescjadro_list_command(c, 12, o, 102, &mut length) });
}

fn registers_and_machine() {
    let (mut gpr, mut psr, mut numbers, mut pc) = ([0; 4096], [0; 128], [0; 6], 0);
    let (g, p, n) = (gpr.as_mut_ptr(), psr.as_mut_ptr(), numbers.as_mut_ptr());
    let commands = file_part(&[assign(5, 16), [0x5000_0002, 1, 0x8000_0008], [0x5040_000e, 1, 3]]);
    let (c, cl) = (commands.as_ptr(), commands.len());
    print("fresh_banks", || unsafe { mescjadro_fresh_banks(g, 4096, p, 128) });
    print("fresh_session", || unsafe { mescjadro_fresh_session(n, 6) });
    print("default_budgets", || unsafe { mescjadro_default_budgets(n, 3) });
    print("gpr", || unsafe { mescjadro_gpr(g, 4096, 5, n, 2) });
    print("psr", || unsafe { mescjadro_psr(p, 128, 5, n, 2) });
    print("set_gpr", || unsafe { mescjadro_set_gpr(g, 4096, 5, 6) });
    print("set_psr_player", || unsafe { mescjadro_set_psr_player(p, 128, 5, 6) });
    print("vm_step", || unsafe { mescjadro_vm_step(g, 4096, p, 128, c, cl, &mut pc, 9, n, 5) });
    print("vm_run", || unsafe { mescjadro_vm_run(g, 4096, p, 128, c, cl, &mut pc, 9, n, 5) });
}

fn files(what: &str, disc: &Disc) {
    let (index, file) = (disc.index_file(), disc.object_file());
    let (i, il, m, ml) = (index.as_ptr(), index.len(), file.as_ptr(), file.len());
    let (mut numbers, mut out, mut length) = ([0; 8], vec![0; 8 << 20], 0);
    let (n, o, ol) = (numbers.as_mut_ptr(), out.as_mut_ptr(), out.len());
    print(&format!("objects, {what}"), || unsafe { mescjadro_objects(m, ml, n, 2) });
    print(&format!("object, {what}"), || unsafe { mescjadro_object(m, ml, 99, n, 5) });
    print(&format!("list_object, {what}"), || unsafe { mescjadro_list_object(m, ml, 99, o, ol, &mut length) });
    print(&format!("list, {what}"), || unsafe { mescjadro_list(m, ml, o, ol, &mut length) });
    print(&format!("index, {what}"), || unsafe { mescjadro_index(i, il, n, 6) });
    print(&format!("entry, {what}"), || unsafe { mescjadro_entry(i, il, 9, n, 8) });
    print(&format!("resolve, {what}"), || unsafe { mescjadro_resolve(i, il, 9, n, 2) });
    print(&format!("disc_check, {what}"), || unsafe { mescjadro_disc_check(i, il, m, ml, n, 3) });
    let records = (Objects::of(disc), Index::of(disc));
    print(&format!("write_objects, {what}"), || records.0.write(&mut out, &mut length));
    print(&format!("write_index, {what}"), || records.1.write(&mut out, &mut length));
    let mut player = Player::new();
    print(&format!("runner_run, {what}"), || player.drive_objects(true, &file, [100, 20, 20]));
    print(&format!("runner_resume, {what}"), || player.drive_objects(false, &file, [100, 20, 20]));
    print(&format!("driver_run, {what}"), || player.drive(true, &index, &file, [100, 20, 20]));
    print(&format!("driver_resume, {what}"), || player.drive(false, &index, &file, [100, 20, 20]));
}

fn rows() {
    one_command();
    registers_and_machine();
    files("100 objects", &discs::of(vec![hdmv(0); 9], vec![vec![assign(5, 16), transfer(CALL_OBJECT, 0)]; 100]));
    files("60,000 objects", &discs::of(vec![hdmv(0); 60_000], vec![vec![NOP]; 60_000]));
}

/// The rows, on a thread with stack enough to paint.
pub fn table() {
    println!();
    println!("| call | bytes of stack |");
    println!("|---|---|");
    let thread = std::thread::Builder::new().stack_size(8 << 20).spawn(rows).expect("a thread");
    thread.join().expect("the calls end");
}
