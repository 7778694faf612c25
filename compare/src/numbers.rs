//! The Rust's answers in the numbers of include/mescjadro.h.
use crate::bdmv::index_bdmv::TitleEntry;
use crate::bdmv::mobj_runner::RunOutcome;
use crate::bdmv::nav_command::{CommandGroup, DecodedCommand, Operand, Operation, RegisterBank};
use crate::bdmv::nav_driver::DriveOutcome;
use crate::bdmv::vm::{NavRequest, Step};

pub const FIRST_PLAYBACK: u32 = 65_536;
pub const TOP_MENU: u32 = 65_537;

/// The named operations in the order of the sheet, which counts from 1.
#[rustfmt::skip]
pub const SHEET: [Operation; 47] = {
    use Operation::*;
    [
        Nop, GoTo, Break, JumpObject, JumpTitle, CallObject, CallTitle, Resume,
        PlayPL, PlayPLatPlayItem, PlayPLatMark, TerminatePL, LinkPI, LinkMK,
        Bc, Eq, Ne, Ge, Gt, Le, Lt,
        Move, Swap, Add, Sub, Mul, Div, Mod, Rnd, And, Or, Xor, BitSet, BitClear, ShiftLeft, ShiftRight,
        SetStream, SetNvTimer, SetButtonPage, EnableButton, DisableButton, SetSecondaryStream,
        PopUpOff, StillOn, StillOff, SetOutputMode, SetStreamSS,
    ]
};

/// Place on the sheet, 0 for an unknown operation, and then its sub-group and code.
fn operation(op: Operation) -> [u32; 3] {
    match op {
        Operation::Unknown { sub_grp, selector } => [0, sub_grp as u32, selector as u32],
        named => [1 + SHEET.iter().position(|&op| op == named).expect("a named operation") as u32, 0, 0],
    }
}

fn operand(operand: Option<Operand>) -> [u32; 2] {
    match operand {
        None => [0, 0],
        Some(Operand::Immediate(value)) => [1, value],
        Some(Operand::Register { bank, index }) => {
            let kind = match bank {
                RegisterBank::Gpr => 2,
                RegisterBank::Psr => 3,
                RegisterBank::PsrSecondary => 4,
            };
            [kind, index as u32]
        }
    }
}

pub fn decoded(d: &DecodedCommand) -> [u32; 13] {
    let (group, bits) = match d.group {
        CommandGroup::Branch => (0, 0),
        CommandGroup::Compare => (1, 0),
        CommandGroup::Set => (2, 0),
        CommandGroup::Reserved(bits) => (3, bits as u32),
    };
    let [op, sub, code] = operation(d.operation);
    let ([k1, v1], [k2, v2]) = (operand(d.operand1), operand(d.operand2));
    let (count, flags) = (d.operand_count as u32, [d.imm_op1 as u32, d.imm_op2 as u32]);
    [count, group, bits, d.sub_group as u32, flags[0], flags[1], op, sub, code, k1, v1, k2, v2]
}

pub fn request(request: NavRequest) -> [u32; 4] {
    match request {
        NavRequest::JumpObject { mobj_id } => [4, mobj_id, 0, 0],
        NavRequest::JumpTitle { title } => [5, title, 0, 0],
        NavRequest::CallObject { mobj_id } => [6, mobj_id, 0, 0],
        NavRequest::CallTitle { title } => [7, title, 0, 0],
        NavRequest::Resume => [8, 0, 0, 0],
        NavRequest::PlayPlayList { playlist } => [9, playlist, 0, 0],
        NavRequest::PlayPlayListAtPlayItem { playlist, play_item } => [10, playlist, play_item, 0],
        NavRequest::PlayPlayListAtMark { playlist, mark } => [11, playlist, mark, 0],
        NavRequest::TerminatePlayList => [12, 0, 0, 0],
        NavRequest::LinkPlayItem { play_item } => [13, play_item, 0, 0],
        NavRequest::LinkMark { mark } => [14, mark, 0, 0],
        NavRequest::SetSystem { op, operand1, operand2 } => {
            let [op, _, code] = operation(op);
            [op, operand1, operand2, code]
        }
    }
}

pub fn step(step: Step) -> [u32; 5] {
    match step {
        Step::Continue => [0; 5],
        Step::Skipped => [1, 0, 0, 0, 0],
        Step::Halted => [2, 0, 0, 0, 0],
        Step::Branch(asked) => {
            let [op, a, b, code] = request(asked);
            [3, op, a, b, code]
        }
    }
}

pub fn finished() -> [u32; 6] {
    [0; 6]
}

pub fn requested(asked: NavRequest) -> [u32; 6] {
    let [op, a, b, code] = request(asked);
    [2, op, a, b, code, 0]
}

pub fn bad_title(title: u16) -> [u32; 6] {
    [3, title as u32, 0, 0, 0, 0]
}

pub fn bad_object(object: u32) -> [u32; 6] {
    [4, object, 0, 0, 0, 0]
}

pub fn exhausted() -> [u32; 6] {
    [5, 0, 0, 0, 0, 0]
}

pub fn object_stack_full() -> [u32; 6] {
    [6, 0, 0, 0, 0, 0]
}

pub fn title_stack_full() -> [u32; 6] {
    [7, 0, 0, 0, 0, 0]
}

/// An optional number as whether it is there, and what it is.
fn optional(number: Option<u32>) -> [u32; 2] {
    number.map_or([0, 0], |number| [1, number])
}

pub fn ran(outcome: RunOutcome) -> [u32; 6] {
    match outcome {
        RunOutcome::Finished => finished(),
        RunOutcome::Request(asked) => requested(asked),
        RunOutcome::BadObject(object) => bad_object(object),
        RunOutcome::BudgetExhausted => exhausted(),
    }
}

pub fn drove(outcome: DriveOutcome) -> [u32; 6] {
    match outcome {
        DriveOutcome::Finished => finished(),
        DriveOutcome::Play(play) => {
            let ([i, item], [m, mark]) = (optional(play.play_item), optional(play.mark));
            [1, play.playlist, i, item, m, mark]
        }
        DriveOutcome::Request(asked) => requested(asked),
        DriveOutcome::BadTitle(title) => bad_title(title),
        DriveOutcome::BadObject(object) => bad_object(object),
        DriveOutcome::BudgetExhausted => exhausted(),
    }
}

pub fn entry_number(entry: TitleEntry) -> u32 {
    match entry {
        TitleEntry::Title { number } => number as u32,
        TitleEntry::FirstPlayback => FIRST_PLAYBACK,
        TitleEntry::TopMenu => TOP_MENU,
    }
}

/// The entry of a number, if it is one.
pub fn entry_of(number: u32) -> Option<TitleEntry> {
    match number {
        0..=65_535 => Some(TitleEntry::Title { number: number as u16 }),
        FIRST_PLAYBACK => Some(TitleEntry::FirstPlayback),
        TOP_MENU => Some(TitleEntry::TopMenu),
        _ => None,
    }
}

/// The command with its ignored bits cleared, as the Rust's decoder shows which they are.
pub fn cleared(command: [u8; 12]) -> [u8; 12] {
    let decoded = DecodedCommand::decode(&command);
    let mut bytes = command;
    for bit in 0..96 {
        let mut without = bytes;
        without[bit / 8] &= !(0x80 >> (bit % 8));
        if DecodedCommand::decode(&without) == decoded {
            bytes = without;
        }
    }
    bytes
}
