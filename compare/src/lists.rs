//! What the stored lists share, as crates/replay_list reads it; all numbers are big-endian.
use crate::bdmv::vm::{Registers, probe};

/// Numbers, four bytes each.
pub fn put(out: &mut Vec<u8>, numbers: &[u32]) {
    numbers.iter().for_each(|number| out.extend(number.to_be_bytes()));
}

/// A register: 0 general or 1 status (1 byte), its number (2) and its value (4).
pub fn put_register(out: &mut Vec<u8>, status: bool, index: u16, value: u32) {
    out.push(status as u8);
    out.extend(index.to_be_bytes());
    out.extend(value.to_be_bytes());
}

/// The registers that are not zero: how many (2 bytes), then each.
pub fn put_registers(out: &mut Vec<u8>, registers: &Registers) {
    let banks: [&[u32]; 2] = [probe::general(registers), probe::status(registers)];
    let held = |bank: &[u32]| bank.iter().filter(|&&value| value != 0).count();
    out.extend((banks.map(held).iter().sum::<usize>() as u16).to_be_bytes());
    for (bank, status) in banks.into_iter().zip([false, true]) {
        for (index, &value) in bank.iter().enumerate().filter(|&(_, &value)| value != 0) {
            put_register(out, status, index as u16, value);
        }
    }
}
