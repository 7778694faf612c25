//! Damaged copies of bytes, and smaller ones.
use crate::chance::Chance;

const BYTES: [u8; 12] = [0, 1, 2, 0x3f, 0x40, 0x7f, 0x80, 0xbf, 0xc0, 0xc2, 0xfe, 0xff];
const WORDS: [u32; 12] = [0, 1, 2, 33, 34, 35, 40, 46, 255, 65_535, 0x7fff_ffff, 0xffff_ffff];

fn write(file: &mut [u8], at: usize, bytes: &[u8]) {
    let end = file.len().min(at + bytes.len());
    if at < end {
        file[at..end].copy_from_slice(&bytes[..end - at]);
    }
}

/// A place in the file: the fields of the heads more often than the rest.
fn place(c: &mut Chance, length: usize) -> usize {
    let near = c.one(&[0, 3, 8, 11, 40, 43, 44, 45, 76, 77, 78, 80, 81, 82, 106, 107]);
    if c.once_in(3) && near < length { near } else { c.below(length as u64) as usize }
}

fn one(c: &mut Chance, file: &mut Vec<u8>) {
    let length = file.len();
    if length == 0 {
        return file.push(c.word() as u8);
    }
    let at = place(c, length);
    match c.below(10) {
        0 | 1 => file[at] ^= 1 << c.below(8),
        2 => file[at] = c.one(&BYTES),
        3 => file.truncate(at),
        4 => file.truncate(length - 1 - c.below(4.min(length as u64)) as usize),
        5 => write(file, at, &c.one(&WORDS).to_be_bytes()),
        6 | 7 => {
            // A length that ends near the end of the file, in one of the fields that state one.
            let end = length as u32 + c.below(5) as u32;
            let (at, from) = c.one(&[(40, 44), (40, 44), (8, 0), (78, 82), (at, 0)]);
            write(file, at, &end.wrapping_sub(2 + from).to_be_bytes());
        }
        8 => file.extend((0..1 + c.below(16)).map(|_| c.word() as u8)),
        _ => {
            file.remove(at);
        }
    }
}

/// A copy with one to three damages.
pub fn damaged(c: &mut Chance, file: &[u8]) -> Vec<u8> {
    let mut copy = file.to_vec();
    for _ in 0..c.one(&[1, 1, 1, 2, 3]) {
        one(c, &mut copy);
    }
    copy
}

/// Copies with less in them: shorter ones first, then such with a zero more.
pub fn smaller(file: &[u8]) -> Vec<Vec<u8>> {
    let length = file.len();
    let mut all: Vec<Vec<u8>> = [length / 2, length * 3 / 4, length - length.min(12), length - length.min(1)]
        .into_iter()
        .filter(|&shorter| shorter < length)
        .map(|shorter| file[..shorter].to_vec())
        .collect();
    let zeroed = if length < 10_000 { 300 } else { 0 };
    for at in (0..length).filter(|&at| file[at] != 0).take(zeroed) {
        let mut copy = file.to_vec();
        copy[at] = 0;
        all.push(copy);
    }
    all
}
