//! Files that a reader takes though the writer doesn't make them so.
use super::discs::Disc;
use crate::chance::Chance;

fn debris(c: &mut Chance, file: &mut [u8]) {
    if c.once_in(2) {
        file.iter_mut().for_each(|byte| *byte = c.word() as u8);
    }
}

fn put_word(file: &mut [u8], at: usize, word: u32) {
    file[at..at + 4].copy_from_slice(&word.to_be_bytes());
}

/// The same objects with debris where nothing is read, a stated length that may be short of them, and bytes after them.
pub fn loose_objects(c: &mut Chance, disc: &Disc) -> Vec<u8> {
    let mut file = disc.object_file();
    debris(c, &mut file[8..40]);
    debris(c, &mut file[44..76]);
    let mut at = 78;
    for object in &disc.objects {
        file[at] |= c.word() as u8 & 0x1f;
        debris(c, &mut file[at + 1..at + 2]);
        at += 4 + 12 * object.commands.len();
    }
    let after = if c.once_in(3) { c.below(20) } else { 0 };
    file.extend((0..after).map(|_| c.word() as u8));
    let most = file.len() as u64 - 44;
    let stated = if c.once_in(3) { most } else { c.below(most + 1) };
    put_word(&mut file, 40, stated as u32);
    file
}

/// Debris in an entry, where neither type, playback type, object nor name stands.
fn loosen_entry(c: &mut Chance, entry: &mut [u8]) {
    let kept = if entry[0] >> 6 == 1 { 6 } else { 9 };
    entry[0] |= c.word() as u8 & 0x3f;
    entry[2] |= c.word() as u8 & 0x3f;
    debris(c, &mut entry[1..2]);
    debris(c, &mut entry[3..4]);
    debris(c, &mut entry[kept..]);
}

/// The same index with a longer or shorter AppInfo, Indexes elsewhere, a short stated length, and bytes after them.
pub fn loose_index(c: &mut Chance, disc: &Disc) -> Vec<u8> {
    let plain = disc.index_file();
    let app = if c.once_in(2) { 34 } else { 2 + c.below(60) as usize };
    let gap = if c.once_in(2) { 0 } else { c.below(12) as usize };
    let mut file = plain[..46].to_vec();
    debris(c, &mut file[12..40]);
    file[44] |= c.word() as u8 & 0xf3;
    put_word(&mut file, 40, app as u32);
    file.extend((0..app - 2 + gap).map(|_| c.word() as u8));
    let start = file.len();
    put_word(&mut file, 8, start as u32);
    file.extend(&plain[78..]);
    for at in [start + 4, start + 16].into_iter().chain((start + 30..file.len()).step_by(12)) {
        loosen_entry(c, &mut file[at..at + 12]);
    }
    let after = if c.once_in(3) { c.below(20) } else { 0 };
    file.extend((0..after).map(|_| c.word() as u8));
    let most = (file.len() - start - 4) as u64;
    let stated = if c.once_in(3) { most } else { c.below(most + 1) };
    put_word(&mut file, start, stated as u32);
    file
}

/// An index whose Indexes start inside the header or AppInfo, so that the parts lie over each other.
pub fn folded_index(c: &mut Chance) -> Vec<u8> {
    let length = 46 + c.below(80) as usize;
    let start = 4 + c.below(50) as usize;
    let mut file: Vec<u8> = (0..length).map(|_| if c.once_in(3) { c.word() as u8 } else { 0 }).collect();
    let titles = c.below(5) as usize;
    let entries = [start + 4, start + 16].into_iter().chain((0..titles).map(|n| start + 30 + 12 * n));
    for at in entries.filter(|&at| at < length) {
        file[at] = 0x40 << c.below(2) | file[at] & 0x3f;
    }
    for (at, high) in [(start, 0), (start + 2, c.below(90) as u8), (start + 28, 0), (start + 29, titles as u8)] {
        if at + 1 < length {
            file[at..at + 2].copy_from_slice(&[0, high]);
        }
    }
    file[..4].copy_from_slice(b"INDX");
    if start > 8 || c.once_in(2) {
        put_word(&mut file, 8, start as u32);
    }
    if start + 30 < 40 || c.once_in(2) {
        put_word(&mut file, 40, 2 + c.below(4) as u32);
    }
    file
}
