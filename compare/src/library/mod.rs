//! The library's calls; each wrapper sees that a refusal alters nothing and that nothing is written beyond an answer.
pub mod lent;
pub mod machine;
pub mod raw;

use crate::generate::commands::file_part;
use crate::generate::discs::Disc;
use lent::{Lent, place};

/// A refusal's number, or the answer.
pub type Answer<T> = Result<T, u32>;

/// A call that writes `N` numbers into room of `length` numbers, where `N` is the only right length.
fn numbers<const N: usize>(length: usize, call: impl FnOnce(*mut u32, usize) -> u32) -> Answer<[u32; N]> {
    let mut result = Lent::<u32>::room(length);
    match call(result.pointer(), length) {
        0 => Ok(result.held().try_into().expect("the length was right")),
        refusal => {
            assert!(result.untouched_from(0), "refused with {refusal}, and wrote its result");
            Err(refusal)
        }
    }
}

/// A call that writes bytes into room and says how many.
fn bytes(room: usize, call: impl FnOnce(&mut [u8], &mut usize) -> u32) -> Answer<Vec<u8>> {
    let mut out = Lent::<u8>::room(room);
    let mut length = Lent::<usize>::room(1);
    match call(out.held_mut(), &mut length.held_mut()[0]) {
        0 => {
            let written = length.held()[0];
            assert!(out.untouched_from(written), "wrote beyond the {written} bytes of its answer");
            Ok(out.held()[..written].to_vec())
        }
        refusal => {
            assert!(out.untouched_from(0), "refused with {refusal}, and wrote its output");
            assert!(length.untouched_from(0), "refused with {refusal}, and wrote its length");
            Err(refusal)
        }
    }
}

pub fn decode(command: &[u8], room: usize) -> Answer<[u32; 13]> {
    numbers(room, |at, len| unsafe { raw::mescjadro_decode(place(command), command.len(), at, len) })
}

pub fn encode(command: &[u32], room: usize) -> Answer<Vec<u8>> {
    bytes(room, |out, length| unsafe {
        let refusal = raw::mescjadro_encode(place(command), command.len(), out.as_mut_ptr(), out.len());
        if refusal == 0 {
            *length = 12;
        }
        refusal
    })
}

pub fn list_command(command: &[u8], room: usize) -> Answer<Vec<u8>> {
    bytes(room, |out, length| unsafe {
        raw::mescjadro_list_command(place(command), command.len(), out.as_mut_ptr(), out.len(), length)
    })
}

pub fn objects(file: &[u8], room: usize) -> Answer<[u32; 2]> {
    numbers(room, |at, len| unsafe { raw::mescjadro_objects(place(file), file.len(), at, len) })
}

pub fn object(file: &[u8], object: u32, room: usize) -> Answer<[u32; 5]> {
    numbers(room, |at, len| unsafe { raw::mescjadro_object(place(file), file.len(), object, at, len) })
}

pub fn list_object(file: &[u8], object: u32, room: usize) -> Answer<Vec<u8>> {
    bytes(room, |out, length| unsafe {
        raw::mescjadro_list_object(place(file), file.len(), object, out.as_mut_ptr(), out.len(), length)
    })
}

pub fn list(file: &[u8], room: usize) -> Answer<Vec<u8>> {
    bytes(room, |out, length| unsafe {
        raw::mescjadro_list(place(file), file.len(), out.as_mut_ptr(), out.len(), length)
    })
}

/// What the writer of object files is handed.
#[derive(Clone, Debug)]
pub struct Objects {
    pub version: u32,
    pub flags: Vec<u8>,
    pub counts: Vec<u32>,
    pub commands: Vec<u8>,
}

impl Objects {
    pub fn of(disc: &Disc) -> Self {
        Objects {
            version: u32::from_be_bytes(disc.version),
            flags: disc.objects.iter().flat_map(|object| object.flags).collect(),
            counts: disc.objects.iter().map(|object| object.commands.len() as u32).collect(),
            commands: disc.objects.iter().flat_map(|object| file_part(&object.commands)).collect(),
        }
    }

    pub fn write(&self, out: &mut [u8], length: &mut usize) -> u32 {
        let (o, len) = (out.as_mut_ptr(), out.len());
        let Objects { version, flags, counts, commands } = self;
        let (fp, fl, np, nl) = (place(flags), flags.len(), place(counts), counts.len());
        let (cp, cl) = (place(commands), commands.len());
        unsafe { raw::mescjadro_write_objects(*version, fp, fl, np, nl, cp, cl, o, len, length) }
    }
}

pub fn write_objects(from: &Objects, room: usize) -> Answer<Vec<u8>> {
    bytes(room, |out, length| from.write(out, length))
}

pub fn index(file: &[u8], room: usize) -> Answer<[u32; 6]> {
    numbers(room, |at, len| unsafe { raw::mescjadro_index(place(file), file.len(), at, len) })
}

pub fn entry(file: &[u8], entry: u32, room: usize) -> Answer<[u32; 8]> {
    numbers(room, |at, len| unsafe { raw::mescjadro_entry(place(file), file.len(), entry, at, len) })
}

pub fn resolve(file: &[u8], entry: u32, room: usize) -> Answer<[u32; 2]> {
    numbers(room, |at, len| unsafe { raw::mescjadro_resolve(place(file), file.len(), entry, at, len) })
}

/// What the writer of index files is handed.
#[derive(Clone, Debug)]
pub struct Index {
    pub version: u32,
    pub app: Vec<u8>,
    pub kinds: Vec<u8>,
    pub playbacks: Vec<u8>,
    pub objects: Vec<u16>,
    pub names: Vec<u8>,
}

impl Index {
    pub fn of(disc: &Disc) -> Self {
        Index {
            version: u32::from_be_bytes(disc.version),
            app: disc.app.to_vec(),
            kinds: disc.entries.iter().map(|entry| entry.kind).collect(),
            playbacks: disc.entries.iter().map(|entry| entry.playback).collect(),
            objects: disc.entries.iter().map(|entry| entry.object).collect(),
            names: disc.entries.iter().flat_map(|entry| entry.name).collect(),
        }
    }

    pub fn write(&self, out: &mut [u8], length: &mut usize) -> u32 {
        let (o, len) = (out.as_mut_ptr(), out.len());
        let Index { version, app, kinds, playbacks, objects, names } = self;
        let (ap, al, kp, kl) = (place(app), app.len(), place(kinds), kinds.len());
        let (pp, pl, op, ol) = (place(playbacks), playbacks.len(), place(objects), objects.len());
        let (np, nl) = (place(names), names.len());
        unsafe { raw::mescjadro_write_index(*version, ap, al, kp, kl, pp, pl, op, ol, np, nl, o, len, length) }
    }
}

pub fn write_index(from: &Index, room: usize) -> Answer<Vec<u8>> {
    bytes(room, |out, length| from.write(out, length))
}

pub fn disc_check(index: &[u8], file: &[u8], room: usize) -> Answer<[u32; 3]> {
    let (ip, il, fp, fl) = (place(index), index.len(), place(file), file.len());
    numbers(room, |at, len| unsafe { raw::mescjadro_disc_check(ip, il, fp, fl, at, len) })
}
