//! Discs as records, and the plain files of them.
use super::commands::{self, Words};
use crate::chance::Chance;

/// What an index entry says: type 1 is HDMV and has an object, type 2 is BD-J and has a name.
#[derive(Clone, Copy, Debug, PartialEq, Eq)]
pub struct Entry {
    pub kind: u8,
    pub playback: u8,
    pub object: u16,
    pub name: [u8; 5],
}

#[derive(Clone, Debug, Default, PartialEq, Eq)]
pub struct Object {
    /// Resume intention, menu call mask, title search mask.
    pub flags: [u8; 3],
    pub commands: Vec<Words>,
}

#[derive(Clone, Debug, PartialEq, Eq)]
pub struct Disc {
    pub version: [u8; 4],
    /// Output mode preference, content flag, video format, frame rate.
    pub app: [u8; 4],
    /// First playback, top menu, then the titles.
    pub entries: Vec<Entry>,
    pub objects: Vec<Object>,
}

const NAMES: [[u8; 5]; 8] = [
    *b"00000", *b"\0\0\0\0\0", *b"abc\xC2\xA9", *b"\xE2\x82\xACxy", *b"\xF0\x9F\x8E\xACz", *b"\xED\x9F\xBF\xC3\xBF",
    *b"\xF4\x8F\xBF\xBF!", *b"\xE0\xA0\x80\xDF\xBF",
];

pub fn hdmv(object: u16) -> Entry {
    Entry { kind: 1, playback: 0, object, name: [0; 5] }
}

pub fn bdj(name: [u8; 5]) -> Entry {
    Entry { kind: 2, playback: 0, object: 0, name }
}

/// A disc whose first playback and top menu lead to object 0.
pub fn of(titles: Vec<Entry>, objects: Vec<Vec<Words>>) -> Disc {
    let mut entries = vec![hdmv(0), hdmv(0)];
    entries.extend(titles);
    let objects = objects.into_iter().map(|commands| Object { flags: [0; 3], commands }).collect();
    Disc { version: *b"0200", app: [0, 0, 6, 1], entries, objects }
}

fn entry(c: &mut Chance, objects: u64) -> Entry {
    let entry = if c.once_in(8) { bdj(c.one(&NAMES)) } else { hdmv(commands::object(c, objects) as u16) };
    Entry { playback: c.below(4) as u8, ..entry }
}

fn object(c: &mut Chance, objects: u64, titles: u64) -> Object {
    let length = if c.once_in(8) { 0 } else { 1 + c.below(5) };
    let commands = (0..length).map(|_| commands::for_drive(c, objects, titles)).collect();
    Object { flags: [0; 3].map(|_: u8| c.below(2) as u8), commands }
}

/// A small disc with much going back and forth.
pub fn any(c: &mut Chance) -> Disc {
    let count = if c.once_in(30) { 0 } else { 1 + c.below(5) };
    let titles = if c.once_in(6) { c.below(2) } else { 2 + c.below(4) };
    Disc {
        version: c.word().to_be_bytes(),
        app: [c.below(2) as u8, c.below(2) as u8, c.below(16) as u8, c.below(16) as u8],
        entries: (0..titles + 2).map(|_| entry(c, count)).collect(),
        objects: (0..count).map(|_| object(c, count, titles)).collect(),
    }
}

fn entry_bytes(entry: &Entry) -> [u8; 12] {
    let mut bytes = [0; 12];
    bytes[0] = entry.kind << 6;
    bytes[2] = entry.playback << 6;
    if entry.kind == 1 {
        bytes[4..6].copy_from_slice(&entry.object.to_be_bytes());
    } else {
        bytes[4..9].copy_from_slice(&entry.name);
    }
    bytes
}

fn put_length(file: &mut [u8], at: usize, length: usize) {
    file[at..at + 4].copy_from_slice(&(length as u32).to_be_bytes());
}

impl Disc {
    /// The index file, as the rules say that it is written.
    pub fn index_file(&self) -> Vec<u8> {
        let mut file = b"INDX".to_vec();
        file.extend(self.version);
        file.resize(44, 0);
        put_length(&mut file, 8, 78);
        put_length(&mut file, 40, 34);
        file.extend([self.app[0] << 3 | self.app[1] << 2, self.app[2] << 4 | self.app[3]]);
        file.resize(82, 0);
        file.extend(entry_bytes(&self.entries[0]));
        file.extend(entry_bytes(&self.entries[1]));
        file.extend((self.entries.len() as u16 - 2).to_be_bytes());
        file.extend(self.entries[2..].iter().flat_map(entry_bytes));
        let length = file.len();
        put_length(&mut file, 78, length - 82);
        file
    }

    /// The object file, as the rules say that it is written.
    pub fn object_file(&self) -> Vec<u8> {
        let mut file = b"MOBJ".to_vec();
        file.extend(self.version);
        file.resize(76, 0);
        file.extend((self.objects.len() as u16).to_be_bytes());
        for object in &self.objects {
            let [resume, menu, title] = object.flags;
            file.extend([resume << 7 | menu << 6 | title << 5, 0]);
            file.extend((object.commands.len() as u16).to_be_bytes());
            file.extend(commands::file_part(&object.commands));
        }
        let length = file.len();
        put_length(&mut file, 40, length - 44);
        file
    }
}
