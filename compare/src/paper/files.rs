//! Which files are refused, and with which number.
use super::{BAD_BODY, BAD_ENTRY, BAD_HEADER, FINE, TOO_LONG};

pub const LIMIT: usize = 16_777_216;

fn half(file: &[u8], at: usize) -> Result<usize, u32> {
    let bytes = file.get(at..at + 2).ok_or(BAD_BODY)?;
    Ok((bytes[0] as usize) << 8 | bytes[1] as usize)
}

fn word(file: &[u8], at: usize) -> Result<usize, u32> {
    Ok(half(file, at)? << 16 | half(file, at + 2)?)
}

fn header(file: &[u8], letters: &[u8; 4]) -> Result<(), u32> {
    if file.len() > LIMIT {
        return Err(TOO_LONG);
    }
    if file.len() < 40 || &file[..4] != letters { Err(BAD_HEADER) } else { Ok(()) }
}

fn ends_within(file: &[u8], end: usize) -> Result<(), u32> {
    if end > file.len() { Err(BAD_BODY) } else { Ok(()) }
}

fn read_objects(file: &[u8]) -> Result<(), u32> {
    header(file, b"MOBJ")?;
    ends_within(file, 44 + word(file, 40)?)?;
    let mut at = 78;
    for _ in 0..half(file, 76)? {
        at += 4 + 12 * half(file, at + 2)?;
        ends_within(file, at)?;
    }
    Ok(())
}

fn read_entry(file: &[u8], at: usize) -> Result<(), u32> {
    let entry = file.get(at..at + 12).ok_or(BAD_BODY)?;
    match entry[0] >> 6 {
        1 => Ok(()),
        2 if std::str::from_utf8(&entry[4..9]).is_ok() => Ok(()),
        _ => Err(BAD_ENTRY),
    }
}

fn read_index(file: &[u8]) -> Result<(), u32> {
    header(file, b"INDX")?;
    let app = word(file, 40)?;
    if app < 2 {
        return Err(BAD_BODY);
    }
    ends_within(file, 44 + app)?;
    let start = word(file, 8)?;
    ends_within(file, start + 4 + word(file, start)?)?;
    read_entry(file, start + 4)?;
    read_entry(file, start + 16)?;
    for n in 0..half(file, start + 28)? {
        read_entry(file, start + 30 + 12 * n)?;
    }
    Ok(())
}

/// The refusal of an object file.
pub fn objects(file: &[u8]) -> u32 {
    read_objects(file).err().unwrap_or(FINE)
}

/// The refusal of an index file.
pub fn index(file: &[u8]) -> u32 {
    read_index(file).err().unwrap_or(FINE)
}

/// The listing program takes at most so many bytes.
pub const LISTED: usize = 65_536;

/// The number that the listing program prints of a file, or 0.
pub fn listing(file: &[u8]) -> u32 {
    if file.len() > LISTED { TOO_LONG } else { objects(file) }
}
