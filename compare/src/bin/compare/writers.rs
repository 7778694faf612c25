//! The two writers: the bytes of a record, or why it has none.
use crate::check::{Case, Compared, Tally, refusal_seen, same, same_list};
use mescjadro_compare::bdmv::index_bdmv::{AppInfoBdmv, IndexBdmv, IndexEntry, IndexObjectType};
use mescjadro_compare::bdmv::movie_object::{MovieObject, MovieObjects, NavCommand};
use mescjadro_compare::chance::Chance;
use mescjadro_compare::generate::discs::{self, Disc};
use mescjadro_compare::library::{self, Index, Objects};
use mescjadro_compare::paper::files::LIMIT;
use mescjadro_compare::paper::{BAD_BUFFER, FINE, NO_ROOM, NOT_ENCODABLE, first, unless};

/// A record of objects, and how much longer than its file the room is.
pub struct WriteObjects {
    pub record: Objects,
    pub spare: isize,
}

/// Room for a file of this size and some more; a record that has no file gets room for a little one.
fn room(fits: bool, size: usize, spare: isize) -> usize {
    if fits { size.saturating_add_signed(spare) } else { 200usize.saturating_add_signed(spare) }
}

/// A record that has no file: only the number of the refusal.
fn refused(refusal: u32, written: library::Answer<Vec<u8>>) -> Compared {
    refusal_seen(refusal);
    same("refusal of a record", written.map(|bytes| bytes.len()), Err(refusal))
}

impl WriteObjects {
    pub fn of(disc: &Disc, spare: isize) -> Self {
        WriteObjects { record: Objects::of(disc), spare }
    }

    fn size(&self) -> usize {
        let commands: usize = self.record.counts.iter().map(|&count| count as usize).sum();
        78 + 4 * self.record.counts.len() + 12 * commands
    }

    fn fits(&self) -> bool {
        let Objects { flags, counts, commands, .. } = &self.record;
        let stated: u64 = counts.iter().map(|&count| count as u64).sum();
        counts.len() <= 65_535
            && flags.len() == 3 * counts.len()
            && flags.iter().all(|&flag| flag < 2)
            && counts.iter().all(|&count| count < 65_536)
            && 12 * stated == commands.len() as u64
    }

    fn refusal(&self) -> u32 {
        let size = self.size();
        first(&[
            &|| unless(self.record.commands.len().is_multiple_of(12), BAD_BUFFER),
            &|| unless(self.fits(), NOT_ENCODABLE),
            &|| unless(size <= LIMIT && self.spare >= 0, NO_ROOM),
        ])
    }

    /// The Rust's record.
    fn theirs(&self) -> MovieObjects {
        let mut commands = self.record.commands.chunks_exact(12);
        let object = |(flags, &count): (&[u8], &u32)| MovieObject {
            resume_intention_flag: flags[0],
            menu_call_mask: flags[1],
            title_search_mask: flags[2],
            commands: commands
                .by_ref()
                .take(count as usize)
                .map(|bytes| NavCommand { bytes: bytes.try_into().unwrap() })
                .collect(),
        };
        let movie_objects = self.record.flags.chunks_exact(3).zip(&self.record.counts).map(object).collect();
        MovieObjects { version: self.record.version.to_be_bytes(), movie_objects }
    }
}

impl Case for WriteObjects {
    fn compare(&self) -> Compared {
        let written = library::write_objects(&self.record, room(self.fits(), self.size(), self.spare));
        match (self.refusal(), written) {
            (FINE, Ok(ours)) => same_list("written objects", &ours, &self.theirs().encode()),
            (FINE, Err(refusal)) => same("written objects", refusal, FINE),
            (refusal, written) => refused(refusal, written),
        }
    }

    fn smaller(&self) -> Vec<Self> {
        let (mut without, mut zeros) = (self.record.clone(), self.record.clone());
        without.flags.truncate(without.flags.len().saturating_sub(3));
        let last = without.counts.pop().unwrap_or(0) as usize;
        without.commands.truncate(without.commands.len().saturating_sub(12 * last));
        zeros.commands.fill(0);
        let shrunk =
            [without, zeros].into_iter().filter(|record| format!("{record:?}") != format!("{:?}", self.record));
        shrunk.map(|record| WriteObjects { record, spare: self.spare }).collect()
    }

    fn show(&self) -> String {
        format!("{:?}, room for {} bytes more", self.record, self.spare)
    }
}

/// A record of an index, and how much longer than its file the room is.
pub struct WriteIndex {
    pub record: Index,
    pub spare: isize,
}

impl WriteIndex {
    pub fn of(disc: &Disc, spare: isize) -> Self {
        WriteIndex { record: Index::of(disc), spare }
    }

    fn size(&self) -> usize {
        108 + 12 * self.record.kinds.len().saturating_sub(2)
    }

    fn fits(&self) -> bool {
        let Index { app, kinds, playbacks, objects, names, .. } = &self.record;
        let entries = kinds.len();
        app.len() == 4
            && (2..=65_537).contains(&entries)
            && (playbacks.len(), objects.len(), names.len()) == (entries, entries, 5 * entries)
            && app[0] < 2
            && app[1] < 2
            && app[2] < 16
            && app[3] < 16
            && playbacks.iter().all(|&playback| playback < 4)
            && kinds.iter().zip(names.chunks(5)).all(|(&kind, name)| match kind {
                1 => true,
                2 => std::str::from_utf8(name).is_ok(),
                _ => false,
            })
    }

    fn refusal(&self) -> u32 {
        first(&[&|| unless(self.record.app.len() == 4, BAD_BUFFER), &|| unless(self.fits(), NOT_ENCODABLE), &|| {
            unless(self.spare >= 0, NO_ROOM)
        }])
    }

    /// The Rust's record.
    fn theirs(&self) -> IndexBdmv {
        let Index { version, app, kinds, playbacks, objects, names } = &self.record;
        let object = |n: usize| {
            let (playback_type, name) = (playbacks[n], &names[5 * n..5 * n + 5]);
            let bdjo_file_name = || String::from_utf8(name.to_vec()).expect("a name that fits");
            match kinds[n] {
                1 => IndexObjectType::Hdmv { playback_type, movie_object_id_ref: objects[n] },
                _ => IndexObjectType::BdJ { playback_type, bdjo_file_name: bdjo_file_name() },
            }
        };
        let mut entries = (0..kinds.len()).map(|n| IndexEntry { object: object(n) });
        IndexBdmv {
            version: version.to_be_bytes(),
            app_info: AppInfoBdmv {
                initial_output_mode_preference: app[0],
                content_exist_flag: app[1],
                video_format: app[2],
                frame_rate: app[3],
            },
            first_playback_title: entries.next().unwrap(),
            menu_title: entries.next().unwrap(),
            titles: entries.collect(),
        }
    }
}

impl Case for WriteIndex {
    fn compare(&self) -> Compared {
        let written = library::write_index(&self.record, room(self.fits(), self.size(), self.spare));
        match (self.refusal(), written) {
            (FINE, Ok(ours)) => same_list("written index", &ours, &self.theirs().encode()),
            (FINE, Err(refusal)) => same("written index", refusal, FINE),
            (refusal, written) => refused(refusal, written),
        }
    }

    fn smaller(&self) -> Vec<Self> {
        let entries = self.record.kinds.len();
        if entries <= 2 {
            return Vec::new();
        }
        let mut record = self.record.clone();
        record.kinds.truncate(entries - 1);
        record.playbacks.truncate(entries - 1);
        record.objects.truncate(entries - 1);
        record.names.truncate(5 * entries - 5);
        vec![WriteIndex { record, spare: self.spare }]
    }

    fn show(&self) -> String {
        format!("{:?}, room for {} bytes more", self.record, self.spare)
    }
}

fn spare(c: &mut Chance) -> isize {
    c.one(&[0, 0, 0, 1, 12, -1, -1, -12, -200])
}

/// Makes one array a little wrong.
fn spoil_objects(c: &mut Chance, record: &mut Objects) {
    let at = c.below(record.counts.len().max(1) as u64) as usize;
    match c.below(8) {
        0 if !record.flags.is_empty() => record.flags[3 * at + c.below(3) as usize] = c.one(&[2, 128, 255]),
        1 if !record.counts.is_empty() => record.counts[at] = c.one(&[0, 1, 65_536, 65_537, u32::MAX]),
        2 => record.commands.push(0),
        3 => record.commands.extend([0; 12]),
        4 => record.flags.push(0),
        5 => record.counts.push(0),
        6 => drop(record.flags.pop()),
        _ => drop(record.commands.pop()),
    }
}

fn spoil_index(c: &mut Chance, record: &mut Index) {
    let at = c.below(record.kinds.len() as u64) as usize;
    match c.below(11) {
        0 => record.app[c.below(4) as usize] = c.one(&[1, 2, 15, 16, 255]),
        1 => record.kinds[at] = c.one(&[0, 3, 4, 65, 255]),
        2 => record.playbacks[at] = c.one(&[3, 4, 255]),
        3 => record.names[5 * at + 4] = c.one(&[0x80, 0xc2, 0xff]),
        4 => record.names[5 * at + c.below(4) as usize] = c.one(&[0xc0, 0xed, 0xe0, 0xf0, 0xf4, 0xf5]),
        5 => drop(record.names.pop()),
        6 => drop(record.objects.pop()),
        7 => record.playbacks.push(0),
        8 => record.kinds.truncate(c.below(3) as usize),
        9 => record.app.push(0),
        _ => drop(record.app.pop()),
    }
}

pub fn compare(tally: &mut Tally, c: &mut Chance, count: u64) {
    for _ in 0..count {
        let disc = discs::any(c);
        let (mut objects, mut index) = (WriteObjects::of(&disc, spare(c)), WriteIndex::of(&disc, spare(c)));
        tally.hold(&objects);
        tally.hold(&index);
        spoil_objects(c, &mut objects.record);
        spoil_index(c, &mut index.record);
        tally.hold(&objects);
        tally.hold(&index);
    }
}
