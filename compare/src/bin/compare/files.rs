//! The two files: accepted or refused with which number, and every field.
use crate::check::{Case, Compared, Tally, hex, refusal_seen, same, same_list, text};
use mescjadro_compare::bdmv::index_bdmv::{IndexBdmv, IndexObjectType};
use mescjadro_compare::bdmv::movie_object::{MovieObject, MovieObjects};
use mescjadro_compare::chance::Chance;
use mescjadro_compare::generate::{damage, discs, files};
use mescjadro_compare::paper::files::LIMIT;
use mescjadro_compare::paper::{self, BAD_BUFFER, NO_ROOM, NOT_AN_ENTRY};
use mescjadro_compare::{library, numbers};

/// Objects or entries of a file that are looked at: all of a few, and some of many.
fn looked_at(count: usize) -> Vec<usize> {
    let some = [0, 1, 2, count / 2, count.saturating_sub(2), count.saturating_sub(1)];
    if count <= 40 { (0..count).collect() } else { some.to_vec() }
}

pub struct ObjectFile(pub Vec<u8>);

impl ObjectFile {
    fn refused(&self, refusal: u32) -> Compared {
        let mut answers = 0;
        if self.0.len() <= LIMIT {
            answers += same("read by the Rust", false, MovieObjects::parse(&self.0).is_ok())?;
        }
        answers += same("objects", library::objects(&self.0, 2), Err(refusal))?;
        answers += same("object", library::object(&self.0, 0, 5), Err(refusal))?;
        answers += same("list", library::list_object(&self.0, 0, 0), Err(refusal))?;
        Ok(answers + same("whole listing", library::list(&self.0, 0), Err(refusal))?)
    }

    /// Object `n`, whose head stands at `head`.
    fn object(&self, n: usize, head: usize, object: &MovieObject) -> Compared {
        let (number, count) = (n as u32, object.commands.len());
        let place = head + 4;
        let flags = [object.resume_intention_flag, object.menu_call_mask, object.title_search_mask].map(u32::from);
        let fields = [flags[0], flags[1], flags[2], count as u32, place as u32];
        let mut answers = same("object", library::object(&self.0, number, 5), Ok(fields))?;
        let commands: Vec<u8> = object.commands.iter().flat_map(|command| command.bytes).collect();
        answers += same_list("commands", &self.0[place..place + 12 * count], &commands)?;
        let listing = object.disassemble(n);
        for room in [listing.len(), listing.len() + 20] {
            let listed = library::list_object(&self.0, number, room).map(|bytes| text(&bytes));
            answers += same("listing", listed, Ok(listing.clone()))?;
        }
        let short = library::list_object(&self.0, number, listing.len() - 1);
        Ok(answers + same("listing one byte short", short, Err(NO_ROOM))?)
    }

    /// The text of each object and a line end, into room of its length and into as much as the header says.
    fn listing(&self, objects: &[MovieObject]) -> Compared {
        let listing: String = objects.iter().enumerate().map(|(n, object)| object.disassemble(n) + "\n").collect();
        let mut answers = 0;
        for room in [listing.len(), 57 * objects.len() + 10 * self.0.len()] {
            let listed = library::list(&self.0, room).map(|bytes| text(&bytes));
            answers += same("whole listing", listed, Ok(listing.clone()))?;
        }
        if !listing.is_empty() {
            let short = library::list(&self.0, listing.len() - 1);
            answers += same("whole listing one byte short", short, Err(NO_ROOM))?;
        }
        Ok(answers)
    }

    fn accepted(&self) -> Compared {
        let Ok(read) = MovieObjects::parse(&self.0) else { return same("read by the Rust", true, false) };
        let count = read.movie_objects.len();
        let head = [u32::from_be_bytes(read.version), count as u32];
        let mut answers = same("objects", library::objects(&self.0, 2), Ok(head))?;
        let mut heads = vec![78];
        for object in &read.movie_objects {
            heads.push(heads[heads.len() - 1] + 4 + 12 * object.commands.len());
        }
        for n in looked_at(count) {
            answers += self.object(n, heads[n], &read.movie_objects[n])?;
        }
        answers += self.listing(&read.movie_objects)?;
        for off in [count as u32, u32::MAX] {
            answers += same("object off the disc", library::object(&self.0, off, 5), Err(NOT_AN_ENTRY))?;
            answers += same("list off the disc", library::list_object(&self.0, off, 0), Err(NOT_AN_ENTRY))?;
        }
        Ok(answers)
    }
}

impl Case for ObjectFile {
    fn compare(&self) -> Compared {
        match paper::files::objects(&self.0) {
            paper::FINE => self.accepted(),
            refusal => {
                refusal_seen(refusal);
                self.refused(refusal)
            }
        }
    }

    fn smaller(&self) -> Vec<Self> {
        damage::smaller(&self.0).into_iter().map(ObjectFile).collect()
    }

    fn show(&self) -> String {
        format!("object file of {} bytes, {}", self.0.len(), hex(&self.0[..self.0.len().min(400)]))
    }
}

pub struct IndexFile(pub Vec<u8>);

fn entry_numbers(object: &IndexObjectType) -> [u32; 8] {
    match object {
        IndexObjectType::Hdmv { playback_type, movie_object_id_ref } => {
            [1, *playback_type as u32, *movie_object_id_ref as u32, 0, 0, 0, 0, 0]
        }
        IndexObjectType::BdJ { playback_type, bdjo_file_name } => {
            let name: [u8; 5] = bdjo_file_name.as_bytes().try_into().expect("five bytes");
            let [a, b, c, d, e] = name.map(u32::from);
            [2, *playback_type as u32, 0, a, b, c, d, e]
        }
    }
}

impl IndexFile {
    fn refused(&self, refusal: u32) -> Compared {
        let mut answers = 0;
        if self.0.len() <= LIMIT {
            answers += same("read by the Rust", false, IndexBdmv::parse(&self.0).is_ok())?;
        }
        answers += same("index", library::index(&self.0, 6), Err(refusal))?;
        answers += same("entry", library::entry(&self.0, 65_538, 8), Err(refusal))?;
        Ok(answers + same("resolve", library::resolve(&self.0, 0, 2), Err(refusal))?)
    }

    fn entry(&self, index: &IndexBdmv, number: u32) -> Compared {
        let entry = numbers::entry_of(number).expect("an entry");
        let fields = index.entry(entry).map_or([0; 8], |entry| entry_numbers(&entry.object));
        let led = index.resolve_movie_object(entry).map_or([0, 0], |object| [1, object as u32]);
        let answers = same("entry", library::entry(&self.0, number, 8), Ok(fields))?;
        Ok(answers + same("resolve", library::resolve(&self.0, number, 2), Ok(led))?)
    }

    fn accepted(&self) -> Compared {
        let Ok(read) = IndexBdmv::parse(&self.0) else { return same("read by the Rust", true, false) };
        let (app, titles) = (&read.app_info, read.titles.len() as u32);
        let mut head = [u32::from_be_bytes(read.version), 0, 0, 0, 0, titles];
        let fields = [app.initial_output_mode_preference, app.content_exist_flag, app.video_format, app.frame_rate];
        head[1..5].copy_from_slice(&fields.map(u32::from));
        let mut answers = same("index", library::index(&self.0, 6), Ok(head))?;
        let beyond = [0, titles + 1, 65_535, numbers::FIRST_PLAYBACK, numbers::TOP_MENU];
        let looked = looked_at(titles as usize).into_iter().map(|title| title as u32 + 1);
        for number in looked.chain(beyond) {
            answers += self.entry(&read, number)?;
        }
        for none in [65_538, u32::MAX] {
            answers += same("entry of no number", library::entry(&self.0, none, 8), Err(NOT_AN_ENTRY))?;
            answers += same("resolve of no number", library::resolve(&self.0, none, 2), Err(NOT_AN_ENTRY))?;
        }
        Ok(answers)
    }
}

impl Case for IndexFile {
    fn compare(&self) -> Compared {
        match paper::files::index(&self.0) {
            paper::FINE => self.accepted(),
            refusal => {
                refusal_seen(refusal);
                self.refused(refusal)
            }
        }
    }

    fn smaller(&self) -> Vec<Self> {
        damage::smaller(&self.0).into_iter().map(IndexFile).collect()
    }

    fn show(&self) -> String {
        format!("index file of {} bytes, {}", self.0.len(), hex(&self.0[..self.0.len().min(400)]))
    }
}

/// Results of lengths that the header doesn't give: refused before the file is looked at.
struct WrongLengths;

impl Case for WrongLengths {
    fn compare(&self) -> Compared {
        let mut answers = 0;
        for file in [Vec::new(), vec![0; LIMIT + 1]] {
            for wrong in [0, 1, 3, 4, 7, 9] {
                answers += same("objects", library::objects(&file, wrong), Err(BAD_BUFFER))?;
                answers += same("object", library::object(&file, 0, wrong), Err(BAD_BUFFER))?;
                answers += same("index", library::index(&file, wrong), Err(BAD_BUFFER))?;
                answers += same("entry", library::entry(&file, 65_538, wrong), Err(BAD_BUFFER))?;
                answers += same("resolve", library::resolve(&file, 65_538, wrong), Err(BAD_BUFFER))?;
            }
        }
        Ok(answers)
    }

    fn smaller(&self) -> Vec<Self> {
        Vec::new()
    }

    fn show(&self) -> String {
        "lengths of the header's results".into()
    }
}

pub fn compare(tally: &mut Tally, c: &mut Chance, count: u64) {
    tally.hold(&WrongLengths);
    for _ in 0..count {
        let disc = discs::any(c);
        let (objects, index) = (files::loose_objects(c, &disc), files::loose_index(c, &disc));
        tally.hold(&ObjectFile(disc.object_file()));
        tally.hold(&IndexFile(disc.index_file()));
        for _ in 0..4 {
            tally.hold(&ObjectFile(damage::damaged(c, &objects)));
            tally.hold(&IndexFile(damage::damaged(c, &index)));
        }
        tally.hold(&IndexFile(files::folded_index(c)));
        tally.hold(&ObjectFile(objects));
        tally.hold(&IndexFile(index));
    }
}
