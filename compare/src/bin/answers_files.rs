//! Object files and index files, good and damaged, with the Rust's answers; compare/README.md says what the list holds.
use mescjadro_compare::bdmv::index_bdmv::{AppInfoBdmv, IndexBdmv, IndexEntry, IndexObjectType, TitleEntry};
use mescjadro_compare::bdmv::movie_object::{MovieObject, MovieObjects, NavCommand};
use mescjadro_compare::chance::Chance;
use mescjadro_compare::paper::files;
use std::io::Write;

type Runs = Vec<(u32, Vec<u8>)>;

enum Kind {
    Objects,
    Index,
}

struct Case {
    kind: Kind,
    file: Runs,
    asked: Vec<u32>,
}

fn once(bytes: &[u8]) -> Runs {
    vec![(1, bytes.to_vec())]
}

fn flat(runs: &Runs) -> Vec<u8> {
    runs.iter().flat_map(|(times, bytes)| bytes.repeat(*times as usize)).collect()
}

fn put_runs(out: &mut Vec<u8>, runs: &Runs) {
    out.extend((runs.len() as u16).to_be_bytes());
    for (times, bytes) in runs {
        out.extend(times.to_be_bytes());
        out.extend((bytes.len() as u16).to_be_bytes());
        out.extend(bytes);
    }
}

fn sum(bytes: &[u8]) -> u32 {
    bytes.iter().fold(0x811c_9dc5, |h, &b| (h ^ b as u32).wrapping_mul(0x0100_0193))
}

fn measured(bytes: &[u8]) -> Vec<u8> {
    [(bytes.len() as u32).to_be_bytes(), sum(bytes).to_be_bytes()].concat()
}

fn written(made: &[u8], file: &[u8]) -> Runs {
    once(&[measured(made), vec![(made == file) as u8]].concat())
}

fn flags(object: &MovieObject) -> Vec<u8> {
    vec![object.resume_intention_flag, object.menu_call_mask, object.title_search_mask]
}

fn number(object: &MovieObject) -> Vec<u8> {
    (object.commands.len() as u16).to_be_bytes().to_vec()
}

fn asked_object(objects: &[MovieObject], n: u32) -> Vec<u8> {
    let Some(object) = objects.get(n as usize) else { return [vec![10], measured(&[])].concat() };
    let commands: Vec<u8> = object.commands.iter().flat_map(|c| c.bytes).collect();
    [vec![0], flags(object), number(object), measured(&commands)].concat()
}

fn answer_objects(file: &[u8], asked: &[u32]) -> Runs {
    let refusal = [files::objects(file) as u8, files::listing(file) as u8];
    let parsed = MovieObjects::parse(file);
    assert_eq!(parsed.is_ok(), refusal[0] == 0, "the paper's rules and the Rust differ on an object file");
    let Ok(parsed) = parsed else { return once(&refusal) };
    let objects = &parsed.movie_objects;
    let mut runs = once(&[&refusal[..], &parsed.version, &(objects.len() as u16).to_be_bytes()].concat());
    runs.extend(asked.iter().map(|&n| (1, asked_object(objects, n))));
    if refusal[1] == 0 {
        let listing: String = objects.iter().enumerate().map(|(n, object)| object.disassemble(n) + "\n").collect();
        for all in
            [objects.iter().flat_map(flags).collect(), objects.iter().flat_map(number).collect(), listing.into_bytes()]
        {
            runs.push((1, measured(&all)));
        }
        runs.extend(written(&parsed.encode(), file));
    }
    runs
}

fn said(object: &IndexObjectType) -> Vec<u8> {
    match object {
        IndexObjectType::Hdmv { playback_type, movie_object_id_ref } => {
            [vec![1, *playback_type], movie_object_id_ref.to_be_bytes().to_vec()].concat()
        }
        IndexObjectType::BdJ { playback_type, bdjo_file_name } => {
            [vec![2, *playback_type], bdjo_file_name.as_bytes().to_vec()].concat()
        }
    }
}

fn asked_entry(index: &IndexBdmv, entry: u32) -> Vec<u8> {
    let which = match entry {
        65_536 => TitleEntry::FirstPlayback,
        65_537 => TitleEntry::TopMenu,
        0..=65_535 => TitleEntry::Title { number: entry as u16 },
        _ => return vec![10, 10],
    };
    let stands = index.entry(which).map_or(vec![0], |e| said(&e.object));
    let leads =
        index.resolve_movie_object(which).map_or(vec![0], |object| [vec![1], object.to_be_bytes().to_vec()].concat());
    [stands, leads].concat()
}

fn answer_index(file: &[u8], asked: &[u32]) -> Runs {
    let refusal = files::index(file) as u8;
    let parsed = IndexBdmv::parse(file);
    assert_eq!(parsed.is_ok(), refusal == 0, "the paper's rules and the Rust differ on an index file");
    let Ok(parsed) = parsed else { return once(&[refusal]) };
    let info = parsed.app_info;
    let info = [info.initial_output_mode_preference, info.content_exist_flag, info.video_format, info.frame_rate];
    let special = [said(&parsed.first_playback_title.object), said(&parsed.menu_title.object)].concat();
    let mut runs = once(&[&[0][..], &parsed.version, &info, &special, &parsed.title_count().to_be_bytes()].concat());
    runs.extend(asked.iter().map(|&entry| (1, asked_entry(&parsed, entry))));
    if parsed.titles.len() <= 300 {
        runs.extend(written(&parsed.encode(), file));
    }
    runs
}

fn record(out: &mut Vec<u8>, case: &Case) {
    let file = flat(&case.file);
    let answer = match case.kind {
        Kind::Objects => answer_objects(&file, &case.asked),
        Kind::Index => answer_index(&file, &case.asked),
    };
    out.push(match case.kind {
        Kind::Objects => 0,
        Kind::Index => 1,
    });
    put_runs(out, &case.file);
    out.extend((case.asked.len() as u16).to_be_bytes());
    case.asked.iter().for_each(|n| out.extend(n.to_be_bytes()));
    put_runs(out, &answer);
}

// ---- object files

fn command(words: [u32; 3]) -> Vec<u8> {
    words.iter().flat_map(|w| w.to_be_bytes()).collect()
}

/// The 78 bytes before the objects.
fn object_head(version: &[u8; 4], stated: u32, count: u16) -> Vec<u8> {
    [&b"MOBJ"[..], version, &[0; 32], &stated.to_be_bytes(), &[0; 32], &count.to_be_bytes()].concat()
}

fn object(first: u8, commands: u16) -> Vec<u8> {
    [&[first, 0][..], &commands.to_be_bytes()].concat()
}

fn objects_case(file: Runs) -> Case {
    let count = flat(&file).get(76..78).map_or(0, |b| b[0] as u32 * 256 + b[1] as u32);
    let asked = vec![0, count.saturating_sub(1), count, 65_535, u32::MAX];
    Case { kind: Kind::Objects, file, asked }
}

const LONGEST: [u32; 3] = [0x4800_0800, 0xC000_0030, 0xC000_0030];
const MOVE: [u32; 3] = [0x5040_0001, 5, 16];

fn known_objects() -> Vec<Runs> {
    let head = |stated, count| object_head(b"0200", stated, count);
    let mut files: Vec<Runs> = vec![once(b""), once(b"MOBJ"), once(b"MOBJ020"), once(b"MOBJ0200")];
    files.extend([39, 40, 41, 43, 44, 75, 76, 77, 78].map(|n| once(&head(0, 0)[..n])));
    files.extend([0, 1, 33, 34, 35, 36, 0x7FFF_FFFF, u32::MAX].map(|stated| once(&head(stated, 0))));
    files.push(once(&[head(35, 0), vec![7]].concat()));
    files.push(once(&[head(36, 0), vec![7]].concat()));
    files.push(once(&object_head(b"\x00\xFF\x80\x01", 34, 0)));
    for letters in [b"MOBK", b"INDX", b"mobj", b"\0\0\0\0"] {
        files.push(once(&[&letters[..], &head(34, 0)[4..]].concat()));
    }
    // Objects past the stated length, up to the file's end and over it.
    let two = [object(0x80, 1), command(MOVE), object(0x60, 2), command(MOVE), command([0, 0, 0])].concat();
    for stated in [0, 2, 34, 38, 78, 79] {
        files.push(once(&[head(stated, 2), two.clone()].concat()));
    }
    files.extend((1..two.len()).step_by(3).map(|cut| once(&[head(34, 2), two[..cut].to_vec()].concat())));
    files.extend([3, 4, 65_535].map(|count| once(&[head(34, count), two.clone()].concat())));
    // Every byte of flags, with what is not a flag set too.
    files.push(once(&[head(34, 8), (0..8).flat_map(|f| object(f << 5, 0)).collect()].concat()));
    files.push(once(&[head(34, 1), vec![0xFF, 0xFF, 0, 0]].concat()));
    files.push(once(&[head(34, 1), vec![0x1F, 0xFF, 0, 1], command([u32::MAX; 3])].concat()));
    // What the writer leaves zero.
    let marked = |at: usize| {
        let mut file =
            [head(78, 1), object(0x20, 3), [MOVE; 3].concat().iter().flat_map(|w| w.to_be_bytes()).collect()].concat();
        file[at] = 1;
        once(&file)
    };
    files.extend([8, 39, 44, 75, 79].map(marked));
    files
}

fn long_objects() -> Vec<Runs> {
    let head = |count| (1, object_head(b"0200", 34, count));
    let whole = |size: u32, count| (1, object_head(b"0200", size - 44, count));
    let commands = |n: u16, c| [(1, object(0xE0, n)), (n as u32, command(c))];
    let empty = |n: u32| (n, object(0, 0));
    let mut files: Vec<Runs> = Vec::new();
    for n in [999, 1000, 1001, 1002] {
        files.push([vec![whole(82 + 12 * n as u32, 1)], commands(n, MOVE).to_vec()].concat());
    }
    files.push(vec![whole(78 + 4 * 16_000, 16_000), empty(16_000)]);
    files.push(vec![head(16_000), empty(15_999)]);
    files.push(vec![head(16_364), empty(16_364), (2, vec![0])]);
    files.push(vec![head(16_364), empty(16_364), (3, vec![0])]);
    files.push(vec![head(16_365), empty(16_364), (2, vec![0])]);
    // 5,454 commands of the longest text fill 65,530 bytes.
    for rest in [5, 6, 7] {
        files.push([vec![head(1)], commands(5454, LONGEST).to_vec(), vec![(rest, vec![0xAB])]].concat());
    }
    files.push([vec![whole(65_530, 1)], commands(5454, LONGEST).to_vec()].concat());
    files.push([vec![head(1)], commands(5455, MOVE).to_vec()].concat());
    files.push(vec![(65_536, vec![0])]);
    files.push(vec![(65_537, vec![0])]);
    files.push(vec![head(0), (65_458, vec![0xFF])]);
    files.push(vec![head(0), (65_459, vec![0xFF])]);
    files
}

fn random_command(chance: &mut Chance) -> Vec<u8> {
    let register = |chance: &mut Chance| {
        chance.one(&[0, 0x8000_0000, 0xC000_0000]) | chance.one(&[0, 5, 10, 48, 100, 127, 128, 4095])
    };
    let words = match chance.below(4) {
        0 => [chance.word(), chance.word(), chance.word()],
        1 => [0x5000_0000 | chance.below(17) as u32, register(chance), register(chance)],
        2 => [0x4840_0000 | (chance.below(10) as u32) << 8, register(chance), chance.word()],
        _ => [0x2180_0000 | (chance.below(10) as u32) << 16, chance.below(100_000) as u32, 0],
    };
    command(words)
}

fn random_objects(chance: &mut Chance) -> Vec<u8> {
    let one = |chance: &mut Chance| MovieObject {
        resume_intention_flag: chance.below(2) as u8,
        menu_call_mask: chance.below(2) as u8,
        title_search_mask: chance.below(2) as u8,
        commands: (0..chance.below(5))
            .map(|_| NavCommand { bytes: random_command(chance).try_into().unwrap() })
            .collect(),
    };
    let movie_objects = (0..chance.below(6)).map(|_| one(chance)).collect();
    MovieObjects { version: chance.word().to_be_bytes(), movie_objects }.encode()
}

// ---- index files

fn hdmv(playback: u8, object: u16) -> Vec<u8> {
    [&[0x40, 0, playback << 6, 0][..], &object.to_be_bytes(), &[0; 6]].concat()
}

fn bdj(playback: u8, name: &[u8; 5]) -> Vec<u8> {
    [&[0x80, 0, playback << 6, 0][..], name, &[0; 3]].concat()
}

/// The 78 bytes before the Indexes, where the writer puts them.
fn index_head(start: u32, info: u32) -> Vec<u8> {
    [&b"INDX0200"[..], &start.to_be_bytes(), &[0; 28], &info.to_be_bytes(), &[0x0C, 0x61], &[0; 32]].concat()
}

fn indexes(length: u32, first: &[u8], menu: &[u8], titles: &[Vec<u8>]) -> Vec<u8> {
    [&length.to_be_bytes()[..], first, menu, &(titles.len() as u16).to_be_bytes(), &titles.concat()].concat()
}

fn index_case(file: Runs) -> Case {
    let bytes = flat(&file);
    let titles = IndexBdmv::parse(&bytes).map_or(2, |index| index.title_count() as u32);
    let mut asked = vec![65_536, 65_537, 0, 65_535, 65_538, u32::MAX];
    asked.extend(1..=titles.min(8));
    asked.extend([titles, titles + 1]);
    Case { kind: Kind::Index, file, asked }
}

const NAMES: [&[u8; 5]; 22] = [
    b"00000", b"Title", b"\0\0\0\0\0", b"a\0b\0c", b"\x7F~ \t\n", b"aaaa\xC2", b"aaa\xC2\x80", b"a\xDF\xBF\xC3\xA9",
    b"\x80aaaa", b"\xC0\x80aaa", b"\xC1\xBFaaa", b"\xE0\x80\x80aa", b"\xE0\xA0\x80aa", b"\xED\xA0\x80aa",
    b"\xED\x9F\xBFaa", b"\xEF\xBF\xBFaa", b"\xF0\x80\x80\x80a", b"\xF0\x90\x80\x80a", b"\xF4\x90\x80\x80a",
    b"\xF4\x8F\xBF\xBFa", b"a\xF0\x9F\x98\x80", b"aa\xF0\x9F\x98",
];

/// The smallest files, with the Indexes inside the header, and those at its edges.
fn small_indexes() -> Vec<Runs> {
    let placed = |start: u32, length: u32, size: usize| {
        let mut file = [&b"INDX0200"[..], &start.to_be_bytes(), &[0; 28], &[0, 0, 0, 2, 0, 0], &[0; 60]].concat();
        let at = start as usize;
        file[at..at + 4].copy_from_slice(&length.to_be_bytes());
        file[at + 4] |= 0x40;
        file[at + 16] |= 0x40;
        file.truncate(size);
        once(&file)
    };
    let mut files = vec![
        placed(8, 8, 46),
        placed(8, 8, 45),
        placed(12, 0, 46),
        placed(12, 30, 46),
        placed(12, 31, 46),
        placed(13, 0, 46),
    ];
    files.extend(
        [(16, 46), (17, 46), (46, 75), (46, 76), (60, 90), (20, 106)].map(|(start, size)| placed(start, 0, size)),
    );
    for start in [0, 4, 30, 42, 43, 46, 47, 0x7FFF_FFFF, u32::MAX] {
        files.push(once(&index_head(start, 2)[..46]));
    }
    files
}

fn known_indexes() -> Vec<Runs> {
    let (one, two) = (hdmv(0, 7), hdmv(3, 65_535));
    let plain =
        |titles: &[Vec<u8>]| [index_head(78, 34), indexes(26 + 12 * titles.len() as u32, &one, &two, titles)].concat();
    let base = plain(&[hdmv(1, 0), bdj(2, b"00001"), hdmv(0, 1)]);
    let mut files: Vec<Runs> = vec![once(b""), once(b"INDX"), once(b"INDX0200")];
    files.extend(
        [39, 40, 43, 44, 45, 46, 77, 78, 81, 82, 83, 93, 94, 95, 106, 107, 108, 109, 119, 120, 143]
            .map(|n| once(&base[..n])),
    );
    files.push(once(&base));
    files.push(once(&[base.clone(), vec![1, 2, 3]].concat()));
    files.push(once(&plain(&[])));
    for info in [0, 1, 2, 33, 34, 35, 99, 100, 101, u32::MAX] {
        files.push(once(&[index_head(78, info), base[78..].to_vec()].concat()));
    }
    // Entries past the stated end, and the stated end at the file's and one past it.
    for length in [0, 1, 25, 26, 61, 62, 63, u32::MAX] {
        let mut file = base.clone();
        file[78..82].copy_from_slice(&length.to_be_bytes());
        files.push(once(&file));
    }
    // Types 0 and 3, in each place, whole and cut.
    for at in [82, 94, 108, 120, 132] {
        for kind in [0x00, 0xC0, 0xFF, 0x7F] {
            let mut file = base.clone();
            file[at] = kind;
            files.push(once(&file));
            files.push(once(&file[..at + 11]));
        }
    }
    for name in NAMES {
        files.push(once(&plain(&[bdj(1, name)])));
    }
    files.push(once(&[index_head(78, 34), indexes(26, &bdj(3, NAMES[13]), &hdmv(0, 0), &[])].concat()));
    files.push(once(&[index_head(78, 34), indexes(26, &bdj(3, NAMES[20]), &bdj(0, NAMES[1]), &[])].concat()));
    for letters in [b"INDY", b"MOBJ", b"indx"] {
        files.push(once(&[&letters[..], &base[4..]].concat()));
    }
    for at in [12, 16, 39, 46, 77, 83, 85, 88, 107] {
        let mut file = base.clone();
        file[at] |= 1;
        files.push(once(&file));
    }
    files
}

fn long_indexes() -> Vec<Runs> {
    let head = |titles: u32| {
        let mut front = [index_head(78, 34), indexes(26 + 12 * titles, &hdmv(0, 0), &bdj(0, b"00000"), &[])].concat();
        front[106..108].copy_from_slice(&(titles as u16).to_be_bytes());
        (1, front)
    };
    vec![
        vec![head(300), (150, [hdmv(1, 3), bdj(2, b"abcde")].concat())],
        vec![head(65_535), (65_534, hdmv(2, 9)), (1, hdmv(1, 0xABCD))],
        vec![head(65_535), (65_534, hdmv(2, 9)), (1, bdj(1, b"aaaa\xC2"))],
        vec![head(65_535), (65_534, hdmv(2, 9)), (1, hdmv(1, 1)[..11].to_vec())],
    ]
}

fn random_index(chance: &mut Chance) -> Vec<u8> {
    let entry = |chance: &mut Chance| {
        let playback_type = chance.below(4) as u8;
        let name =
            String::from_utf8(chance.one(&[NAMES[0], NAMES[2], NAMES[6], NAMES[12], NAMES[20]]).to_vec()).unwrap();
        let object = match chance.once_in(3) {
            true => IndexObjectType::BdJ { playback_type, bdjo_file_name: name },
            false => IndexObjectType::Hdmv { playback_type, movie_object_id_ref: chance.word() as u16 },
        };
        IndexEntry { object }
    };
    let app_info = AppInfoBdmv {
        initial_output_mode_preference: chance.below(2) as u8,
        content_exist_flag: chance.below(2) as u8,
        video_format: chance.below(16) as u8,
        frame_rate: chance.below(16) as u8,
    };
    let (first_playback_title, menu_title) = (entry(chance), entry(chance));
    let titles = (0..chance.below(6)).map(|_| entry(chance)).collect();
    IndexBdmv { version: chance.word().to_be_bytes(), app_info, first_playback_title, menu_title, titles }.encode()
}

/// Some bytes changed, or the end cut off or longer.
fn damaged(chance: &mut Chance, mut file: Vec<u8>) -> Vec<u8> {
    match chance.below(5) {
        0 => file.truncate(chance.below(file.len() as u64) as usize),
        1 => file.extend((0..1 + chance.below(20)).map(|_| chance.word() as u8).collect::<Vec<u8>>()),
        _ => {
            for _ in 0..1 + chance.below(3) {
                let at = chance.below(file.len() as u64) as usize;
                file[at] = chance.one(&[0, 1, 2, 0x40, 0x80, 0xC0, 0xFF]);
            }
        }
    }
    file
}

fn main() {
    let mut chance = Chance(11);
    let mut cases: Vec<Case> = Vec::new();
    cases.extend([known_objects(), long_objects()].concat().into_iter().map(objects_case));
    cases.extend([small_indexes(), known_indexes(), long_indexes()].concat().into_iter().map(index_case));
    for _ in 0..80 {
        let (objects, index) = (random_objects(&mut chance), random_index(&mut chance));
        cases.push(objects_case(once(&damaged(&mut chance, objects.clone()))));
        cases.push(objects_case(once(&objects)));
        cases.push(index_case(once(&damaged(&mut chance, index.clone()))));
        cases.push(index_case(once(&index)));
    }
    let mut out = (cases.len() as u16).to_be_bytes().to_vec();
    cases.iter().for_each(|case| record(&mut out, case));
    std::io::stdout().write_all(&out).unwrap();
}
