//! Discs for the disc check, with what the Rust's own machine asks for; compare/README.md says what the list holds.
use mescjadro_compare::bdmv::index_bdmv::{AppInfoBdmv, IndexBdmv, IndexEntry, IndexObjectType, TitleEntry};
use mescjadro_compare::bdmv::movie_object::{MovieObject, MovieObjects, NavCommand};
use mescjadro_compare::bdmv::vm::{HdmvVm, NavRequest, Step};
use mescjadro_compare::chance::Chance;
use std::io::Write;

type Command = [u32; 3];

struct Disc {
    titles: Vec<IndexObjectType>,
    objects: Vec<Vec<Command>>,
}

fn hdmv(object: u16) -> IndexObjectType {
    IndexObjectType::Hdmv { playback_type: 0, movie_object_id_ref: object }
}

fn bdj() -> IndexObjectType {
    IndexObjectType::BdJ { playback_type: 0, bdjo_file_name: "00000".into() }
}

fn index_of(disc: &Disc) -> IndexBdmv {
    let entry = |object: &IndexObjectType| IndexEntry { object: object.clone() };
    IndexBdmv {
        version: *b"0200",
        app_info: AppInfoBdmv {
            initial_output_mode_preference: 0,
            content_exist_flag: 0,
            video_format: 0,
            frame_rate: 0,
        },
        first_playback_title: entry(&hdmv(0)),
        menu_title: entry(&hdmv(0)),
        titles: disc.titles.iter().map(entry).collect(),
    }
}

fn bytes_of(command: &Command) -> [u8; 12] {
    let mut bytes = [0; 12];
    for (i, word) in command.iter().enumerate() {
        bytes[4 * i..4 * i + 4].copy_from_slice(&word.to_be_bytes());
    }
    bytes
}

fn objects_of(disc: &Disc) -> MovieObjects {
    let object = |commands: &Vec<Command>| MovieObject {
        resume_intention_flag: 0,
        menu_call_mask: 0,
        title_search_mask: 0,
        commands: commands.iter().map(|c| NavCommand { bytes: bytes_of(c) }).collect(),
    };
    MovieObjects { version: *b"0200", movie_objects: disc.objects.iter().map(object).collect() }
}

fn lacks(index: &IndexBdmv, count: usize, request: NavRequest) -> bool {
    let title = |number: u32| match index.resolve_movie_object(TitleEntry::Title { number: number as u16 }) {
        Some(object) => object as usize >= count,
        None => true,
    };
    match request {
        NavRequest::JumpObject { mobj_id } | NavRequest::CallObject { mobj_id } => mobj_id as usize >= count,
        NavRequest::JumpTitle { title: number } | NavRequest::CallTitle { title: number } => title(number),
        _ => false,
    }
}

fn offends(index: &IndexBdmv, objects: &MovieObjects, n: usize, k: usize) -> bool {
    let count = objects.movie_objects.len();
    [0, 1, 2, 3, count as u32, 65_535, 65_536, 65_537, u32::MAX].iter().any(|&held| {
        let mut vm = HdmvVm::new();
        (0..4096).for_each(|i| vm.registers.set_gpr(i, held));
        (0..128).for_each(|i| vm.registers.set_psr_player(i, held));
        vm.set_pc(k);
        matches!(vm.step(&objects.movie_objects[n].commands), Step::Branch(request) if lacks(index, count, request))
    })
}

/// 0 passed; 1 offends, with object and command; 2 refused, with its number.
fn answer(index: &[u8], objects: &[u8]) -> [u32; 3] {
    let Ok(index) = IndexBdmv::parse(index) else { return [2, 3, 0] };
    let Ok(objects) = MovieObjects::parse(objects) else { return [2, 3, 0] };
    for (n, object) in objects.movie_objects.iter().enumerate() {
        for k in 0..object.commands.len() {
            if offends(&index, &objects, n, k) {
                return [1, n as u32, k as u32];
            }
        }
    }
    [0, 0, 0]
}

fn immediate(option: u32, value: u32) -> Command {
    [0x2180_0000 | option << 16, value, 0]
}

fn by_register(option: u32, word: u32) -> Command {
    [0x2100_0000 | option << 16, word, 0]
}

/// The discs of docs/CHECK.md and the cases that the check must tell apart.
fn known() -> Vec<Disc> {
    let one = |titles: Vec<IndexObjectType>, objects: Vec<Vec<Command>>| Disc { titles, objects };
    let nop = [0, 0, 0];
    vec![
        one(vec![hdmv(1)], vec![vec![immediate(1, 1)], vec![immediate(0, 0)]]),
        one(vec![hdmv(1)], vec![vec![by_register(0, 5)], vec![nop]]),
        one(vec![hdmv(1), bdj()], vec![vec![immediate(1, 2)], vec![nop]]),
        one(vec![hdmv(0)], vec![vec![nop; 3], vec![nop, nop, immediate(2, 2)]]),
        one(vec![hdmv(0)], vec![vec![immediate(1, 65_537)]]),
        one(vec![hdmv(0)], vec![vec![immediate(3, 65_536)]]),
        one(vec![hdmv(0)], vec![vec![[0x0101_0000, 0, 0]]]),
        one(vec![hdmv(0)], vec![vec![[0x0100_0000, 0, 0]]]),
        one(vec![hdmv(0)], vec![vec![by_register(0, 0x8000_0080)]]),
        one(vec![hdmv(0)], vec![vec![by_register(1, 0xC000_0080)]]),
        one(vec![hdmv(7)], vec![vec![immediate(1, 1)]]),
        one(vec![], vec![]),
        one(vec![], vec![vec![[0x2002_0000, 0, 0], immediate(0, 9)]]),
    ]
}

fn random(chance: &mut Chance) -> Disc {
    let count = 1 + chance.below(4);
    let titles = (0..chance.below(4))
        .map(|_| if chance.once_in(4) { bdj() } else { hdmv(chance.below(count + 1) as u16) })
        .collect();
    let command = |chance: &mut Chance| match chance.below(6) {
        0 => immediate(chance.below(5) as u32, chance.one(&[0, 1, 2, 3, 4, 65_536, 65_537, 65_538])),
        1 => immediate(chance.one(&[0, 2]), 0),
        2 if chance.once_in(4) => {
            by_register(chance.below(5) as u32, chance.one(&[0, 4095, 0x8000_0004, 0x8000_0080, 0xC000_0FFF]))
        }
        3 => [chance.word(), chance.word(), chance.word()],
        _ => chance.one(&[[0x5040_0001, 5, 16], [0x2280_0000, 1, 0], [0, 0, 0], [0x0104_0000, 0, 0]]),
    };
    let objects = (0..count).map(|_| (0..chance.below(4)).map(|_| command(chance)).collect()).collect();
    Disc { titles, objects }
}

fn record(out: &mut Vec<u8>, index: &[u8], objects: &[u8]) {
    for file in [index, objects] {
        out.extend((file.len() as u16).to_be_bytes());
        out.extend(file);
    }
    answer(index, objects).iter().for_each(|n| out.extend(n.to_be_bytes()));
}

fn main() {
    let mut chance = Chance(7);
    let mut discs = known();
    discs.extend((0..600).map(|_| random(&mut chance)));
    let mut out = ((discs.len() + 2) as u16).to_be_bytes().to_vec();
    for disc in &discs {
        record(&mut out, &index_of(disc).encode(), &objects_of(disc).encode());
    }
    let last = &discs[0];
    record(&mut out, &index_of(last).encode()[..100], &objects_of(last).encode());
    record(&mut out, &index_of(last).encode(), &objects_of(last).encode()[..90]);
    std::io::stdout().write_all(&out).unwrap();
}
