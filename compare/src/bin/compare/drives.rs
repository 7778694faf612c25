//! Runs and resumes, with writes between them: outcome, session, every register and every number of the frame rooms.
use crate::check::{Case, Compared, Tally, hex, same, same_list};
use crate::sides::{Read, Sides};
use mescjadro_compare::bdmv::movie_object::MovieObjects;
use mescjadro_compare::chance::Chance;
use mescjadro_compare::generate::{commands, damage, discs, files};
use mescjadro_compare::paper::drives::{Call, Session, Sizes};

#[derive(Clone, Debug)]
pub enum Act {
    /// The player writes a register.
    Write {
        status: bool,
        number: u16,
        value: u32,
    },
    /// The caller hands in another session; its last number says whether it is pending.
    Hand(Session, u32),
    /// The caller writes a number of a frame room.
    Frame {
        titles: bool,
        at: usize,
        value: u32,
    },
    Drive(Call, [u32; 3]),
}

#[derive(Clone)]
pub struct Drives {
    pub index: Vec<u8>,
    pub file: Vec<u8>,
    pub sizes: Sizes,
    pub acts: Vec<Act>,
}

impl Drives {
    /// Copies with one command turned into Nop.
    fn with_nops(&self) -> Vec<Drives> {
        let Ok(read) = MovieObjects::parse(&self.file) else { return Vec::new() };
        let mut at = 78;
        let mut places = Vec::new();
        for object in read.movie_objects {
            at += 4;
            for command in object.commands {
                if command.bytes != [0; 12] {
                    places.push(at);
                }
                at += 12;
            }
        }
        let nop = |&at: &usize| {
            let mut copy = self.clone();
            copy.file[at..at + 12].fill(0);
            copy
        };
        places.iter().take(100).map(nop).collect()
    }
}

impl Case for Drives {
    fn compare(&self) -> Compared {
        let read = Read::of(self);
        let mut sides = Sides::new(self, &read);
        let mut answers = 0;
        for act in &self.acts {
            answers += sides.act(act)?;
        }
        Ok(answers)
    }

    fn smaller(&self) -> Vec<Self> {
        let mut all = Vec::new();
        for at in (0..self.acts.len()).rev() {
            let mut without = self.clone();
            without.acts.remove(at);
            all.push(without);
        }
        all.extend(self.with_nops());
        all
    }

    fn show(&self) -> String {
        let shown = |file: &[u8]| hex(&file[..file.len().min(600)]);
        let Drives { index, file, sizes, acts } = self;
        format!("index {}\n  objects {}\n  {sizes:?}\n  {acts:?}", shown(index), shown(file))
    }
}

const STEPS: [u32; 10] = [0, 1, 2, 3, 5, 10, 20, 20, 60, 60];
const OBJECTS: [u32; 10] = [0, 1, 2, 3, 4, 5, 7, 9, 12, 30];
const TITLES: [u32; 10] = [0, 1, 2, 3, 4, 5, 7, 9, 12, 20];
const ENTRIES: [u32; 14] = [0, 1, 1, 1, 2, 2, 2, 3, 4, 65_535, 65_536, 65_536, 65_537, 65_537];

fn budgets(c: &mut Chance) -> [u32; 3] {
    let mut budgets = [c.one(&STEPS), c.one(&OBJECTS), c.one(&TITLES)];
    if c.once_in(60) {
        let at = c.below(3) as usize;
        budgets[at] = c.one(&[[1_000_001, u32::MAX], [100_001, u32::MAX], [10_001, u32::MAX]][at]);
    }
    budgets
}

fn call(c: &mut Chance, objects: u64) -> Call {
    match c.below(8) {
        0 => Call::RunnerRun(commands::object(c, objects)),
        1 => Call::RunnerResume,
        2..=4 if c.once_in(30) => Call::DriverRun(c.one(&[65_538, 131_072, u32::MAX])),
        2..=4 => Call::DriverRun(c.one(&ENTRIES)),
        _ => Call::DriverResume,
    }
}

fn number(c: &mut Chance) -> u32 {
    c.one(&[0, 0, 1, 1, 2, 3, 4, 5, 6, 65_535, 65_536, 65_537, 65_538, u32::MAX])
}

/// A session that no call has left, and seldom a bad one.
fn hand(c: &mut Chance) -> Act {
    let session = Session {
        entry: if c.once_in(6) { number(c) } else { c.one(&ENTRIES) },
        object: if c.once_in(4) { number(c) } else { c.below(2) as u32 },
        pc: if c.once_in(4) { number(c) } else { c.below(4) as u32 },
        odepth: if c.once_in(6) { number(c) } else { c.below(3) as u32 },
        tdepth: if c.once_in(6) { number(c) } else { c.below(3) as u32 },
        pending: c.once_in(2),
    };
    Act::Hand(session, if session.pending { c.one(&[1, 1, 2, u32::MAX]) } else { 0 })
}

fn act(c: &mut Chance, objects: u64) -> Act {
    match c.below(40) {
        0..=6 => {
            let status = c.once_in(2);
            let number = if status { c.one(&[0, 4, 8, 13, 44, 127, 128]) } else { c.below(6) as u16 };
            Act::Write { status, number, value: commands::value(c) }
        }
        7 => hand(c),
        8 => Act::Frame { titles: c.once_in(2), at: c.below(12) as usize, value: number(c) },
        _ => Act::Drive(call(c, objects), budgets(c)),
    }
}

fn sizes(c: &mut Chance) -> Sizes {
    let frames = c.one(&[0, 1, 2, 5, 700, 700, 700, 700]);
    let titles = c.one(&[0, 1, 2, 5, 30, 30, 30, 30]);
    let mut sizes = Sizes::of_rooms(2 * frames + c.below(2) as usize, 3 * titles + c.below(3) as usize);
    if c.once_in(40) {
        match c.below(7) {
            0 => sizes.gpr = c.one(&[0, 4095, 4097]),
            1 => sizes.psr = c.one(&[0, 127, 129]),
            2 => sizes.frames = c.one(&[131_073, 131_074, 131_075]),
            3 => sizes.titles = c.one(&[196_610, 196_611, 196_612]),
            4 => sizes.session = c.one(&[0, 5, 7]),
            5 => sizes.budgets = c.one(&[0, 2, 4]),
            _ => sizes.outcome = c.one(&[0, 5, 7]),
        }
    }
    sizes
}

fn any(c: &mut Chance) -> Drives {
    let disc = discs::any(c);
    let (mut index, mut file) = match c.below(4) {
        0 => (files::loose_index(c, &disc), files::loose_objects(c, &disc)),
        _ => (disc.index_file(), disc.object_file()),
    };
    if c.once_in(20) {
        index = damage::damaged(c, &index);
    }
    if c.once_in(20) {
        file = damage::damaged(c, &file);
    }
    let count = disc.objects.len() as u64;
    let first = Act::Drive(Call::DriverRun(c.one(&[65_536, 1, 2, 65_537])), budgets(c));
    let acts = std::iter::once(first).chain((0..1 + c.below(8)).map(|_| act(c, count))).collect();
    Drives { index, file, sizes: sizes(c), acts }
}

/// Starting values: banks, a session and budgets.
pub struct Fresh;

impl Case for Fresh {
    fn compare(&self) -> Compared {
        use mescjadro_compare::library::machine::{Banks, default_budgets, fresh_session};
        use mescjadro_compare::paper::{BAD_BUFFER, FINE};
        let mut answers = same("session", fresh_session(6), Ok(Session::FRESH.numbers()))?;
        answers += same("budgets", default_budgets(3), Ok([1_000_000, 100_000, 10_000]))?;
        for wrong in [0, 2, 5, 7] {
            answers += same("session", fresh_session(wrong), Err(BAD_BUFFER))?;
            answers += same("budgets", default_budgets(wrong), Err(BAD_BUFFER))?;
        }
        for (gpr, psr) in [(4096, 128), (4095, 128), (4097, 128), (4096, 127), (4096, 129), (0, 0), (128, 4096)] {
            let mut banks = Banks::zeros(gpr, psr);
            banks.gpr.held_mut().fill(3);
            banks.psr.held_mut().fill(3);
            let right = (gpr, psr) == (4096, 128);
            answers += same("banks", banks.fresh(), if right { FINE } else { BAD_BUFFER })?;
            let held = if right { 0 } else { 3 };
            answers += same_list("general registers", banks.gpr.held(), &vec![held; gpr])?;
            answers += same_list("status registers", banks.psr.held(), &vec![held; psr])?;
        }
        Ok(answers)
    }

    fn smaller(&self) -> Vec<Self> {
        Vec::new()
    }

    fn show(&self) -> String {
        "fresh banks, session and budgets".into()
    }
}

pub fn compare(tally: &mut Tally, c: &mut Chance, count: u64) {
    tally.hold(&Fresh);
    for _ in 0..count {
        tally.hold(&any(c));
    }
}
