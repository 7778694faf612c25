//! The disc check: which command it names, and that a passed disc never ends in bad object or bad title.
use crate::check::{Case, Compared, Tally, hex, same};
use mescjadro_compare::bdmv::index_bdmv::IndexBdmv;
use mescjadro_compare::bdmv::movie_object::MovieObjects;
use mescjadro_compare::chance::Chance;
use mescjadro_compare::generate::commands::{self, CALL_OBJECT, CALL_TITLE, JUMP_OBJECT, JUMP_TITLE};
use mescjadro_compare::generate::discs::{self, Disc};
use mescjadro_compare::generate::{damage, files};
use mescjadro_compare::library;
use mescjadro_compare::library::lent::Lent;
use mescjadro_compare::library::machine::{Banks, Lending};
use mescjadro_compare::paper::drives::{Call, Session};
use mescjadro_compare::paper::{self, BAD_BUFFER, FINE, first};

pub struct Check {
    pub index: Vec<u8>,
    pub file: Vec<u8>,
    /// What the player writes into all registers before each call of a passed disc.
    pub held: u32,
}

impl Check {
    pub fn of(disc: &Disc) -> Check {
        Check { index: disc.index_file(), file: disc.object_file(), held: 0 }
    }

    fn refusal(&self) -> u32 {
        first(&[&|| paper::files::index(&self.index), &|| paper::files::objects(&self.file)])
    }

    /// A run and some resumes of each entry that leads to an object.
    fn passed(&self, index: &IndexBdmv, objects: &MovieObjects) -> Compared {
        let mut answers = 0;
        for entry in [1, 2, 65_536, 65_537] {
            let number = mescjadro_compare::numbers::entry_of(entry).expect("an entry");
            let led = index.resolve_movie_object(number);
            if led.is_none_or(|object| object as usize >= objects.movie_objects.len()) {
                continue;
            }
            let mut lent = Lending {
                banks: Banks::zeros(4096, 128),
                frames: Lent::filled(40, 0),
                titles: Lent::filled(20, 0),
                session: Lent::of(&Session::FRESH.numbers()),
            };
            let calls = [Call::DriverRun(entry), Call::DriverResume, Call::DriverResume, Call::DriverResume];
            for call in calls {
                lent.banks.gpr.held_mut().fill(self.held);
                lent.banks.psr.held_mut().fill(self.held);
                let outcome = lent.drive(call, &self.index, &self.file, &[30, 12, 8], 6);
                answers += same("a passed disc is never bad", outcome.is_ok_and(|o| o[0] == 3 || o[0] == 4), false)?;
            }
        }
        Ok(answers)
    }
}

impl Case for Check {
    fn compare(&self) -> Compared {
        let ours = library::disc_check(&self.index, &self.file, 3);
        let mut answers =
            same("check into two numbers", library::disc_check(&self.index, &self.file, 2), Err(BAD_BUFFER))?;
        let refusal = self.refusal();
        if refusal != FINE {
            return Ok(answers + same("check", ours, Err(refusal))?);
        }
        let (Ok(index), Ok(objects)) = (IndexBdmv::parse(&self.index), MovieObjects::parse(&self.file)) else {
            return same("read by the Rust", true, false);
        };
        let theirs = paper::check::check(&index, &objects);
        answers += same("check", ours, Ok(theirs))?;
        if theirs == [0; 3] {
            answers += self.passed(&index, &objects)?;
        }
        Ok(answers)
    }

    fn smaller(&self) -> Vec<Self> {
        let fewer = |file| Check { index: self.index.clone(), file, held: self.held };
        damage::smaller(&self.file).into_iter().map(fewer).collect()
    }

    fn show(&self) -> String {
        let shown = |file: &[u8]| hex(&file[..file.len().min(600)]);
        format!("index {}\n  objects {}, registers hold {}", shown(&self.index), shown(&self.file), self.held)
    }
}

/// A disc whose jumps and calls mostly lead somewhere.
fn sound(c: &mut Chance) -> Disc {
    let (count, titles) = (1 + c.below(5), 1 + c.below(4));
    let mut disc = discs::any(c);
    disc.entries = (0..titles + 2).map(|_| discs::hdmv(c.below(count) as u16)).collect();
    let wrong = c.once_in(2);
    let command = |c: &mut Chance| match c.below(7) {
        0 => commands::transfer(c.one(&[JUMP_OBJECT, CALL_OBJECT]), c.below(count + wrong as u64) as u32),
        1 => commands::transfer(c.one(&[JUMP_TITLE, CALL_TITLE]), 1 + c.below(titles + wrong as u64) as u32),
        2 => commands::transfer(c.one(&[JUMP_TITLE, CALL_TITLE]), 65_537 + 65_536 * c.below(9) as u32),
        3 => [0x2100_0000 | c.one(&[0, 1, 2, 3, 4, 5]) << 16, 0xc000_0080 | c.below(3968) as u32, 0],
        4 => commands::play(c.below(6) as u32, 1, 2),
        5 => commands::RESUME,
        _ => [c.word() & !0x1f00_0000 | 0x1000_0000, c.word(), c.word()],
    };
    disc.objects.resize(count as usize, discs::Object::default());
    for object in &mut disc.objects {
        object.commands = (0..c.below(5)).map(|_| command(c)).collect();
    }
    if c.once_in(8) {
        disc.entries[2] = discs::bdj(*b"00000");
    }
    disc
}

pub fn compare(tally: &mut Tally, c: &mut Chance, count: u64) {
    for _ in 0..count {
        let disc = sound(c);
        let held = commands::value(c);
        tally.hold(&Check { held, ..Check::of(&disc) });
        let any = discs::any(c);
        let (mut index, mut file) = (files::loose_index(c, &any), files::loose_objects(c, &any));
        if c.once_in(3) {
            index = damage::damaged(c, &index);
            file = damage::damaged(c, &file);
        }
        tally.hold(&Check { index, file, held });
    }
}
