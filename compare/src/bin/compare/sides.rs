//! The three sides of a drive: the library, document 01's reading, and the Rust where it has the same.
use crate::check::{Compared, outcome_seen, refusal_seen, same, same_list};
use crate::drives::{Act, Drives};
use mescjadro_compare::bdmv::index_bdmv::{AppInfoBdmv, IndexBdmv, IndexEntry, IndexObjectType, TitleEntry};
use mescjadro_compare::bdmv::mobj_runner;
use mescjadro_compare::bdmv::movie_object::MovieObjects;
use mescjadro_compare::bdmv::nav_driver::{self, NavDriver};
use mescjadro_compare::bdmv::vm::{self, HdmvVm};
use mescjadro_compare::library::lent::Lent;
use mescjadro_compare::library::machine::{Banks, Lending};
use mescjadro_compare::numbers;
use mescjadro_compare::paper::drives::{Call, Paper, Session};
use mescjadro_compare::paper::{BAD_BUFFER, FINE, unless};

/// The Rust's reading of a case's files.
pub struct Read {
    index: Option<IndexBdmv>,
    objects: Option<MovieObjects>,
    /// Stands in for an index that isn't read: the runner asks nothing of it.
    none: IndexBdmv,
}

impl Read {
    pub fn of(case: &Drives) -> Read {
        let nothing = || IndexEntry { object: IndexObjectType::Hdmv { playback_type: 0, movie_object_id_ref: 0 } };
        let none = IndexBdmv {
            version: [0; 4],
            app_info: AppInfoBdmv {
                initial_output_mode_preference: 0,
                content_exist_flag: 0,
                video_format: 0,
                frame_rate: 0,
            },
            first_playback_title: nothing(),
            menu_title: nothing(),
            titles: Vec::new(),
        };
        Read { index: IndexBdmv::parse(&case.index).ok(), objects: MovieObjects::parse(&case.file).ok(), none }
    }
}

pub struct Sides<'a> {
    case: &'a Drives,
    ours: Lending,
    paper: Paper<'a>,
    theirs: Option<NavDriver<'a>>,
    /// The Rust stands elsewhere than the others, and is set anew before its next call.
    behind: bool,
}

impl<'a> Sides<'a> {
    pub fn new(case: &'a Drives, read: &'a Read) -> Self {
        let sizes = case.sizes;
        let mut session = Session::FRESH.numbers().to_vec();
        session.resize(sizes.session, 0);
        Sides {
            case,
            ours: Lending {
                banks: Banks::zeros(sizes.gpr, sizes.psr),
                frames: Lent::filled(sizes.frames, 0),
                titles: Lent::filled(sizes.titles, 0),
                session: Lent::of(&session),
            },
            paper: Paper {
                index: read.index.as_ref(),
                objects: read.objects.as_ref(),
                vm: HdmvVm::new(),
                session: Session::FRESH,
                frames: vec![0; sizes.frames],
                titles: vec![0; sizes.titles],
            },
            theirs: read.objects.as_ref().map(|objects| {
                let index = read.index.as_ref().unwrap_or(&read.none);
                NavDriver::new(index, objects)
            }),
            behind: false,
        }
    }

    pub fn act(&mut self, act: &Act) -> Compared {
        match *act {
            Act::Write { status, number, value } => self.write(status, number, value),
            Act::Hand(session, pending) => {
                self.paper.session = session;
                self.behind = true;
                let mut numbers = session.numbers();
                numbers[5] = pending;
                self.ours.session.held_mut().iter_mut().zip(numbers).for_each(|(at, number)| *at = number);
                Ok(0)
            }
            Act::Frame { titles, at, value } => {
                self.behind = true;
                let (ours, paper) = match titles {
                    true => (&mut self.ours.titles, &mut self.paper.titles),
                    false => (&mut self.ours.frames, &mut self.paper.frames),
                };
                if at < paper.len() {
                    ours.held_mut()[at] = value;
                    paper[at] = value;
                }
                Ok(0)
            }
            Act::Drive(call, budgets) => self.drive(call, budgets),
        }
    }

    fn write(&mut self, status: bool, number: u16, value: u32) -> Compared {
        let fine = if status { self.case.sizes.psr == 128 } else { self.case.sizes.gpr == 4096 };
        let theirs = self.theirs.as_mut().map(|driver| driver.registers_mut());
        for registers in theirs.into_iter().chain([&mut self.paper.vm.registers]) {
            if !status {
                registers.set_gpr(number, value);
            } else if let Ok(number) = u8::try_from(number) {
                registers.set_psr_player(number, value);
            }
        }
        same("a write by the player", self.ours.banks.write(status, number, value), unless(fine, BAD_BUFFER))
    }

    fn call(&mut self, call: Call, budgets: [u32; 3]) -> Result<[u32; 6], u32> {
        let mut handed = budgets.to_vec();
        handed.resize(self.case.sizes.budgets, 0);
        self.ours.drive(call, &self.case.index, &self.case.file, &handed, self.case.sizes.outcome)
    }

    fn drive(&mut self, call: Call, budgets: [u32; 3]) -> Compared {
        let Drives { index, file, sizes, .. } = self.case;
        let refusal = self.paper.refusal(call, *sizes, budgets, index, file);
        if refusal != FINE {
            refusal_seen(refusal);
            return self.refused(refusal, call, budgets);
        }
        let compared = !self.behind || self.catch_up();
        let outcome = self.paper.drive(call, budgets);
        outcome_seen(outcome);
        let answers = same("outcome", self.call(call, budgets), Ok(outcome))? + self.as_on_paper()?;
        // A full stack is none of the Rust's outcomes, and a session that it can't hold is none of its sessions.
        self.behind = outcome[0] >= 6 || !compared;
        if self.behind {
            return Ok(answers);
        }
        let driver = self.theirs.as_mut().expect("the objects were read");
        let theirs = driven(driver, call, budgets);
        Ok(answers + same("outcome", outcome, theirs)? + self.as_in_rust()?)
    }

    fn refused(&mut self, refusal: u32, call: Call, budgets: [u32; 3]) -> Compared {
        let before = self.ours.clone();
        let answers = same("refusal", self.call(call, budgets), Err(refusal))?;
        let Lending { banks, frames, titles, session } = &self.ours;
        same_list("general registers", banks.gpr.held(), before.banks.gpr.held())?;
        same_list("status registers", banks.psr.held(), before.banks.psr.held())?;
        same_list("object frames", frames.held(), before.frames.held())?;
        same_list("title frames", titles.held(), before.titles.held())?;
        Ok(answers + same_list("session", session.held(), before.session.held())?)
    }

    /// Registers, rooms and session are those of document 01's reading.
    fn as_on_paper(&self) -> Compared {
        let Lending { banks, frames, titles, session } = &self.ours;
        let mut answers = same("session", session.held(), &self.paper.session.numbers())?;
        answers += same_list("general registers", banks.gpr.held(), self.paper.general())?;
        answers += same_list("status registers", banks.psr.held(), self.paper.status())?;
        answers += same_list("object frames", frames.held(), &self.paper.frames)?;
        Ok(answers + same_list("title frames", titles.held(), &self.paper.titles)?)
    }

    /// Registers, live frames and session are those of the Rust.
    fn as_in_rust(&self) -> Compared {
        let driver = self.theirs.as_ref().expect("the objects were read");
        let runner = nav_driver::probe::runner(driver);
        let Lending { banks, frames, titles, session } = &self.ours;
        let stack: Vec<u32> =
            mobj_runner::probe::frames(runner).iter().flat_map(|&(object, pc)| [object as u32, pc as u32]).collect();
        let title_stack: Vec<u32> = nav_driver::probe::frames(driver)
            .iter()
            .flat_map(|&(entry, object, pc)| [numbers::entry_number(entry), object as u32, pc as u32])
            .collect();
        let theirs = Session {
            entry: numbers::entry_number(driver.current_entry()),
            object: runner.current_object() as u32,
            pc: runner.vm.pc() as u32,
            odepth: stack.len() as u32 / 2,
            tdepth: title_stack.len() as u32 / 3,
            pending: nav_driver::probe::pending(driver),
        };
        let mut answers = same("session", session.held(), &theirs.numbers())?;
        answers += same_list("object frames", &frames.held()[..stack.len()], &stack)?;
        answers += same_list("title frames", &titles.held()[..title_stack.len()], &title_stack)?;
        let registers = driver.registers();
        answers += same_list("general registers", banks.gpr.held(), vm::probe::general(registers))?;
        Ok(answers + same_list("status registers", banks.psr.held(), vm::probe::status(registers))?)
    }

    /// Sets the Rust to where the others stand, if it can stand there.
    fn catch_up(&mut self) -> bool {
        let Session { entry, object, pc, odepth, tdepth, pending } = self.paper.session;
        let titles: Option<Vec<(TitleEntry, usize, usize)>> = self.paper.titles[..3 * tdepth as usize]
            .chunks_exact(3)
            .map(|frame| Some((numbers::entry_of(frame[0])?, frame[1] as usize, frame[2] as usize)))
            .collect();
        let (Some(entry), Some(titles)) = (numbers::entry_of(entry), titles) else { return false };
        let frames: Vec<(usize, usize)> = self.paper.frames[..2 * odepth as usize]
            .chunks_exact(2)
            .map(|frame| (frame[0] as usize, frame[1] as usize))
            .collect();
        let driver = self.theirs.as_mut().expect("the objects were read");
        nav_driver::probe::set(driver, entry, pending, &titles);
        vm::probe::set(driver.registers_mut(), self.paper.general(), self.paper.status());
        let runner = nav_driver::probe::runner_mut(driver);
        runner.set_object_pc(object as usize, pc as usize);
        mobj_runner::probe::set_frames(runner, &frames);
        true
    }
}

/// The Rust's outcome of a call.
fn driven(driver: &mut NavDriver, call: Call, budgets: [u32; 3]) -> [u32; 6] {
    driver.set_title_budget(budgets[2] as u64);
    let runner = nav_driver::probe::runner_mut(driver);
    mobj_runner::probe::set_budgets(runner, budgets[0] as u64, budgets[1] as u64);
    match call {
        Call::RunnerRun(object) => numbers::ran(runner.run(object as usize)),
        Call::RunnerResume => numbers::ran(runner.resume()),
        Call::DriverRun(entry) => numbers::drove(driver.run(numbers::entry_of(entry).expect("an entry"))),
        Call::DriverResume => numbers::drove(driver.resume()),
    }
}
