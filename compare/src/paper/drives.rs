//! Drives on lent frame room: objects and titles as document 01 says, over the Rust's command machine.
use super::{BAD_BUDGET, BAD_BUFFER, BAD_SESSION, FINE, NOT_AN_ENTRY, files, first, unless};
use crate::bdmv::index_bdmv::IndexBdmv;
use crate::bdmv::movie_object::MovieObjects;
use crate::bdmv::vm::{HdmvVm, NavRequest, Step, probe};
use crate::numbers;

/// Which drive is called, and with which object or entry.
#[derive(Clone, Copy, Debug, PartialEq, Eq)]
pub enum Call {
    RunnerRun(u32),
    RunnerResume,
    DriverRun(u32),
    DriverResume,
}

#[derive(Clone, Copy, Debug, PartialEq, Eq)]
pub struct Session {
    pub entry: u32,
    pub object: u32,
    pub pc: u32,
    pub odepth: u32,
    pub tdepth: u32,
    pub pending: bool,
}

impl Session {
    pub const FRESH: Session = Session { entry: 65_536, object: 0, pc: 0, odepth: 0, tdepth: 0, pending: false };

    pub fn numbers(self) -> [u32; 6] {
        [self.entry, self.object, self.pc, self.odepth, self.tdepth, self.pending as u32]
    }
}

/// How many numbers stand in what a call is handed.
#[derive(Clone, Copy, Debug, PartialEq, Eq)]
pub struct Sizes {
    pub gpr: usize,
    pub psr: usize,
    pub frames: usize,
    pub titles: usize,
    pub session: usize,
    pub budgets: usize,
    pub outcome: usize,
}

impl Sizes {
    pub fn of_rooms(frames: usize, titles: usize) -> Sizes {
        Sizes { gpr: 4096, psr: 128, frames, titles, session: 6, budgets: 3, outcome: 6 }
    }

    fn refusal(self) -> u32 {
        let whole = (self.gpr, self.psr, self.session, self.budgets, self.outcome) == (4096, 128, 6, 3, 6);
        unless(whole && self.frames / 2 <= 65_536 && self.titles / 3 <= 65_536, BAD_BUFFER)
    }
}

fn budgets_refusal(b: [u32; 3]) -> u32 {
    unless(b[0] <= 1_000_000 && b[1] <= 100_000 && b[2] <= 10_000, BAD_BUDGET)
}

fn session_refusal(s: Session, waits: bool, frames: &[u32], titles: &[u32], count: u32) -> u32 {
    let (odepth, tdepth) = (s.odepth as usize, s.tdepth as usize);
    if odepth > frames.len() / 2 || tdepth > titles.len() / 3 || s.entry > 65_537 {
        return BAD_SESSION;
    }
    let objects = frames.chunks_exact(2).take(odepth).all(|frame| frame[0] < count);
    let entries = titles.chunks_exact(3).take(tdepth).all(|frame| frame[0] <= 65_537 && frame[1] < count);
    unless(!waits || s.object < count && objects && entries, BAD_SESSION)
}

/// How the object side of a drive ends.
enum End {
    Finished,
    Asked(NavRequest),
    BadObject(u32),
    Exhausted,
    Full,
}

/// A drive's state; the index is needed by the driver alone.
pub struct Paper<'a> {
    pub index: Option<&'a IndexBdmv>,
    pub objects: Option<&'a MovieObjects>,
    pub vm: HdmvVm,
    pub session: Session,
    pub frames: Vec<u32>,
    pub titles: Vec<u32>,
}

/// Takes one from what is left, or says that nothing is.
fn charge(left: &mut u32) -> bool {
    let some = *left > 0;
    *left -= some as u32;
    some
}

impl Paper<'_> {
    fn count(&self) -> u32 {
        self.objects.map_or(0, |objects| objects.movie_objects.len() as u32)
    }

    /// The refusal of a call, in the order for drives.
    pub fn refusal(&self, call: Call, sizes: Sizes, budgets: [u32; 3], index: &[u8], file: &[u8]) -> u32 {
        let driver = matches!(call, Call::DriverRun(_) | Call::DriverResume);
        let waits = self.session.pending || call == Call::RunnerResume;
        let entry = if let Call::DriverRun(entry) = call { entry } else { 0 };
        first(&[
            &|| sizes.refusal(),
            &|| budgets_refusal(budgets),
            &|| unless(entry <= 65_537, NOT_AN_ENTRY),
            &|| if driver { files::index(index) } else { FINE },
            &|| files::objects(file),
            &|| session_refusal(self.session, waits, &self.frames, &self.titles, self.count()),
        ])
    }

    /// The outcome of a call that isn't refused.
    pub fn drive(&mut self, call: Call, budgets: [u32; 3]) -> [u32; 6] {
        let runs = |end| match end {
            End::Finished => numbers::finished(),
            End::Asked(asked) => numbers::requested(asked),
            End::BadObject(object) => numbers::bad_object(object),
            End::Exhausted => numbers::exhausted(),
            End::Full => numbers::object_stack_full(),
        };
        match call {
            Call::RunnerRun(object) => runs(self.start(object, budgets)),
            Call::RunnerResume => runs(self.follow_objects(budgets)),
            Call::DriverRun(entry) => self.start_entry(entry, budgets),
            Call::DriverResume if !self.session.pending => numbers::finished(),
            Call::DriverResume => {
                self.session.pending = false;
                let end = self.follow_objects(budgets);
                self.follow_titles(end, budgets)
            }
        }
    }

    fn go_to(&mut self, object: u32, pc: u32) {
        self.session.object = object;
        self.session.pc = pc;
    }

    /// Starts an object with no object frames, unless it is a bad one.
    fn start(&mut self, object: u32, budgets: [u32; 3]) -> End {
        if object >= self.count() {
            return End::BadObject(object);
        }
        self.go_to(object, 0);
        self.session.odepth = 0;
        self.follow_objects(budgets)
    }

    fn run_commands(&mut self, steps: u32) -> Step {
        let objects = self.objects.expect("the file was read");
        self.vm.set_pc(self.session.pc as usize);
        self.vm.set_step_budget(steps as u64);
        let step = self.vm.run(&objects.movie_objects[self.session.object as usize].commands);
        self.session.pc = self.vm.pc() as u32;
        step
    }

    fn follow_objects(&mut self, budgets: [u32; 3]) -> End {
        let mut left = budgets[1];
        loop {
            let goes_on = match self.run_commands(budgets[0]) {
                Step::Branch(NavRequest::JumpObject { mobj_id }) => self.jump_object(mobj_id, &mut left),
                Step::Branch(NavRequest::CallObject { mobj_id }) => self.call_object(mobj_id, &mut left),
                Step::Branch(asked) if asked != NavRequest::Resume => Err(End::Asked(asked)),
                _ => self.leave_object(&mut left),
            };
            if let Err(end) = goes_on {
                return end;
            }
        }
    }

    fn jump_object(&mut self, object: u32, left: &mut u32) -> Result<(), End> {
        if !charge(left) {
            return Err(End::Exhausted);
        }
        if object >= self.count() {
            return Err(End::BadObject(object));
        }
        self.go_to(object, 0);
        Ok(())
    }

    fn call_object(&mut self, object: u32, left: &mut u32) -> Result<(), End> {
        let Session { object: caller, pc, odepth, .. } = self.session;
        let room = self.frames.len() / 2;
        if !charge(left) {
            return Err(End::Exhausted);
        }
        if object >= self.count() {
            return Err(End::BadObject(object));
        }
        if odepth as usize >= room {
            return Err(End::Full);
        }
        self.frames[2 * odepth as usize..][..2].copy_from_slice(&[caller, pc]);
        self.session.odepth += 1;
        self.go_to(object, 0);
        Ok(())
    }

    fn leave_object(&mut self, left: &mut u32) -> Result<(), End> {
        if self.session.odepth == 0 {
            return Err(End::Finished);
        }
        self.session.odepth -= 1;
        if !charge(left) {
            return Err(End::Exhausted);
        }
        let at = 2 * self.session.odepth as usize;
        self.go_to(self.frames[at], self.frames[at + 1]);
        Ok(())
    }

    fn resolved(&self, entry: u32) -> Option<u32> {
        let entry = numbers::entry_of(entry).expect("an entry");
        self.index.expect("the index was read").resolve_movie_object(entry).map(u32::from)
    }

    /// The entry, and register 4 for it.
    fn set_entry(&mut self, entry: u32) {
        self.session.entry = entry;
        let title = match entry {
            numbers::FIRST_PLAYBACK => 0,
            numbers::TOP_MENU => 65_535,
            title => title,
        };
        self.vm.registers.set_psr_player(4, title);
    }

    fn start_entry(&mut self, entry: u32, budgets: [u32; 3]) -> [u32; 6] {
        self.session.tdepth = 0;
        self.session.pending = false;
        let Some(object) = self.resolved(entry) else {
            return numbers::bad_title(entry.min(65_535) as u16);
        };
        self.set_entry(entry);
        let end = self.start(object, budgets);
        self.follow_titles(end, budgets)
    }

    fn follow_titles(&mut self, mut end: End, budgets: [u32; 3]) -> [u32; 6] {
        let mut left = budgets[2];
        loop {
            let next = match end {
                End::Finished => self.leave_title(&mut left, budgets),
                End::BadObject(object) => return numbers::bad_object(object),
                End::Exhausted => return numbers::exhausted(),
                End::Full => return numbers::object_stack_full(),
                End::Asked(NavRequest::JumpTitle { title }) => self.enter_title(title, false, &mut left, budgets),
                End::Asked(NavRequest::CallTitle { title }) => self.enter_title(title, true, &mut left, budgets),
                End::Asked(asked) => return self.wait(asked),
            };
            match next {
                Ok(next) => end = next,
                Err(outcome) => return outcome,
            }
        }
    }

    fn leave_title(&mut self, left: &mut u32, budgets: [u32; 3]) -> Result<End, [u32; 6]> {
        if self.session.tdepth == 0 {
            return Err(numbers::finished());
        }
        self.session.tdepth -= 1;
        if !charge(left) {
            return Err(numbers::exhausted());
        }
        let at = 3 * self.session.tdepth as usize;
        let (entry, object, pc) = (self.titles[at], self.titles[at + 1], self.titles[at + 2]);
        self.set_entry(entry);
        self.go_to(object, pc);
        Ok(self.follow_objects(budgets))
    }

    fn enter_title(&mut self, title: u32, call: bool, left: &mut u32, budgets: [u32; 3]) -> Result<End, [u32; 6]> {
        if !charge(left) {
            return Err(numbers::exhausted());
        }
        let cut = title % 65_536;
        let Some(object) = self.resolved(cut) else { return Err(numbers::bad_title(cut as u16)) };
        if call {
            let Session { entry, object, pc, tdepth, .. } = self.session;
            if tdepth as usize >= self.titles.len() / 3 {
                return Err(numbers::title_stack_full());
            }
            self.titles[3 * tdepth as usize..][..3].copy_from_slice(&[entry, object, pc]);
            self.session.tdepth += 1;
        }
        self.set_entry(cut);
        Ok(self.start(object, budgets))
    }

    fn wait(&mut self, asked: NavRequest) -> [u32; 6] {
        self.session.pending = true;
        match asked {
            NavRequest::PlayPlayList { playlist } => [1, playlist, 0, 0, 0, 0],
            NavRequest::PlayPlayListAtPlayItem { playlist, play_item } => [1, playlist, 1, play_item, 0, 0],
            NavRequest::PlayPlayListAtMark { playlist, mark } => [1, playlist, 0, 0, 1, mark],
            other => numbers::requested(other),
        }
    }

    pub fn general(&self) -> &[u32; 4096] {
        probe::general(&self.vm.registers)
    }

    pub fn status(&self) -> &[u32; 128] {
        probe::status(&self.vm.registers)
    }
}
