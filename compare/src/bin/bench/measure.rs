//! Times of several works in turn: the thread's own processor time, which what else the machine does hardly touches.

/// So many nanoseconds a measurement lasts at least, and so often it is taken.
const LASTS: f64 = 2e6;
const TAKEN: usize = 41;

unsafe extern "C" {
    fn clock_gettime(clock: i32, time: *mut [i64; 2]) -> i32;
}

/// The thread's processor time in nanoseconds.
fn now() -> f64 {
    const THREAD: i32 = 3;
    let mut time = [0; 2];
    let told = unsafe { clock_gettime(THREAD, &mut time) };
    assert_eq!(told, 0, "the thread's clock");
    time[0] as f64 * 1e9 + time[1] as f64
}

pub type Work<'a> = Box<dyn FnMut() + 'a>;

/// A side's smallest and median time, in nanoseconds.
#[derive(Clone, Copy)]
pub struct Time {
    pub smallest: f64,
    pub median: f64,
}

fn once(work: &mut Work, times: u32) -> f64 {
    let began = now();
    for _ in 0..times {
        work();
    }
    (now() - began) / times as f64
}

/// How often the work is done so that a measurement lasts long enough.
fn times(work: &mut Work) -> u32 {
    let mut times = 1;
    loop {
        let took = once(work, times) * times as f64;
        if took >= LASTS || times >= 1 << 24 {
            return times;
        }
        times *= 2;
    }
}

fn time(mut taken: Vec<f64>) -> Time {
    taken.sort_by(f64::total_cmp);
    Time { smallest: taken[0], median: taken[taken.len() / 2] }
}

/// The times of several works, taken in turn.
pub fn interleaved(works: &mut [Work]) -> Vec<Time> {
    let times: Vec<u32> = works.iter_mut().map(times).collect();
    let mut taken = vec![Vec::new(); works.len()];
    for _ in 0..TAKEN {
        for ((work, times), taken) in works.iter_mut().zip(&times).zip(&mut taken) {
            taken.push(once(work, *times));
        }
    }
    taken.into_iter().map(time).collect()
}

impl Time {
    /// What is left when another time is taken off, for each of so many.
    pub fn less(self, other: Time, count: f64) -> Time {
        let each = |whole: f64, off: f64| (whole - off).max(0.0) / count;
        Time { smallest: each(self.smallest, other.smallest), median: each(self.median, other.median) }
    }

    pub fn each(self, count: f64) -> Time {
        Time { smallest: self.smallest / count, median: self.median / count }
    }
}
