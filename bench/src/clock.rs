//! Times of several programs for one job, in turns. What counts is the processor's time, so that other work on the machine does not.

use std::arch::asm;
use std::time::Duration;

/// A program under the clock: each call does the job once.
pub type Job<'a> = Box<dyn FnMut() + 'a>;

/// The value, of which the compiler must know nothing; `std::hint` has this from Rust 1.66 on.
pub fn black_box<T>(value: T) -> T {
    // SAFETY: no instruction at all; the compiler takes it for one that reads and writes the value.
    unsafe { asm!("/* {0} */", in(reg) &value, options(nostack, preserves_flags)) };
    value
}

/// The job of a function whose answer the compiler must not leave out.
pub fn job<'a, T>(mut run: impl FnMut() -> T + 'a) -> Job<'a> {
    Box::new(move || drop(black_box(run())))
}

/// The median time of a job in nanoseconds, and the median over the turns of this time divided by the first program's.
#[derive(Clone, Copy)]
pub struct Timed {
    pub time: f64,
    pub of_first: f64,
}

/// Whose time counts.
#[derive(Clone, Copy)]
pub enum Whose {
    Thread,
    Children,
}

/// How long a turn of one program is, at least; a turn is never less than one job.
const TURN: Duration = Duration::from_millis(2);
const TURNS: usize = 31;

pub fn time(whose: Whose, mut jobs: Vec<Job>) -> Vec<Timed> {
    let batches: Vec<u64> = jobs.iter_mut().map(|job| batch(whose, job)).collect();
    let mut times: Vec<Vec<f64>> = vec![Vec::new(); jobs.len()];
    for _ in 0..TURNS {
        for ((job, batch), times) in jobs.iter_mut().zip(&batches).zip(&mut times) {
            times.push(one_turn(whose, job, *batch).as_nanos() as f64 / *batch as f64);
        }
    }
    medians(&times)
}

/// Of the times of each program, turn by turn.
pub fn medians(times: &[Vec<f64>]) -> Vec<Timed> {
    let of_first = |turns: &Vec<f64>| median(turns.iter().zip(&times[0]).map(|(time, first)| time / first).collect());
    times.iter().map(|turns| Timed { time: median(turns.clone()), of_first: of_first(turns) }).collect()
}

/// The answer of one run, and its time in nanoseconds.
pub fn once<T>(run: impl FnOnce() -> T) -> (T, f64) {
    let start = processor_time(Whose::Thread);
    let answer = black_box(run());
    (answer, (processor_time(Whose::Thread) - start).as_nanos() as f64)
}

/// How many jobs fill a turn.
fn batch(whose: Whose, job: &mut Job) -> u64 {
    let mut jobs = 1;
    loop {
        let time = one_turn(whose, job, jobs);
        if time >= TURN {
            return jobs;
        }
        let wanted = TURN.as_nanos() as f64 / time.as_nanos().max(1) as f64;
        jobs = (jobs as f64 * wanted.clamp(1.2, 10.0)).ceil() as u64;
    }
}

fn one_turn(whose: Whose, job: &mut Job, jobs: u64) -> Duration {
    let start = processor_time(whose);
    for _ in 0..jobs {
        job();
    }
    processor_time(whose) - start
}

fn median(mut times: Vec<f64>) -> f64 {
    times.sort_by(f64::total_cmp);
    times[times.len() / 2]
}

fn processor_time(whose: Whose) -> Duration {
    match whose {
        Whose::Thread => thread_time(),
        Whose::Children => children_time(),
    }
}

#[repr(C)]
#[derive(Clone, Copy, Default)]
struct Timespec {
    seconds: i64,
    nanoseconds: i64,
}

#[repr(C)]
#[derive(Clone, Copy, Default)]
struct Timeval {
    seconds: i64,
    microseconds: i64,
}

#[repr(C)]
#[derive(Default)]
struct Usage {
    user: Timeval,
    system: Timeval,
    others: [i64; 14],
}

extern "C" {
    fn clock_gettime(clock: i32, time: *mut Timespec) -> i32;
    fn getrusage(whose: i32, usage: *mut Usage) -> i32;
}

const CLOCK_THREAD_CPUTIME_ID: i32 = 3;
const RUSAGE_CHILDREN: i32 = -1;

fn thread_time() -> Duration {
    let mut time = Timespec::default();
    // SAFETY: writes the struct that it is given.
    let result = unsafe { clock_gettime(CLOCK_THREAD_CPUTIME_ID, &mut time) };
    assert!(result == 0, "clock_gettime");
    Duration::new(time.seconds as u64, time.nanoseconds as u32)
}

/// Of the processes that this one started and that have ended.
fn children_time() -> Duration {
    let mut usage = Usage::default();
    // SAFETY: writes the struct that it is given.
    let result = unsafe { getrusage(RUSAGE_CHILDREN, &mut usage) };
    assert!(result == 0, "getrusage");
    let duration = |time: Timeval| Duration::new(time.seconds as u64, 1000 * time.microseconds as u32);
    duration(usage.user) + duration(usage.system)
}
