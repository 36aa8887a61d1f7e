//! Threads of a test that go on one at a time, by drawn schedules: each call of the library is where another one may go on.

use std::cell::RefCell;
use std::sync::{Arc, Condvar, Mutex, MutexGuard, PoisonError};
use std::thread;

/// A round that has so many steps doesn't end.
const MOST_STEPS: u64 = 1_000_000;
/// A thread that falls asleep is so many steps out of the way, at most.
const LONGEST_SLEEP: u64 = 500;

/// The threads of a round.
pub(crate) struct Schedule {
    state: Mutex<State>,
    goes_on: Condvar,
}

struct State {
    draws: u64,
    /// Of so many places to go over to another thread one isn't taken; none where this is 0. In one of so many steps a thread falls asleep.
    stays: u64,
    sleeps: u64,
    steps: u64,
    running: usize,
    threads: Vec<Part>,
}

#[derive(Clone, Copy, Default)]
struct Part {
    is_over: bool,
    /// The step until which others are before it.
    sleeps_until: u64,
}

thread_local!(static PART: RefCell<Option<(Arc<Schedule>, usize)>> = const { RefCell::new(None) });

/// Where another thread may go on.
pub(crate) fn may_go_over() {
    with_part(|schedule, thread| schedule.step(thread, false));
}

/// Where another thread does, if there is one.
pub(crate) fn go_over() {
    with_part(|schedule, thread| schedule.step(thread, true));
}

fn with_part(act: impl FnOnce(&Schedule, usize)) {
    PART.with(|part| {
        if let Some((schedule, thread)) = &*part.borrow() {
            act(schedule, *thread);
        }
    });
}

impl State {
    /// A number below this one (Marsaglia, "Xorshift RNGs", 2003).
    fn below(&mut self, bound: u64) -> u64 {
        self.draws ^= self.draws << 13;
        self.draws ^= self.draws >> 7;
        self.draws ^= self.draws << 17;
        (self.draws >> 8) % bound
    }

    /// A thread that isn't over, if there is one: one that is awake where there is one, and another one than this where that is asked for.
    fn pick(&mut self, thread: usize, another: bool) {
        let count = self.threads.len();
        let from = self.below(count as u64) as usize;
        let turn = |at: &usize| (from + at) % count;
        let is_left = |at: &usize| !self.threads[*at].is_over;
        let is_awake = |at: &usize| is_left(at) && self.threads[*at].sleeps_until <= self.steps && !(another && *at == thread);
        let mut all = (0..count).map(|at| turn(&at));
        let awake = all.clone().find(is_awake);
        let other = all.clone().find(|at| is_left(at) && *at != thread);
        if let Some(next) = awake.or(other).or_else(|| all.find(is_left)) {
            self.running = next;
        }
    }
}

impl Schedule {
    fn state(&self) -> MutexGuard<'_, State> {
        self.state.lock().unwrap_or_else(PoisonError::into_inner)
    }

    fn step(&self, thread: usize, another: bool) {
        let mut state = self.state();
        state.steps += 1;
        assert!(state.steps < MOST_STEPS, "a round that doesn't end");
        let (stays, sleeps) = (state.stays, state.sleeps);
        if another || stays == 0 || state.below(stays) > 0 {
            if sleeps > 0 && state.below(sleeps) == 0 {
                state.threads[thread].sleeps_until = state.steps + state.below(LONGEST_SLEEP);
            }
            state.pick(thread, another);
            self.goes_on.notify_all();
        }
        self.wait(state, thread);
    }

    fn wait(&self, mut state: MutexGuard<'_, State>, thread: usize) {
        while state.running != thread {
            state = self.goes_on.wait(state).unwrap_or_else(PoisonError::into_inner);
        }
    }

    /// Does this in so many threads by the schedule of a seed, and tells what they told.
    pub(crate) fn run<T: Send>(threads: usize, seed: u64, work: impl Fn(usize) -> T + Sync) -> Vec<T> {
        let state = State {
            draws: 88_172_645_463_325_252 ^ seed.wrapping_mul(0x9e37_79b9_7f4a_7c15),
            stays: 2 * (seed % 3),
            sleeps: 20 * (seed / 3 % 3),
            steps: 0,
            running: 0,
            threads: vec![Part::default(); threads],
        };
        let schedule = Arc::new(Schedule { state: Mutex::new(state), goes_on: Condvar::new() });
        thread::scope(|scope| {
            let (schedule, work) = (&schedule, &work);
            let start = |thread| {
                scope.spawn(move || {
                    let _over = Over::enter(schedule, thread);
                    work(thread)
                })
            };
            let started: Vec<_> = (0..threads).map(start).collect();
            started.into_iter().map(|thread| thread.join().expect("no thread fails")).collect()
        })
    }
}

/// A thread's part until this is dropped.
struct Over<'s>(&'s Schedule, usize);

impl<'s> Over<'s> {
    fn enter(schedule: &'s Arc<Schedule>, thread: usize) -> Over<'s> {
        PART.with(|part| *part.borrow_mut() = Some((Arc::clone(schedule), thread)));
        schedule.wait(schedule.state(), thread);
        Over(schedule, thread)
    }
}

impl Drop for Over<'_> {
    fn drop(&mut self) {
        PART.with(|part| *part.borrow_mut() = None);
        let mut state = self.0.state();
        state.threads[self.1].is_over = true;
        state.pick(self.1, true);
        self.0.goes_on.notify_all();
    }
}
