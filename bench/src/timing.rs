//! How work is measured: contenders take turns, and of each the least time counts; or its instructions are counted.
use std::time::{Duration, Instant};

/// How often each contender runs: a program over a stream, a batch of calls; and about how long a batch is.
pub const RUNS: u32 = 40;
pub const BATCHES: u32 = 400;
const BATCH: Duration = Duration::from_micros(300);

/// Calls whose instructions are counted, and the most that go over fresh copies of a state.
const FEW: usize = 16;

pub fn race<const N: usize>(turns: u32, mut contenders: [&mut dyn FnMut() -> f64; N]) -> [f64; N] {
    let mut least = [f64::INFINITY; N];
    for _ in 0..turns {
        for (least, run) in least.iter_mut().zip(&mut contenders) {
            *least = least.min(run());
        }
    }
    least
}

/// Calls of one kind: what makes ready for so many of them, and lets them go by the function that it is given.
pub struct Work {
    most: usize,
    run: Box<dyn FnMut(usize, &mut dyn FnMut(&mut dyn FnMut()))>,
}

impl Work {
    pub fn new(mut call: impl FnMut() + 'static) -> Work {
        Work { most: usize::MAX, run: Box::new(move |n, measure| measure(&mut || (0..n).for_each(|_| call()))) }
    }

    /// Of a call that uses its state up: each has a copy of its own.
    pub fn over<S: Clone + 'static>(state: S, call: impl Fn(&mut S) + 'static) -> Work {
        let run = move |n, measure: &mut dyn FnMut(&mut dyn FnMut())| {
            let mut states = vec![state.clone(); n];
            measure(&mut || states.iter_mut().for_each(&call));
        };
        Work { most: FEW, run: Box::new(run) }
    }

    /// Nanoseconds of one of n calls.
    fn time(&mut self, n: usize) -> f64 {
        let mut time = 0.0;
        (self.run)(n, &mut |calls| {
            let start = Instant::now();
            calls();
            time = start.elapsed().as_nanos() as f64 / n as f64;
        });
        time
    }

    /// How many calls `counted` lets go.
    pub fn count(&mut self) -> usize {
        (self.run)(FEW, &mut |calls| counted(calls));
        FEW
    }
}

/// Only instructions under this name are counted.
#[no_mangle]
#[inline(never)]
pub fn counted(calls: &mut dyn FnMut()) {
    calls();
}

/// Nanoseconds of a call of each contender, in batches of one length.
pub fn duel<const N: usize>(mut works: [&mut Work; N]) -> [f64; N] {
    let n = (BATCH.as_nanos() as f64 / works[0].time(FEW)).max(1.0) as usize;
    let n = n.min(works[0].most);
    let mut least = [f64::INFINITY; N];
    for _ in 0..BATCHES {
        for (least, work) in least.iter_mut().zip(&mut works) {
            *least = least.min(work.time(n));
        }
    }
    least
}
