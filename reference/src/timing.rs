//! Times pieces of work side by side, for the benchmark alone.

use std::time::Duration;

/// How much processor time one sample takes at least; it is made of whole passes.
pub const SAMPLE: Duration = Duration::from_micros(500);
/// Samples of each side.
pub const SAMPLES: usize = 301;

/// The processor time that this thread has had. Time in which other programs run does not count.
fn processor_time() -> Duration {
    #[repr(C)]
    struct Time {
        seconds: i64,
        nanoseconds: i64,
    }
    extern "C" {
        fn clock_gettime(clock: i32, time: *mut Time) -> i32;
    }
    const THREAD_PROCESSOR_TIME: i32 = 3;
    let mut time = Time {
        seconds: 0,
        nanoseconds: 0,
    };
    // SAFETY: the call writes one time of this form, as Linux on x86-64 has it, and keeps no pointer.
    let failed = unsafe { clock_gettime(THREAD_PROCESSOR_TIME, &mut time) } != 0;
    assert!(!failed, "no clock of processor time");
    Duration::new(time.seconds as u64, time.nanoseconds as u32)
}

/// One side of the benchmark.
pub struct Side<'a> {
    /// One pass over the group.
    pass: Box<dyn FnMut() + 'a>,
    /// Pieces of work in a pass.
    pieces: usize,
    /// Passes that make one sample.
    passes: u32,
    /// Nanoseconds for each piece.
    samples: Vec<f64>,
}

impl<'a> Side<'a> {
    /// Warms up, and finds how many passes a sample needs.
    pub fn new(pieces: usize, pass: impl FnMut() + 'a) -> Side<'a> {
        let mut side = Side {
            pass: Box::new(pass),
            pieces,
            passes: 1,
            samples: Vec::with_capacity(SAMPLES),
        };
        while side.time() < SAMPLE {
            side.passes *= 2;
        }
        side
    }

    /// The time of one sample.
    fn time(&mut self) -> Duration {
        let start = processor_time();
        for _ in 0..self.passes {
            (self.pass)();
        }
        processor_time() - start
    }

    /// Takes one sample.
    fn sample(&mut self) {
        let pieces = f64::from(self.passes) * self.pieces as f64;
        let time = self.time().as_nanos() as f64;
        self.samples.push(time / pieces);
    }
}

/// The samples of each side. The sides take turns, and take turns at being first.
pub fn take_turns<const N: usize>(mut sides: [Side; N]) -> [Vec<f64>; N] {
    for round in 0..SAMPLES {
        for turn in 0..N {
            sides[(round + turn) % N].sample();
        }
    }
    sides.map(|side| side.samples)
}

pub fn median(samples: &[f64]) -> f64 {
    let mut samples = samples.to_vec();
    samples.sort_by(f64::total_cmp);
    samples[samples.len() / 2]
}

/// One side / another, the median over samples of the same round.
pub fn ratio(one: &[f64], other: &[f64]) -> f64 {
    let ratios: Vec<f64> = one.iter().zip(other).map(|(a, b)| a / b).collect();
    median(&ratios)
}
