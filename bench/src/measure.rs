//! Times of the processor. The machine may be busy with other things: what these take is not counted, but
//! they disturb, so that of several samples the least counts, and what is compared is sampled in turns. A long
//! call, such as plain enumeration of 8^8 choices, has no other samples.

use std::ffi::c_int;

/// How long a sample should take, in seconds.
const SAMPLE: f64 = 0.001;
/// How many samples are taken of a call.
const SAMPLES: usize = 9;
/// How long all samples of a call may take: a long call is made once or a few times.
const BUDGET: f64 = 0.05;

/// A call that is measured.
pub type Call<'a> = Box<dyn FnMut() + 'a>;

/// A call, and what is known of its time.
struct Measured<'a> {
    call: Call<'a>,
    repeats: usize,
    least: f64,
    spent: f64,
}

impl<'a> Measured<'a> {
    /// Makes the call more and more often until that takes a good part of a sample, to know how often a
    /// sample makes it: the first calls take several times longer than those that follow.
    fn new(mut call: Call<'a>) -> Measured<'a> {
        let mut repeats = 1;
        let mut took = seconds(&mut call, repeats);
        let mut spent = took;
        while took < SAMPLE / 4.0 {
            repeats *= 4;
            took = seconds(&mut call, repeats);
            spent += took;
        }
        let once = took / repeats as f64;
        Measured {
            call,
            repeats: ((SAMPLE / once) as usize).clamp(1, 100_000),
            least: once,
            spent,
        }
    }

    /// Takes a sample, unless enough time was spent.
    fn sample(&mut self) {
        if self.spent < BUDGET {
            let took = seconds(&mut self.call, self.repeats);
            self.least = self.least.min(took / self.repeats as f64);
            self.spent += took;
        }
    }
}

/// A struct timespec.
#[repr(C)]
struct Moment {
    seconds: i64,
    nanoseconds: i64,
}

/// The clock of the time that this thread had a processor: CLOCK_THREAD_CPUTIME_ID.
const OF_THREAD: c_int = 3;

extern "C" {
    fn clock_gettime(clock: c_int, moment: *mut Moment) -> c_int;
}

/// How long this thread has had a processor, in seconds.
fn now() -> f64 {
    let mut moment = Moment {
        seconds: 0,
        nanoseconds: 0,
    };
    // SAFETY: the pointer is to a struct of the form that the call fills in.
    let code = unsafe { clock_gettime(OF_THREAD, &mut moment) };
    assert_eq!(code, 0);
    moment.seconds as f64 + 1e-9 * moment.nanoseconds as f64
}

/// How long so many calls take, in seconds.
fn seconds(call: &mut Call, repeats: usize) -> f64 {
    let start = now();
    (0..repeats).for_each(|_| call());
    now() - start
}

/// The least time of each call, in seconds.
pub fn least(calls: Vec<Call>) -> Vec<f64> {
    let mut all: Vec<Measured> = calls.into_iter().map(Measured::new).collect();
    for _ in 0..SAMPLES {
        all.iter_mut().for_each(Measured::sample);
    }
    all.iter().map(|measured| measured.least).collect()
}

/// The middle one of some numbers.
pub fn median(mut numbers: Vec<f64>) -> f64 {
    numbers.sort_by(f64::total_cmp);
    numbers[numbers.len() / 2]
}

/// The mean of some numbers.
pub fn mean(numbers: &[f64]) -> f64 {
    numbers.iter().sum::<f64>() / numbers.len() as f64
}
