//! Best times of two sides, measured in turns so that a load on the machine meets both. The clock is the thread's own processor time: what others run in between does not count.

use std::hint::black_box;

/// How long one round of one side should last at least.
const ROUND_SECONDS: f64 = 0.002;
/// From here on a round is long.
const LONG_SECONDS: f64 = 0.1;

/// The number of the clock in Linux.
const THREAD_PROCESSOR_TIME: i32 = 3;

#[repr(C)]
struct Clock {
    seconds: i64,
    nanoseconds: i64,
}

extern "C" {
    fn clock_gettime(clock: i32, time: *mut Clock) -> i32;
}

fn now() -> f64 {
    let mut time = Clock { seconds: 0, nanoseconds: 0 };
    // SAFETY: the record has the form of Linux's timespec on machines of 64 bits.
    let failed = unsafe { clock_gettime(THREAD_PROCESSOR_TIME, &mut time) };
    assert_eq!(failed, 0, "the thread's clock can be read");
    time.seconds as f64 + 1e-9 * time.nanoseconds as f64
}

/// How many calls fill a round.
fn repetitions<T>(call: &mut impl FnMut() -> T) -> u32 {
    let mut count = 1;
    loop {
        let seconds = round(count, call);
        if seconds >= ROUND_SECONDS {
            return count;
        }
        count *= if seconds * 8.0 < ROUND_SECONDS { 8 } else { 2 };
    }
}

fn round<T>(count: u32, call: &mut impl FnMut() -> T) -> f64 {
    let start = now();
    for _ in 0..count {
        black_box(call());
    }
    now() - start
}

/// Seconds of one call, the best of so many rounds; of a few where one is long.
pub fn best<T>(rounds: u32, mut call: impl FnMut() -> T) -> f64 {
    let count = repetitions(&mut call);
    let is_long = round(count, &mut call) > LONG_SECONDS;
    let rounds = if is_long { rounds.min(2) } else { rounds };
    (0..rounds).map(|_| round(count, &mut call) / f64::from(count)).fold(f64::INFINITY, f64::min)
}

/// Seconds of one call of each side, the best of so many rounds in turns.
pub fn best_of_both<A, B>(rounds: u32, mut ours: impl FnMut() -> A, mut rusts: impl FnMut() -> B) -> (f64, f64) {
    let (our_count, rust_count) = (repetitions(&mut ours), repetitions(&mut rusts));
    let mut least = (f64::INFINITY, f64::INFINITY);
    for _ in 0..rounds {
        least.0 = least.0.min(round(our_count, &mut ours) / f64::from(our_count));
        least.1 = least.1.min(round(rust_count, &mut rusts) / f64::from(rust_count));
    }
    least
}

pub fn geometric_mean(values: impl Iterator<Item = f64>) -> f64 {
    let (count, sum) = values.fold((0, 0.0), |(count, sum), value| (count + 1, sum + value.ln()));
    (sum / f64::from(count)).exp()
}
