//! Alternating runs and their medians, by the processor time of this thread: on a machine that others use
//! too, what waits for a processor is not counted.

use std::time::{Duration, Instant};

#[repr(C)]
struct Timespec {
    seconds: i64,
    nanoseconds: i64,
}

unsafe extern "C" {
    fn clock_gettime(clock: i32, time: *mut Timespec) -> i32;
}

/// Linux's CLOCK_THREAD_CPUTIME_ID.
const THREAD: i32 = 3;

/// The seconds that this thread has had a processor.
fn processor_time() -> f64 {
    let mut time = Timespec {
        seconds: 0,
        nanoseconds: 0,
    };
    // SAFETY: the C library writes the one struct that is lent to it.
    let status = unsafe { clock_gettime(THREAD, &mut time) };
    assert_eq!(status, 0, "Linux has this clock");
    time.seconds as f64 + time.nanoseconds as f64 * 1e-9
}

/// What is timed, once for each call.
pub type Work<'a> = Box<dyn FnMut() + 'a>;

/// A sample lasts at least this long, by as many calls as that takes.
const SAMPLE: Duration = Duration::from_micros(200);

/// Rounds of samples; fewer where one takes very long.
const FEWEST: usize = 3;

const MOST: usize = 25;

fn time(work: &mut Work<'_>, calls: u32) -> f64 {
    let start = processor_time();
    for _ in 0..calls {
        work();
    }
    (processor_time() - start) / f64::from(calls)
}

fn median(mut samples: Vec<f64>) -> f64 {
    samples.sort_by(f64::total_cmp);
    samples[samples.len() / 2]
}

/// The median seconds of a call of each, in turns, after one call of each that does not count.
pub fn alternate(works: &mut [Work<'_>], budget: Duration) -> Vec<f64> {
    let calls: Vec<u32> = works
        .iter_mut()
        .map(|work| (SAMPLE.as_secs_f64() / time(work, 1)).clamp(1.0, 1e5) as u32)
        .collect();
    let mut samples = vec![vec![]; works.len()];
    let start = Instant::now();
    for round in 0..MOST {
        let spent = start.elapsed();
        if round >= FEWEST && spent > budget || round > 0 && spent > 4 * budget {
            break;
        }
        for turn in 0..works.len() {
            let k = (turn + round) % works.len();
            samples[k].push(time(&mut works[k], calls[k]));
        }
    }
    samples.into_iter().map(median).collect()
}
