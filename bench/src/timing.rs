//! The least time of a call over many runs: the machine is shared, and what disturbs only adds. The
//! clock is the thread's own, which stands still while another process has the core.
use std::ffi::c_int;
use std::time::Duration;

/// Short calls are timed in groups that last about this long, against which reading the clock is
/// nothing.
const GROUP: Duration = Duration::from_micros(50);

/// Groups in a row, so that a subject finds the caches as it left them.
const TURN: usize = 8;

/// What is timed: one call a time.
pub type Subject<'a> = Box<dyn FnMut() + 'a>;

/// Microseconds for one call of each subject. They take turns, so that a busy minute of the
/// machine meets all of them, until each has had its share: BENCH_MS milliseconds, by default 150.
pub fn least(subjects: &mut [Subject]) -> Vec<f64> {
    let share = std::env::var("BENCH_MS").ok().and_then(|text| text.parse().ok()).unwrap_or(150);
    let share = Duration::from_millis(share);
    let calls: Vec<u32> = subjects.iter_mut().map(|subject| calls_in_a_group(subject)).collect();
    let mut spent = vec![Duration::ZERO; subjects.len()];
    let mut least = vec![Duration::MAX; subjects.len()];
    while spent.iter().any(|time| *time < share) {
        for (i, subject) in subjects.iter_mut().enumerate() {
            if spent[i] >= share {
                continue;
            }
            for _ in 0..TURN {
                let time = group(subject, calls[i]);
                spent[i] += time;
                least[i] = least[i].min(time);
            }
        }
    }
    least.iter().zip(calls).map(|(time, calls)| time.as_secs_f64() * 1e6 / f64::from(calls)).collect()
}

fn group(subject: &mut Subject, calls: u32) -> Duration {
    let start = now();
    (0..calls).for_each(|_| subject());
    now() - start
}

#[repr(C)]
struct Clock {
    seconds: i64,
    nanoseconds: i64,
}

extern "C" {
    fn clock_gettime(which: c_int, clock: *mut Clock) -> c_int;
}

const THREAD_CPU_TIME: c_int = 3;

fn now() -> Duration {
    let mut clock = Clock { seconds: 0, nanoseconds: 0 };
    // The clock is written, and nothing else.
    assert_eq!(unsafe { clock_gettime(THREAD_CPU_TIME, &mut clock) }, 0);
    Duration::new(clock.seconds as u64, clock.nanoseconds as u32)
}

fn calls_in_a_group(subject: &mut Subject) -> u32 {
    let mut calls = 1;
    while group(subject, calls) < GROUP {
        calls *= 2;
    }
    calls
}
