//! How long a plan takes, in processor time of this thread: a busy machine does not lengthen that.

use crate::call::{Load, Plan, Program, Record, MOST_BLOCKS, MOST_FLOWS, ROW_WORDS};

#[repr(C)]
struct TimeSpec {
    seconds: i64,
    nanoseconds: i64,
}

/// Linux's number of the clock.
const CLOCK_THREAD_CPUTIME_ID: i32 = 3;

extern "C" {
    fn clock_gettime(clock: i32, time: *mut TimeSpec) -> i32;
}

/// In microseconds.
fn processor_time() -> f64 {
    let mut time = TimeSpec {
        seconds: 0,
        nanoseconds: 0,
    };
    // The struct is Linux's on a machine of 64 bits, and it is lent for the call alone.
    let status = unsafe { clock_gettime(CLOCK_THREAD_CPUTIME_ID, &mut time) };
    assert_eq!(status, 0, "the thread's processor time cannot be had");
    time.seconds as f64 * 1e6 + time.nanoseconds as f64 / 1e3
}

/// The median microseconds of a plan, for each program. The loads are planned one after the other,
/// since a processor learns a load that comes again at once; and the programs take turns, so that
/// a change of the machine's pace meets all of them.
pub fn microseconds(programs: &[Program], loads: &[Load], repeats: usize) -> Vec<f64> {
    let mut records = vec![[0; 3]; MOST_FLOWS];
    let mut rows = vec![0; ROW_WORDS * MOST_BLOCKS];
    let mut taken = vec![Vec::new(); programs.len()];
    for _ in 0..repeats {
        for (program, taken) in programs.iter().zip(&mut taken) {
            taken.push(round(program.plan, loads, &mut records, &mut rows));
        }
    }
    taken.into_iter().map(median).collect()
}

/// Plans every load once, and answers how long one took on average.
fn round(plan: Plan, loads: &[Load], records: &mut [Record], rows: &mut [u64]) -> f64 {
    let begun = processor_time();
    for load in loads {
        plan(&load.ask(u64::MAX), records, rows, &mut [0; 6]);
    }
    (processor_time() - begun) / loads.len() as f64
}

/// The middle one, or the mean of the two in the middle.
pub fn median(mut values: Vec<f64>) -> f64 {
    values.sort_by(f64::total_cmp);
    let half = values.len() / 2;
    if values.len() % 2 == 1 {
        values[half]
    } else {
        (values[half - 1] + values[half]) / 2.0
    }
}
