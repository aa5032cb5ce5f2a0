// Processor time, and the middle of what was measured by it.

#[repr(C)]
struct Timespec {
    seconds: i64,
    nanoseconds: i64,
}

extern "C" {
    fn clock_gettime(clock: i32, time: *mut Timespec) -> i32;
}

// Linux's CLOCK_THREAD_CPUTIME_ID
const OF_THIS_THREAD: i32 = 3;

// The processor time of this thread in nanoseconds: while another program has the core, it stands still.
pub fn processor_time() -> i64 {
    let mut time = Timespec { seconds: 0, nanoseconds: 0 };
    assert_eq!(unsafe { clock_gettime(OF_THIS_THREAD, &mut time) }, 0, "no clock of processor time");
    time.seconds * 1_000_000_000 + time.nanoseconds
}

pub fn median(mut times: Vec<f64>) -> f64 {
    times.sort_by(f64::total_cmp);
    times[times.len() / 2]
}
