//! Times a few jobs against each other.

use std::time::Duration;

/// Gives back what it was given, but the compiler cannot know that, and leaves in place what is done
/// with it. The standard library has one only since Rust 1.66, and Debian 12 has 1.63.
pub fn black_box<T>(value: T) -> T {
    // SAFETY: the value is read once more and forgotten where it was, so there is still one of it.
    unsafe {
        let same = std::ptr::read_volatile(&value);
        std::mem::forget(value);
        same
    }
}

/// What is timed: one call on buffers that all jobs share.
pub type Job<'a, Buffers> = &'a dyn Fn(&mut Buffers);

/// A run repeats a short job for at least this long, so that the clock's own cost is lost in it.
const RUN: Duration = Duration::from_millis(2);

/// The least number of runs of each job, and how long to go on beyond that.
const ROUNDS: usize = 5;
const BUDGET: Duration = Duration::from_millis(300);

/// For each job the median time of its runs, in nanoseconds for each of `count` numbers. The jobs take
/// turns, so that whatever else the machine does falls on all of them.
pub fn median_nanoseconds<Buffers, const N: usize>(
    count: usize,
    buffers: &mut Buffers,
    jobs: [Job<Buffers>; N],
) -> [f64; N] {
    let repeats = jobs.map(|job| repeats(job, buffers));
    let mut times = [(); N].map(|()| Vec::new());
    let start = processor_time();
    while times[0].len() < ROUNDS || processor_time() - start < BUDGET {
        for (i, job) in jobs.iter().enumerate() {
            let nanoseconds = time(job, repeats[i], buffers).as_nanos() as f64;
            times[i].push(nanoseconds / (repeats[i] * count) as f64);
        }
    }
    times.map(|mut times| {
        times.sort_by(f64::total_cmp);
        times[times.len() / 2]
    })
}

/// How long this thread has run. Unlike the clock on the wall it stands still while the machine does
/// something else, so that a busy machine gives the same figures as an idle one, or nearly.
fn processor_time() -> Duration {
    #[repr(C)]
    struct Timespec {
        seconds: i64,
        nanoseconds: i64,
    }
    extern "C" {
        fn clock_gettime(clock: i32, time: *mut Timespec) -> i32;
    }
    const CLOCK_THREAD_CPUTIME_ID: i32 = 3; // of Linux on x86-64, the only system of liblapped.a
    let mut time = Timespec { seconds: 0, nanoseconds: 0 };
    // SAFETY: the C library's own function, lent a struct of its own layout.
    let answer = unsafe { clock_gettime(CLOCK_THREAD_CPUTIME_ID, &mut time) };
    assert_eq!(answer, 0, "the system has no clock of a thread's time");
    Duration::new(time.seconds as u64, time.nanoseconds as u32)
}

fn time<Buffers>(job: Job<Buffers>, repeats: usize, buffers: &mut Buffers) -> Duration {
    let start = processor_time();
    for _ in 0..repeats {
        job(buffers);
    }
    processor_time() - start
}

/// How often to repeat a job in one run. The first call also touches the job's memory.
fn repeats<Buffers>(job: Job<Buffers>, buffers: &mut Buffers) -> usize {
    let mut repeats = 1;
    while time(job, repeats, buffers) < RUN {
        repeats *= 2;
    }
    repeats
}
