//! Processor time, and the sweep after which nothing of a call is left in the caches.
use std::fs;
use std::hint::black_box;

#[repr(C)]
struct Timespec {
    seconds: i64,
    nanoseconds: i64,
}

unsafe extern "C" {
    fn clock_gettime(clock: i32, time: *mut Timespec) -> i32;
}

/// This thread's processor time in ns: what else the machine does does not count.
fn processor_time() -> i64 {
    const THREAD: i32 = 3;
    let mut time = Timespec { seconds: 0, nanoseconds: 0 };
    // SAFETY: the C library's own function, on a number pair of our own.
    assert!(unsafe { clock_gettime(THREAD, &mut time) } == 0);
    time.seconds * 1_000_000_000 + time.nanoseconds
}

/// The clock, and the ns that reading it takes.
pub struct Clock(i64);

impl Clock {
    pub fn new() -> Clock {
        let twice = |_| {
            let began = processor_time();
            processor_time() - began
        };
        Clock((0..10_000).map(twice).min().unwrap())
    }

    /// The ns that something takes, without those of the clock.
    pub fn time(&self, run: impl FnOnce()) -> f64 {
        // The clock's own way is warm, so that it does not count where the caches were swept.
        processor_time();
        let began = processor_time();
        run();
        (processor_time() - began - self.0) as f64
    }
}

const MIB: usize = 1 << 20;
/// What is swept at least, and where the caches are larger at most.
const LEAST: usize = 64 * MIB;
const MOST: usize = 256 * MIB;
/// Numbers to a line of a cache.
const LINE: usize = 8;

/// Memory of twice the last cache that the system tells of.
pub struct Sweep(Vec<u64>);

impl Sweep {
    pub fn new() -> Sweep {
        Sweep(vec![1; (2 * greatest_cache()).clamp(LEAST, MOST) / size_of::<u64>()])
    }

    pub fn mib(&self) -> usize {
        self.0.len() * size_of::<u64>() / MIB
    }

    /// Writes to every line.
    pub fn sweep(&mut self) {
        self.0.chunks_exact_mut(LINE).for_each(|line| line[0] += 1);
        black_box(&mut self.0);
    }
}

/// In bytes; 0 where the system does not tell.
fn greatest_cache() -> usize {
    let size = |cache: usize| {
        let told = fs::read_to_string(format!("/sys/devices/system/cpu/cpu0/cache/index{cache}/size")).ok()?;
        told.trim().strip_suffix('K')?.parse::<usize>().ok()
    };
    (0..8).filter_map(size).max().unwrap_or(0) * 1024
}
