//! The clock of the tables.

#[cfg(all(target_os = "linux", target_pointer_width = "64"))]
pub const CLOCK: &str = "the thread's processor time";

/// Seconds that this thread has run: other programs on the machine don't count,
/// but they share its caches.
#[cfg(all(target_os = "linux", target_pointer_width = "64"))]
pub fn now() -> f64 {
    extern "C" {
        fn clock_gettime(clock: i32, time: *mut [i64; 2]) -> i32;
    }
    const THREAD: i32 = 3;
    let mut time = [0; 2];
    // SAFETY: on such machines a timespec is two i64, and the array is one.
    assert_eq!(unsafe { clock_gettime(THREAD, &mut time) }, 0);
    time[0] as f64 + time[1] as f64 * 1e-9
}

#[cfg(not(all(target_os = "linux", target_pointer_width = "64")))]
pub const CLOCK: &str = "time on the wall clock";

#[cfg(not(all(target_os = "linux", target_pointer_width = "64")))]
pub fn now() -> f64 {
    use std::sync::OnceLock;
    use std::time::Instant;
    static START: OnceLock<Instant> = OnceLock::new();
    START.get_or_init(Instant::now).elapsed().as_secs_f64()
}
