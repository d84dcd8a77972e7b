//! What the programs of perf/bindings.py time by, through C and through Rust.
use std::ffi::c_int;

extern "C" {
    fn clock_gettime(clock: c_int, time: *mut [i64; 2]) -> c_int;
    fn mallopt(what: c_int, to: c_int) -> c_int;
}

/// Nanoseconds of processor time that the process has used.
pub fn now() -> f64 {
    let mut time = [0; 2];
    assert!(unsafe { clock_gettime(2, &mut time) } == 0);
    time[0] as f64 * 1e9 + time[1] as f64
}

/// Has the C library's malloc join the blocks that are free, as each call of mallopt does; 0 names nothing to be set.
/// Without that a map gets them in the order in which another one freed them, scattered over memory.
pub fn settle() {
    unsafe { mallopt(0, 0) };
}
