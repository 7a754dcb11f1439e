//! SIGINT and SIGTERM ask the program to stop.

use std::sync::atomic::{AtomicBool, Ordering};

const SIGINT: i32 = 2;
const SIGTERM: i32 = 15;

static STOP: AtomicBool = AtomicBool::new(false);

extern "C" {
    fn signal(number: i32, handler: extern "C" fn(i32)) -> usize;
    fn siginterrupt(number: i32, interrupts: i32) -> i32;
}

extern "C" fn note(_number: i32) {
    STOP.store(true, Ordering::Relaxed);
}

/// From now on these signals do not end the program, only a read that waits.
pub fn catch() {
    for number in [SIGINT, SIGTERM] {
        // SAFETY: the handler only stores to an atomic, which a handler may.
        unsafe {
            signal(number, note);
            siginterrupt(number, 1);
        }
    }
}

/// Whether one has come.
pub fn came() -> bool {
    STOP.load(Ordering::Relaxed)
}
