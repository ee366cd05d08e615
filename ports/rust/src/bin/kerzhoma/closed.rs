//! Whether standard output was open when the program was started: before `main`, Rust puts /dev/null in the place of one that is closed.
#![allow(unsafe_code)]

use std::sync::atomic::{AtomicBool, Ordering};

static OPEN: AtomicBool = AtomicBool::new(true);

extern "C" {
    fn fcntl(descriptor: i32, command: i32, ...) -> i32;
}

extern "C" fn look() {
    const F_GETFD: i32 = 1;
    OPEN.store(unsafe { fcntl(1, F_GETFD) } != -1, Ordering::Relaxed);
}

#[used]
#[link_section = ".init_array"]
static BEFORE_MAIN: extern "C" fn() = look;

pub fn was_open() -> bool {
    OPEN.load(Ordering::Relaxed)
}
