//! The standard streams.

use crate::failure::{by_system, failed, Failure};
use std::io::{self, ErrorKind, Write};
use std::os::fd::BorrowedFd;
use std::sync::atomic::{AtomicBool, Ordering};

const INPUT: i32 = 0;
const OUTPUT: i32 = 1;

static INPUT_CLOSED: AtomicBool = AtomicBool::new(false);
static OUTPUT_CLOSED: AtomicBool = AtomicBool::new(false);

/// Before `main`, Rust opens /dev/null in place of a closed standard stream, and then nothing tells that what is written there
/// is lost. The system calls the functions of this section earlier still.
#[used]
#[link_section = ".init_array"]
static AT_START: extern "C" fn() = look;

extern "C" fn look() {
    INPUT_CLOSED.store(closed(INPUT), Ordering::Relaxed);
    OUTPUT_CLOSED.store(closed(OUTPUT), Ordering::Relaxed);
}

fn closed(stream: i32) -> bool {
    // The descriptor is only tried, and the duplicate is closed at once.
    unsafe { BorrowedFd::borrow_raw(stream) }
        .try_clone_to_owned()
        .is_err()
}

pub fn input_is_closed() -> bool {
    INPUT_CLOSED.load(Ordering::Relaxed)
}

/// A message on standard error. Where that is lost too, the exit status remains.
pub fn say(what: &str) {
    let _ = writeln!(io::stderr(), "zevkholtai: {what}");
}

/// A result, whole, on standard output.
pub fn print(text: &str) -> Result<(), Failure> {
    if OUTPUT_CLOSED.load(Ordering::Relaxed) {
        return failed("standard output: it is closed");
    }
    let mut out = io::stdout().lock();
    match out.write_all(text.as_bytes()).and_then(|()| out.flush()) {
        Err(error) if error.kind() == ErrorKind::BrokenPipe => Err(Failure::Quiet),
        Err(error) => Err(by_system("standard output", error)),
        Ok(()) => Ok(()),
    }
}
