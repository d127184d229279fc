//! Standard output, which may be closed.
//!
//! Before `main`, the language's start opens the null device in place of a standard output that is
//! closed, and what is then printed is lost without a word. So a function looks earlier, among
//! those that the loader calls first.

use std::io::{self, ErrorKind, Write};
use std::os::fd::AsFd;
use std::sync::atomic::{AtomicBool, Ordering};

/// Whether standard output was closed when the program was started.
static CLOSED: AtomicBool = AtomicBool::new(false);

/// What the system says of a file that is not open (EBADF).
const NOT_OPEN: Option<i32> = Some(9);

/// Looks whether standard output is closed: only an open one can be duplicated.
extern "C" fn look() {
    let duplicate = io::stdout().as_fd().try_clone_to_owned();
    CLOSED.store(duplicate.is_err_and(|error| error.raw_os_error() == NOT_OPEN), Ordering::Relaxed);
}

// The section holds functions that the loader calls without arguments, and `look` is one.
#[allow(unsafe_code)]
#[used]
#[link_section = ".init_array"]
static LOOK: extern "C" fn() = look;

/// Prints. A reader that closes its end early is no failure.
pub fn print(bytes: &[u8]) -> io::Result<()> {
    if bytes.is_empty() {
        return Ok(());
    }
    if CLOSED.load(Ordering::Relaxed) {
        return Err(io::Error::other("it is closed"));
    }
    let mut output = io::stdout().lock();
    match output.write_all(bytes).and_then(|()| output.flush()) {
        Err(error) if error.kind() == ErrorKind::BrokenPipe => Ok(()),
        done => done,
    }
}
