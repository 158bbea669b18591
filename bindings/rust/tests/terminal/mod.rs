//! A terminal for tests, without a window: what is written to its line appears
//! on its screen.

use std::ffi::{c_char, c_int, CStr, OsStr};
use std::fs::File;
use std::os::fd::AsRawFd;
use std::os::unix::ffi::OsStrExt;
use std::os::unix::fs::OpenOptionsExt;

/// The terminal shall not become that of the test itself.
const O_NOCTTY: c_int = 0o400;

extern "C" {
    fn grantpt(screen: c_int) -> c_int;
    fn unlockpt(screen: c_int) -> c_int;
    fn ptsname_r(screen: c_int, name: *mut c_char, length: usize) -> c_int;
}

/// The screen and the line of a new terminal.
pub fn open() -> (File, File) {
    let mut both = File::options();
    both.read(true).write(true).custom_flags(O_NOCTTY);
    let screen = both.open("/dev/ptmx").unwrap();
    let mut name = [0; 64];
    // SAFETY: the descriptor is open, and the name is written within its length.
    let done = unsafe {
        let screen = screen.as_raw_fd();
        grantpt(screen) == 0
            && unlockpt(screen) == 0
            && ptsname_r(screen, name.as_mut_ptr(), name.len()) == 0
    };
    assert!(done, "there is no terminal to be had");
    // SAFETY: the call has put a zero byte behind the name.
    let name = unsafe { CStr::from_ptr(name.as_ptr()) };
    let line = both.open(OsStr::from_bytes(name.to_bytes())).unwrap();
    (screen, line)
}
