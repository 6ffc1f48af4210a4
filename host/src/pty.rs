//! A pseudo-terminal in raw mode, and waiting on descriptors: the calls of Linux's C library that std does not offer.

use std::ffi::{c_char, c_int, c_long, c_short, c_ulong, c_void, CStr, CString};
use std::fs::{File, OpenOptions};
use std::io;
use std::os::fd::{AsRawFd, BorrowedFd, FromRawFd};
use std::os::unix::fs::OpenOptionsExt;
use std::ptr;
use std::time::Duration;

const O_RDWR: c_int = 2;
const O_NOCTTY: c_int = 0o400;
const O_NONBLOCK: c_int = 0o4000;
const O_CLOEXEC: c_int = 0o2_000_000;
const TCSANOW: c_int = 0;
const TCIFLUSH: c_int = 0;
const IN_OPEN_CLOSE: u32 = 0x38;
const POLLIN: c_short = 1;

/// Filled and read by the C library alone, so only room and alignment matter; glibc's has 60 bytes.
#[repr(C, align(8))]
struct Termios([u8; 256]);

#[repr(C)]
struct PollFd {
    fd: c_int,
    events: c_short,
    revents: c_short,
}

#[repr(C)]
struct Timespec {
    seconds: c_long,
    nanoseconds: c_long,
}

extern "C" {
    fn posix_openpt(flags: c_int) -> c_int;
    fn grantpt(fd: c_int) -> c_int;
    fn unlockpt(fd: c_int) -> c_int;
    fn ptsname_r(fd: c_int, name: *mut c_char, room: usize) -> c_int;
    fn tcgetattr(fd: c_int, termios: *mut Termios) -> c_int;
    fn cfmakeraw(termios: *mut Termios);
    fn tcsetattr(fd: c_int, actions: c_int, termios: *const Termios) -> c_int;
    fn tcflush(fd: c_int, queue: c_int) -> c_int;
    fn inotify_init1(flags: c_int) -> c_int;
    fn inotify_add_watch(fd: c_int, path: *const c_char, mask: u32) -> c_int;
    fn ppoll(fds: *mut PollFd, n: c_ulong, time: *const Timespec, signals: *const c_void) -> c_int;
}

/// A pseudo-terminal. Bytes pass unchanged, and its master never blocks.
pub struct Pty {
    master: File,
    name: String,
    /// Held so that the master can be read while no client has the slave open; else a read fails with EIO.
    slave: File,
    /// Can be read once a client has opened or closed the slave.
    visits: File,
}

impl Pty {
    pub fn open() -> io::Result<Pty> {
        let fd = succeeded(unsafe { posix_openpt(O_RDWR | O_NOCTTY | O_NONBLOCK | O_CLOEXEC) })?;
        // A descriptor that was just opened, and has no other owner.
        let master = unsafe { File::from_raw_fd(fd) };
        succeeded(unsafe { grantpt(fd) })?;
        succeeded(unsafe { unlockpt(fd) })?;
        let name = slave_name(&master)?;
        let slave = open_slave(&name)?;
        make_raw(&slave)?;
        let visits = watch_visits(&name)?;
        Ok(Pty { master, name, slave, visits })
    }

    /// The path that a client opens.
    pub fn name(&self) -> &str {
        &self.name
    }

    pub fn master(&self) -> &File {
        &self.master
    }

    pub fn visits(&self) -> &File {
        &self.visits
    }

    /// Drop what was sent to clients and none has read: the slave's input. What clients have sent is its output, and is kept.
    pub fn drop_unread(&self) -> io::Result<()> {
        succeeded(unsafe { tcflush(self.slave.as_raw_fd(), TCIFLUSH) })?;
        Ok(())
    }
}

/// A descriptor that never blocks, and can be read once a file has been opened or closed by anyone.
fn watch_visits(name: &str) -> io::Result<File> {
    let path = CString::new(name)?;
    let fd = succeeded(unsafe { inotify_init1(O_NONBLOCK | O_CLOEXEC) })?;
    // A descriptor that was just opened, and has no other owner.
    let visits = unsafe { File::from_raw_fd(fd) };
    succeeded(unsafe { inotify_add_watch(fd, path.as_ptr(), IN_OPEN_CLOSE) })?;
    Ok(visits)
}

/// Open a terminal by name, as a client does; it does not become the controlling terminal.
pub fn open_slave(name: &str) -> io::Result<File> {
    OpenOptions::new().read(true).write(true).custom_flags(O_NOCTTY).open(name)
}

/// Wait until a descriptor can be read (or is at its end) or the time is over; says which can. No time: for ever.
pub fn wait<const N: usize>(descriptors: [Option<BorrowedFd>; N], time: Option<Duration>) -> io::Result<[bool; N]> {
    // A negative descriptor is passed over.
    let mut fds = descriptors.map(|d| PollFd { fd: d.map_or(-1, |d| d.as_raw_fd()), events: POLLIN, revents: 0 });
    let time = time.map(|t| Timespec {
        seconds: t.as_secs().try_into().unwrap_or(c_long::MAX),
        nanoseconds: t.subsec_nanos().into(),
    });
    let time = time.as_ref().map_or(ptr::null(), ptr::from_ref);
    match succeeded(unsafe { ppoll(fds.as_mut_ptr(), N as c_ulong, time, ptr::null()) }) {
        Ok(_) => Ok(fds.map(|f| f.revents != 0)),
        Err(e) if e.kind() == io::ErrorKind::Interrupted => Ok([false; N]),
        Err(e) => Err(e),
    }
}

fn slave_name(master: &File) -> io::Result<String> {
    let mut name: [c_char; 128] = [0; 128];
    match unsafe { ptsname_r(master.as_raw_fd(), name.as_mut_ptr(), name.len()) } {
        // It ends with a zero within the room that was given.
        0 => Ok(unsafe { CStr::from_ptr(name.as_ptr()) }.to_string_lossy().into_owned()),
        error => Err(io::Error::from_raw_os_error(error)),
    }
}

/// No echo, no line editing, no changed bytes.
fn make_raw(terminal: &File) -> io::Result<()> {
    let fd = terminal.as_raw_fd();
    let mut termios = Termios([0; 256]);
    succeeded(unsafe { tcgetattr(fd, &mut termios) })?;
    unsafe { cfmakeraw(&mut termios) };
    succeeded(unsafe { tcsetattr(fd, TCSANOW, &termios) })?;
    Ok(())
}

fn succeeded(result: c_int) -> io::Result<c_int> {
    if result < 0 {
        Err(io::Error::last_os_error())
    } else {
        Ok(result)
    }
}
