//! The few calls of the system that std has no way to: how full a pipe is and
//! how large, a terminal, a signal. The numbers are Linux's, and the same on
//! x86-64 and aarch64.

use std::ffi::{c_int, c_short, c_ulong};
use std::fs::{File, OpenOptions};
use std::io;
use std::os::fd::{AsFd, AsRawFd, FromRawFd};
use std::os::unix::fs::OpenOptionsExt;

const FIONREAD: c_ulong = 0x541B;
const TIOCSPTLCK: c_ulong = 0x4004_5431;
const TIOCGPTPEER: c_ulong = 0x5441;
const F_SETPIPE_SZ: c_int = 1031;
const POLLERR: c_short = 8;
const O_RDWR: c_int = 0o2;
const O_NOCTTY: c_int = 0o400;
const O_NONBLOCK: c_int = 0o4000;
const O_CLOEXEC: c_int = 0o2_000_000;
const SIGCONT: c_int = 18;
const SIGSTOP: c_int = 19;
/// A termios has at most so many words of eight bytes.
const TERMIOS_WORDS: usize = 16;

#[repr(C)]
struct Polled {
    file: c_int,
    asked: c_short,
    found: c_short,
}

unsafe extern "C" {
    fn ioctl(file: c_int, request: c_ulong, ...) -> c_int;
    fn fcntl(file: c_int, command: c_int, ...) -> c_int;
    fn poll(files: *mut Polled, count: c_ulong, milliseconds: c_int) -> c_int;
    fn tcgetattr(file: c_int, termios: *mut u64) -> c_int;
    fn cfmakeraw(termios: *mut u64);
    fn tcsetattr(file: c_int, when: c_int, termios: *const u64) -> c_int;
    fn kill(process: c_int, signal: c_int) -> c_int;
}

fn checked(result: c_int) -> io::Result<c_int> {
    if result < 0 {
        Err(io::Error::last_os_error())
    } else {
        Ok(result)
    }
}

/// How many bytes of a pipe nobody has read yet, seen from either end.
pub fn bytes_inside(pipe: &impl AsFd) -> io::Result<usize> {
    let mut bytes: c_int = 0;
    // SAFETY: the call writes one int.
    checked(unsafe { ioctl(pipe.as_fd().as_raw_fd(), FIONREAD, &raw mut bytes) })?;
    Ok(bytes as usize)
}

/// Whether nobody can read any more what is written to this end.
pub fn reader_is_gone(pipe: &impl AsFd) -> io::Result<bool> {
    let mut polled = Polled {
        file: pipe.as_fd().as_raw_fd(),
        asked: 0,
        found: 0,
    };
    // SAFETY: one element is handed over; it doesn't wait.
    checked(unsafe { poll(&raw mut polled, 1, 0) })?;
    Ok(polled.found & POLLERR != 0)
}

/// The least that the system allows from so many bytes on; gives its size.
pub fn shrink_pipe(pipe: &impl AsFd, bytes: usize) -> io::Result<usize> {
    // SAFETY: no memory is handed over.
    let size = unsafe { fcntl(pipe.as_fd().as_raw_fd(), F_SETPIPE_SZ, bytes as c_int) };
    Ok(checked(size)? as usize)
}

/// A terminal's two sides: what is written to `program` is read from `reader`.
/// `filler` is the program's side again, and never waits.
pub struct Terminal {
    pub reader: File,
    pub program: File,
    pub filler: File,
}

impl Terminal {
    /// It passes bytes on as they are.
    pub fn open() -> io::Result<Terminal> {
        let mut options = OpenOptions::new();
        options.read(true).write(true).custom_flags(O_NOCTTY);
        let reader = options.open("/dev/ptmx")?;
        let unlocked: c_int = 0;
        // SAFETY: the call reads one int.
        checked(unsafe { ioctl(reader.as_raw_fd(), TIOCSPTLCK, &raw const unlocked) })?;
        let program = other_side(&reader, 0)?;
        let filler = other_side(&reader, O_NONBLOCK)?;
        make_raw(&program)?;
        Ok(Terminal {
            reader,
            program,
            filler,
        })
    }
}

fn other_side(reader: &File, more: c_int) -> io::Result<File> {
    let flags = O_RDWR | O_NOCTTY | O_CLOEXEC | more;
    // SAFETY: no memory is handed over.
    let file = checked(unsafe { ioctl(reader.as_raw_fd(), TIOCGPTPEER, flags) })?;
    // SAFETY: the call has just opened it for us.
    Ok(unsafe { File::from_raw_fd(file) })
}

fn make_raw(terminal: &File) -> io::Result<()> {
    let file = terminal.as_raw_fd();
    let mut termios = [0u64; TERMIOS_WORDS];
    // SAFETY: a termios is shorter than this.
    unsafe {
        checked(tcgetattr(file, termios.as_mut_ptr()))?;
        cfmakeraw(termios.as_mut_ptr());
        checked(tcsetattr(file, 0, termios.as_ptr()))?;
    }
    Ok(())
}

pub fn stop(process: u32) -> io::Result<()> {
    send(process, SIGSTOP)
}

pub fn go_on(process: u32) -> io::Result<()> {
    send(process, SIGCONT)
}

fn send(process: u32, signal: c_int) -> io::Result<()> {
    // SAFETY: no memory is handed over.
    checked(unsafe { kill(process as c_int, signal) })?;
    Ok(())
}
