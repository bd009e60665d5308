//! Pseudo-terminals (Linux on x86-64, as the static library): this end is the keyboard and the
//! screen, a shell at the other end runs programs in it.
use std::ffi::{c_char, c_int, c_ulong, CStr};
use std::fs::{File, OpenOptions};
use std::io::{self, Read, Write};
use std::os::fd::{AsRawFd, FromRawFd};
use std::os::unix::fs::OpenOptionsExt;
use std::os::unix::process::CommandExt;
use std::process::{Child, Command, Stdio};
use std::time::{Duration, Instant};

/// As in <termios.h>.
#[repr(C)]
#[derive(Clone, Copy, Debug, Default, PartialEq)]
pub struct Settings {
    pub input: u32,
    pub output: u32,
    pub control: u32,
    pub local: u32,
    pub line: u8,
    pub keys: [u8; 32],
    pub speeds: [u32; 2],
}

/// As in <sys/ioctl.h>.
#[repr(C)]
struct Size {
    lines: u16,
    columns: u16,
    pixels: [u16; 2],
}

/// As in <poll.h>.
#[repr(C)]
struct Polled {
    file: c_int,
    events: i16,
    seen: i16,
}

extern "C" {
    fn posix_openpt(flags: c_int) -> c_int;
    fn grantpt(master: c_int) -> c_int;
    fn unlockpt(master: c_int) -> c_int;
    fn ptsname_r(master: c_int, name: *mut c_char, room: usize) -> c_int;
    fn setsid() -> c_int;
    fn ioctl(file: c_int, request: c_ulong, ...) -> c_int;
    fn tcgetattr(file: c_int, settings: *mut Settings) -> c_int;
    fn tcsetattr(file: c_int, when: c_int, settings: *const Settings) -> c_int;
    fn tcgetpgrp(file: c_int) -> c_int;
    fn kill(process: c_int, signal: c_int) -> c_int;
    fn poll(polled: *mut Polled, count: c_ulong, thousandths: c_int) -> c_int;
}

const READ_AND_WRITE: c_int = 0o2;
const NOT_OURS: c_int = 0o400;
const CLOSE_ON_EXEC: c_int = 0o2_000_000;
const AT_ONCE: c_int = 0;
const SET_SIZE: c_ulong = 0x5414;
const TAKE_TERMINAL: c_ulong = 0x540E;
const READABLE: i16 = 1;

pub const SIGHUP: c_int = 1;
pub const SIGINT: c_int = 2;
pub const SIGQUIT: c_int = 3;
pub const SIGTERM: c_int = 15;
pub const SIGSTOP: c_int = 19;

/// What a system call gives, or its error as a panic that says which call it was.
fn done(call: &str, answer: c_int) -> c_int {
    assert!(answer >= 0, "{call}: {}", io::Error::last_os_error());
    answer
}

pub struct Pty {
    master: File,
}

impl Pty {
    pub fn open(lines: usize, columns: usize) -> Pty {
        let flags = READ_AND_WRITE | NOT_OURS | CLOSE_ON_EXEC;
        let master = unsafe {
            let master = done("posix_openpt", posix_openpt(flags));
            done("grantpt", grantpt(master));
            done("unlockpt", unlockpt(master));
            File::from_raw_fd(master)
        };
        let pty = Pty { master };
        pty.resize(lines, columns);
        pty
    }

    fn number(&self) -> c_int {
        self.master.as_raw_fd()
    }

    pub fn resize(&self, lines: usize, columns: usize) {
        let size = Size { lines: lines as u16, columns: columns as u16, pixels: [0; 2] };
        done("TIOCSWINSZ", unsafe { ioctl(self.number(), SET_SIZE, &size) });
    }

    /// The other end, which a program takes for a terminal.
    pub fn other_end(&self) -> File {
        let mut name = [0; 64];
        assert_eq!(unsafe { ptsname_r(self.number(), name.as_mut_ptr(), name.len()) }, 0);
        let name = unsafe { CStr::from_ptr(name.as_ptr()) }.to_str().expect("a path");
        let other = OpenOptions::new().read(true).write(true).custom_flags(NOT_OURS).open(name);
        other.unwrap_or_else(|error| panic!("{name}: {error}"))
    }

    /// The terminal's settings.
    pub fn settings(&self) -> Settings {
        let mut settings = Settings::default();
        done("tcgetattr", unsafe { tcgetattr(self.number(), &mut settings) });
        settings
    }

    pub fn set(&self, settings: &Settings) {
        done("tcsetattr", unsafe { tcsetattr(self.number(), AT_ONCE, settings) });
    }

    /// Runs a command of a shell in the terminal, as a session of its own. The shell has job
    /// control: what it starts is in the foreground, where Ctrl-C and Ctrl-Z reach it alone.
    pub fn run(&self, folder: &str, command: &str) -> Child {
        let [input, output, error] = [0; 3].map(|_| Stdio::from(self.other_end()));
        let mut shell = Command::new("sh");
        shell.args(["-mc", command]).current_dir(folder);
        shell.stdin(input).stdout(output).stderr(error);
        unsafe {
            shell.pre_exec(|| {
                if setsid() < 0 || ioctl(0, TAKE_TERMINAL, 0) < 0 {
                    return Err(io::Error::last_os_error());
                }
                Ok(())
            });
        }
        shell.spawn().expect("sh starts")
    }

    /// The process that has the keyboard.
    pub fn foreground(&self) -> c_int {
        done("tcgetpgrp", unsafe { tcgetpgrp(self.number()) })
    }

    pub fn send(&mut self, keys: &[u8]) {
        self.master.write_all(keys).expect("the keyboard is there");
    }

    /// What comes to the screen until a moment; none if nothing does.
    pub fn receive(&mut self, until: Instant) -> Option<Vec<u8>> {
        let left = until.saturating_duration_since(Instant::now()) + Duration::from_millis(1);
        let mut polled = Polled { file: self.number(), events: READABLE, seen: 0 };
        let ready = unsafe { poll(&mut polled, 1, left.as_millis() as c_int) };
        if done("poll", ready) == 0 {
            return None;
        }
        let mut bytes = vec![0; 4096];
        let count = self.master.read(&mut bytes).ok()?;
        bytes.truncate(count);
        Some(bytes)
    }
}

pub fn send_signal(process: c_int, signal: c_int) {
    done("kill", unsafe { kill(process, signal) });
}
