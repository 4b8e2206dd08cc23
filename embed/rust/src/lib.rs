//! Varukoni's hub in a Rust program: step lines in, outcome lines out. What the library is
//! proved to do, and what it asks of a caller, stands in `varukoni.h` and in docs/EMBEDDING.md;
//! docs/FORMATS.md has the step lines.
//!
//! ```
//! let mut hub = varukoni::Hub::open()?;
//! assert_eq!(hub.line(b"agent -")?, b"agent 0");
//! assert_eq!(hub.line(b"channel 0")?, b"ends 0 1");
//! # Ok::<(), varukoni::Error>(())
//! ```
//!
//! The safe functions meet what the header asks, so those who call them owe nothing: each
//! pointer is that of a slice with its length, no two of them overlap, `&mut self` lets one call
//! run at a time for one hub, and `Drop` closes it. That these declarations fit the header is
//! proved by nothing.

use std::fmt;

mod sys {
    /// `struct varukoni_hub`.
    #[repr(C)]
    pub struct Hub {
        pub at: *mut u8,
        pub is_open: bool,
    }

    /// A whole text in, its answer out.
    pub type Whole = unsafe extern "C" fn(
        input: *const u8,
        input_length: usize,
        room: *mut u8,
        room_length: usize,
        length: *mut usize,
    ) -> u8;

    extern "C" {
        pub fn varukoni_version() -> u32;
        pub fn varukoni_open(hub: *mut Hub) -> u8;
        pub fn varukoni_close(hub: *mut Hub);
        pub fn varukoni_line(
            hub: *mut Hub,
            line: *const u8,
            line_length: usize,
            room: *mut u8,
            room_length: usize,
            length: *mut usize,
        ) -> u8;
        pub fn varukoni_said(
            hub: *mut Hub,
            room: *mut u8,
            room_length: usize,
            length: *mut usize,
        ) -> u8;
        pub fn varukoni_steps(
            input: *const u8,
            input_length: usize,
            room: *mut u8,
            room_length: usize,
            length: *mut usize,
        ) -> u8;
        pub fn varukoni_check(
            input: *const u8,
            input_length: usize,
            room: *mut u8,
            room_length: usize,
            length: *mut usize,
        ) -> u8;
        pub fn varukoni_script(
            input: *const u8,
            input_length: usize,
            room: *mut u8,
            room_length: usize,
            length: *mut usize,
        ) -> u8;
    }

    pub const DONE: u8 = 0;
    pub const BAD: u8 = 2;
    pub const NO_MEMORY: u8 = 3;
    pub const NO_ROOM: u8 = 4;
}

/// The interface that these declarations describe.
pub const VERSION: u32 = 1;

/// Why a call gave nothing.
#[derive(Debug, Clone, PartialEq, Eq)]
pub enum Error {
    /// It is no step line, or no script. This names the first test that the line fails, or is
    /// the first bad line of the script. Nothing was run, and the hub goes on.
    Bad(String),
    /// Memory ran out, and nothing was changed: the call may be made again.
    NoMemory,
    /// The step line was run, and its outcome line found no memory: `Hub::said` gives it.
    NoRoom,
    /// Memory ran out within the steps of a line. The hub runs no line any more.
    Lost,
    /// The library has another interface than `VERSION`.
    OtherVersion(u32),
}

impl fmt::Display for Error {
    fn fmt(&self, f: &mut fmt::Formatter<'_>) -> fmt::Result {
        match self {
            Error::Bad(what) => f.write_str(what),
            Error::NoMemory => f.write_str("out of memory, and nothing was changed"),
            Error::NoRoom => f.write_str("out of memory for the outcome line"),
            Error::Lost => f.write_str("out of memory within the steps of a line"),
            Error::OtherVersion(number) => {
                write!(f, "the library has interface {}, not {}", number, VERSION)
            }
        }
    }
}

impl std::error::Error for Error {}

/// The hub after the step lines so far.
pub struct Hub {
    raw: sys::Hub,
    room: Vec<u8>,
}

// SAFETY: the header lets a hub move to another thread where calls are ordered, which `&mut
// self` does.
unsafe impl Send for Hub {}

impl fmt::Debug for Hub {
    fn fmt(&self, f: &mut fmt::Formatter<'_>) -> fmt::Result {
        f.debug_struct("Hub").finish()
    }
}

impl Hub {
    /// A hub that has run nothing.
    pub fn open() -> Result<Hub, Error> {
        // SAFETY: it takes nothing.
        let version = unsafe { sys::varukoni_version() };
        if version != VERSION {
            return Err(Error::OtherVersion(version));
        }
        let raw = sys::Hub { at: std::ptr::null_mut(), is_open: false };
        let mut hub = Hub { raw, room: vec![0; 4096] };
        // SAFETY: it is a closed hub, and nothing else refers to it.
        match unsafe { sys::varukoni_open(&mut hub.raw) } {
            sys::DONE => Ok(hub),
            _ => Err(Error::NoMemory),
        }
    }

    /// Runs one step line, which comes without its LF, and gives its outcome line without its LF.
    /// Where that is `not-now`, print the lines so far into a file: `tools/why FILE` says which
    /// test failed.
    #[inline]
    pub fn line(&mut self, line: &[u8]) -> Result<&[u8], Error> {
        let mut length = 0;
        // SAFETY: the hub is this one's alone; line, room and length are lent for the call, each
        // with its length, and don't overlap.
        let answer = unsafe {
            sys::varukoni_line(
                &mut self.raw,
                line.as_ptr(),
                line.len(),
                self.room.as_mut_ptr(),
                self.room.len(),
                &mut length,
            )
        };
        if answer == sys::DONE && length <= self.room.len() {
            return Ok(without_line_feed(&self.room[..length]));
        }
        self.answered(answer, length)
    }

    /// What the last line was answered with that was run or bad, once more: its outcome line, or
    /// the name of the first test that it fails.
    pub fn said(&mut self) -> Result<&[u8], Error> {
        let length = self.put_said()?;
        Ok(without_line_feed(&self.room[..length]))
    }

    /// What was said of a line that is answered with anything but an outcome line that fits.
    #[cold]
    fn answered(&mut self, answer: u8, length: usize) -> Result<&[u8], Error> {
        match answer {
            sys::DONE => self.said(),
            sys::BAD => {
                if length > self.room.len() {
                    self.put_said()?;
                }
                let name = String::from_utf8_lossy(&self.room[..length]);
                Err(Error::Bad(name.into_owned()))
            }
            sys::NO_MEMORY => Err(Error::NoMemory),
            sys::NO_ROOM => Err(Error::NoRoom),
            _ => Err(Error::Lost),
        }
    }

    /// Has what was said last in the room, and gives its length.
    fn put_said(&mut self) -> Result<usize, Error> {
        loop {
            let mut length = 0;
            // SAFETY: as at `line`.
            let answer = unsafe {
                sys::varukoni_said(
                    &mut self.raw,
                    self.room.as_mut_ptr(),
                    self.room.len(),
                    &mut length,
                )
            };
            if answer != sys::DONE {
                return Err(Error::NoMemory);
            }
            if length <= self.room.len() {
                return Ok(length);
            }
            self.room.resize(length, 0);
        }
    }
}

impl Drop for Hub {
    fn drop(&mut self) {
        // SAFETY: the hub is this one's alone, and isn't used afterwards.
        unsafe { sys::varukoni_close(&mut self.raw) }
    }
}

fn without_line_feed(text: &[u8]) -> &[u8] {
    text.strip_suffix(b"\n").unwrap_or(text)
}

/// What the program prints for a whole text, and its exit status.
#[derive(Debug, Clone, PartialEq, Eq)]
pub struct Printed {
    pub status: u8,
    pub text: Vec<u8>,
}

/// What `messagehub steps` prints for the input.
pub fn steps(input: &[u8]) -> Result<Printed, Error> {
    whole(sys::varukoni_steps, input)
}

/// What `messagehub check` prints for the logs.
pub fn check(logs: &[u8]) -> Result<Printed, Error> {
    whole(sys::varukoni_check, logs)
}

/// Reads a script, and runs nothing. An error is its first bad line, as `line N: KIND`.
pub fn read_script(script: &[u8]) -> Result<(), Error> {
    let printed = whole(sys::varukoni_script, script)?;
    match printed.status {
        sys::DONE => Ok(()),
        sys::BAD => {
            let text = String::from_utf8_lossy(without_line_feed(&printed.text)).into_owned();
            Err(Error::Bad(text))
        }
        _ => Err(Error::NoMemory),
    }
}

fn whole(call: sys::Whole, input: &[u8]) -> Result<Printed, Error> {
    let mut text = vec![0; 2 * input.len() + 4096];
    loop {
        let mut length = 0;
        // SAFETY: input, text and length are lent for the call, each with its length.
        let status = unsafe {
            call(input.as_ptr(), input.len(), text.as_mut_ptr(), text.len(), &mut length)
        };
        if status == sys::NO_ROOM {
            return Err(Error::NoMemory);
        }
        if length <= text.len() {
            text.truncate(length);
            return Ok(Printed { status, text });
        }
        text.resize(length, 0);
    }
}
