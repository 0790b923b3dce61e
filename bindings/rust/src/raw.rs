//! The functions of `zq.h`, behind a type that keeps what it asks of callers.

#[repr(C)]
struct Handle {
    at: *mut u8,
    live: bool,
}

extern "C" {
    fn zq_open(head: *const u8, head_len: usize, handle: *mut Handle, bad_line: *mut u64) -> u32;
    fn zq_open_bus(head: *const u8, head_len: usize, handle: *mut Handle, bad_line: *mut u64) -> u32;
    fn zq_call(handle: *mut Handle, line: *const u8, line_len: usize, out: *mut u8, room: usize, len: *mut usize) -> u32;
    fn zq_print(handle: *mut Handle, out: *mut u8, room: usize, len: *mut usize) -> u32;
    fn zq_close(handle: *mut Handle) -> u32;
    fn zq_next_deadline(handle: *mut Handle, deadline: *mut u64) -> u32;
    fn zq_keys_meet(a: *const u8, a_len: usize, b: *const u8, b_len: usize, meet: *mut bool) -> u32;
    fn zq_key_includes(a: *const u8, a_len: usize, b: *const u8, b_len: usize, includes: *mut bool) -> u32;
}

const OK: u32 = 0;
const BAD_LINE: u32 = 1;
const NO_MEMORY: u32 = 2;
const UNPRINTED: u32 = 3;
const SHORT: u32 = 4;
const NOTHING: u32 = 7;
const BAD_KEY: u32 = 8;
const SPENT: u32 = 9;
const NO_LOCAL: u32 = 10;
const NO_FREE_ID: u32 = 11;

/// Why a line was not done, or nothing was opened. Where nothing else is said, nothing changed.
#[derive(Clone, Copy, Debug, PartialEq, Eq)]
pub enum Fault {
    /// The line is no line of its kind, or has a newline in it.
    BadLine,
    /// This line of a head is bad, or it is none of a head.
    BadHead(u64),
    /// No memory was found.
    NoMemory,
    /// The line was done, and no memory was found for its print: `print` gives it.
    Unprinted,
    /// No memory was found amid a line `storage` or `get` of a bus: it joins and gets no more, its pairs stay.
    Spent,
    /// The configuration of a bus lacks `local`.
    NoLocal,
    /// No number is left for a face of a bus.
    NoFreeId,
    /// The library answered what `zq.h` does not name: it is another one.
    Unknown(u32),
}

impl Fault {
    fn of(status: u32) -> Fault {
        match status {
            BAD_LINE => Fault::BadLine,
            NO_MEMORY => Fault::NoMemory,
            UNPRINTED => Fault::Unprinted,
            SPENT => Fault::Spent,
            NO_LOCAL => Fault::NoLocal,
            NO_FREE_ID => Fault::NoFreeId,
            other => Fault::Unknown(other),
        }
    }
}

impl std::fmt::Display for Fault {
    fn fmt(&self, f: &mut std::fmt::Formatter<'_>) -> std::fmt::Result {
        match self {
            Fault::BadLine => f.write_str("bad line"),
            Fault::BadHead(n) => write!(f, "bad line {n}"),
            Fault::NoMemory => f.write_str("no memory was found"),
            Fault::Unprinted => f.write_str("the line was done, and no memory was found for its print"),
            Fault::Spent => f.write_str("no memory was found amid a line of a bus, which joins and gets no more"),
            Fault::NoLocal => f.write_str("the configuration lacks `local`"),
            Fault::NoFreeId => f.write_str("no number is left for a face"),
            Fault::Unknown(n) => write!(f, "the library answered {n}"),
        }
    }
}

impl std::error::Error for Fault {}

/// What is spoken to by lines: a gateway, or a bus of storages.
pub struct Speaker {
    handle: Handle,
    print: Vec<u8>,
}

// SAFETY: the handle may go to another thread (proved of it, `handle_send` in crates/zq_c/proofs/Crossing.antt); the functions
// that use it take the speaker by `&mut`, so one is called at a time.
unsafe impl Send for Speaker {}

type Opens = unsafe extern "C" fn(*const u8, usize, *mut Handle, *mut u64) -> u32;

impl Speaker {
    fn new(opens: Opens, head: &[u8]) -> Result<Speaker, Fault> {
        let mut speaker = Speaker { handle: Handle { at: std::ptr::null_mut(), live: false }, print: Vec::new() };
        let mut bad = 0;
        // SAFETY: pointer and length are of one slice; the handle has nothing, and nobody else has it.
        match unsafe { opens(head.as_ptr(), head.len(), &mut speaker.handle, &mut bad) } {
            OK => Ok(speaker),
            BAD_LINE => Err(Fault::BadHead(bad)),
            status => Err(Fault::of(status)),
        }
    }

    /// A gateway of the lines before a script's calls.
    pub fn gateway(head: &[u8]) -> Result<Speaker, Fault> {
        Speaker::new(zq_open, head)
    }

    /// A bus of storages of such lines.
    pub fn bus(head: &[u8]) -> Result<Speaker, Fault> {
        Speaker::new(zq_open_bus, head)
    }

    /// Does what a line says; the print of what comes of it.
    pub fn call(&mut self, line: &[u8]) -> Result<&[u8], Fault> {
        let mut len = 0;
        // SAFETY: pointers and lengths are of slices, of which `print` is this speaker's own.
        let status = unsafe {
            zq_call(&mut self.handle, line.as_ptr(), line.len(), self.print.as_mut_ptr(), self.print.len(), &mut len)
        };
        self.printed(status, len)
    }

    /// The print of what came of the last line, once more. It does nothing else.
    pub fn print(&mut self) -> Result<&[u8], Fault> {
        let mut len = 0;
        // SAFETY: as in `call`.
        let status = unsafe { zq_print(&mut self.handle, self.print.as_mut_ptr(), self.print.len(), &mut len) };
        self.printed(status, len)
    }

    fn printed(&mut self, status: u32, len: usize) -> Result<&[u8], Fault> {
        match status {
            OK => Ok(&self.print[..len]),
            SHORT => {
                if self.print.try_reserve(len - self.print.len()).is_err() {
                    return Err(Fault::Unprinted);
                }
                self.print.resize(len.max(self.print.capacity()), 0);
                self.print()
            }
            status => Err(Fault::of(status)),
        }
    }

    /// The least deadline of all that a gateway's open requests wait for, in milliseconds.
    pub fn next_deadline(&mut self) -> Option<u64> {
        let mut deadline = 0;
        // SAFETY: the handle is this speaker's own.
        match unsafe { zq_next_deadline(&mut self.handle, &mut deadline) } {
            OK => Some(deadline),
            status => {
                debug_assert_eq!(status, NOTHING);
                None
            }
        }
    }
}

impl Drop for Speaker {
    fn drop(&mut self) {
        // SAFETY: the handle is this speaker's own, and is not used again.
        unsafe { zq_close(&mut self.handle) };
    }
}

type Relates = unsafe extern "C" fn(*const u8, usize, *const u8, usize, *mut bool) -> u32;

fn relate(relates: Relates, a: &str, b: &str) -> Option<bool> {
    let mut yes = false;
    // SAFETY: pointers and lengths are of slices.
    match unsafe { relates(a.as_ptr(), a.len(), b.as_ptr(), b.len(), &mut yes) } {
        OK => Some(yes),
        status => {
            debug_assert_eq!(status, BAD_KEY);
            None
        }
    }
}

/// Whether two keys intersect; None where one of them is no key.
pub fn keys_meet(a: &str, b: &str) -> Option<bool> {
    relate(zq_keys_meet, a, b)
}

/// Whether key `a` includes key `b`; None where one of them is no key.
pub fn key_includes(a: &str, b: &str) -> Option<bool> {
    relate(zq_key_includes, a, b)
}

