//! The engine of redplay, safe to use from Rust: an `Engine` owns its handle and frees it.
//!
//! A slice of Rust is aligned, a `&mut` has no second user, and a handle lives in one `Engine`, which is `Send` and not `Sync`: so what
//! `redplay.h` asks of its callers holds here by the types.

#![no_std]

extern crate alloc;

pub mod key;
mod raw;
mod refused;

use alloc::{vec, vec::Vec};
pub use raw::{Cell, Limits, Totals};
use raw::{Handle, Source};
pub use refused::Refused;

/// The picture: rows and columns of cells, each 12 by 16 units of the screen's 720 by 576.
pub const ROWS: usize = 36;
/// See `ROWS`.
pub const COLUMNS: usize = 60;

/// A file: its path in the folder of the service, and its bytes.
pub type File<'a> = (&'a [u8], &'a [u8]);

/// What comes from outside.
#[derive(Clone, Copy, Debug)]
pub enum Input<'a> {
    /// A key, by its number: `key` has them.
    Key(u32),
    /// So many milliseconds passed, 1 to 60,000.
    Tick(u32),
    /// A stream event with this tag.
    Stream(i32),
    /// An event of the engine with this number.
    Event(i32),
    /// A content file is there, in the place of an older one of its name.
    File(File<'a>),
    /// The file of a late scene is there.
    Scene(File<'a>),
}

/// What is left to do.
#[derive(Clone, Copy, Debug, PartialEq, Eq)]
pub enum Rest {
    /// There are steps to make.
    More,
    /// Nothing, until an input is posted.
    Idle,
    /// The application has quit: nothing changes any more.
    Ended,
}

/// What is to be played: files, the path of the application to start with, and the late scenes, a path a line. The files of
/// late scenes are among the files.
#[derive(Clone, Copy)]
pub struct Service<'a> {
    pub files: &'a [File<'a>],
    pub start: &'a [u8],
    pub late: &'a [u8],
}

fn told(answer: u32) -> Result<(), Refused> {
    match answer {
        0 => Ok(()),
        number => Err(Refused(number)),
    }
}

fn sources(files: &[File<'_>]) -> Vec<Source> {
    let source = |(name, content): &File<'_>| Source {
        name: name.as_ptr(),
        name_length: name.len(),
        content: content.as_ptr(),
        content_length: content.len(),
    };
    files.iter().map(source).collect()
}

/// The form of the calls of the archive that is linked: 1 is what this crate is written for.
pub fn version() -> u32 {
    // SAFETY: the call takes nothing.
    unsafe { raw::redplay_version() }
}

/// The version of the engine of the archive that is linked: 10,000 times the first number, 100 times the second, and the third.
pub fn engine_version() -> u32 {
    // SAFETY: the call takes nothing.
    unsafe { raw::redplay_engine_version() }
}

/// What the verifier says of a service, or why its files make none.
#[derive(Clone, Debug, PartialEq, Eq)]
pub struct Verdict {
    /// Nothing where the service is accepted; `Refused::UNACCEPTED`, or the number of a file that cannot be read.
    pub why: Result<(), Refused>,
    /// What `redplay check` prints.
    pub text: Vec<u8>,
}

/// A text, for which room is lent that the call says to be too short, or not.
fn text_of(mut call: impl FnMut(&mut [u8], &mut usize) -> u32) -> (u32, Vec<u8>) {
    let (mut text, mut length) = (vec![0; 1024], 0);
    let mut answer = call(&mut text, &mut length);
    if length > text.len() {
        text.resize(length, 0);
        answer = call(&mut text, &mut length);
    }
    text.truncate(length);
    (answer, text)
}

/// The verdict on a service. It is an error that memory is refused, or that the name of a file is no path.
pub fn check(service: Service<'_>) -> Result<Verdict, Refused> {
    let (s, start, late) = (sources(service.files), service.start, service.late);
    // SAFETY: slices have their lengths, and nothing else is written.
    let (answer, text) = text_of(|room, length| unsafe {
        raw::redplay_check(
            s.as_ptr(),
            s.len(),
            start.as_ptr(),
            start.len(),
            late.as_ptr(),
            late.len(),
            room.as_mut_ptr(),
            room.len(),
            length,
        )
    });
    match answer {
        100 | 105 => Err(Refused(answer)),
        _ => Ok(Verdict {
            why: told(answer),
            text,
        }),
    }
}

/// A session. It may go to another thread, and is used by one at a time.
pub struct Engine {
    handle: Handle,
}

// SAFETY: sessions share nothing, and nothing of one is kept on the thread that started it (`redplay.h`, THREADS).
unsafe impl Send for Engine {}

impl Engine {
    /// A session of the service on this modified Julian day, 1,000,000 at most.
    pub fn start(service: Service<'_>, day: u32, lenient: bool) -> Result<Engine, Refused> {
        let (s, start, late) = (sources(service.files), service.start, service.late);
        let handle = Handle {
            at: core::ptr::null_mut(),
        };
        let mut engine = Engine { handle };
        // SAFETY: as above; the handle has no session.
        told(unsafe {
            raw::redplay_start(
                &mut engine.handle,
                s.as_ptr(),
                s.len(),
                start.as_ptr(),
                start.len(),
                late.as_ptr(),
                late.len(),
                day,
                lenient,
            )
        })?;
        Ok(engine)
    }

    /// A session by the seal of a service, with the files that are there: late scenes are posted when they are, and no verifier
    /// is asked. The seal is believed (`redplay.h`, `redplay_start_sealed`).
    pub fn start_sealed(seal: &[u8], files: &[File<'_>], day: u32) -> Result<Engine, Refused> {
        let s = sources(files);
        let handle = Handle {
            at: core::ptr::null_mut(),
        };
        let mut engine = Engine { handle };
        // SAFETY: as above.
        told(unsafe {
            raw::redplay_start_sealed(
                &mut engine.handle,
                seal.as_ptr(),
                seal.len(),
                s.as_ptr(),
                s.len(),
                day,
            )
        })?;
        Ok(engine)
    }

    /// What is waited for, a line each: `scene NAME` of a transition, `file NAME` of each content file.
    pub fn awaited(&self) -> Result<Vec<u8>, Refused> {
        let handle = &self.handle;
        // SAFETY: as above.
        let (answer, text) = text_of(|room, length| unsafe {
            raw::redplay_awaited(handle, room.as_mut_ptr(), room.len(), length)
        });
        told(answer).map(|()| text)
    }

    /// Posts an input, which waits until steps are made.
    pub fn post(&mut self, input: Input<'_>) -> Result<(), Refused> {
        let handle = &mut self.handle;
        // SAFETY: the handle is written by these calls alone, and is in one of them at a time; slices have their lengths.
        told(unsafe {
            match input {
                Input::Key(key) => raw::redplay_key(handle, key),
                Input::Tick(milliseconds) => raw::redplay_tick(handle, milliseconds),
                Input::Stream(tag) => raw::redplay_stream(handle, tag),
                Input::Event(number) => raw::redplay_event(handle, number),
                Input::File((n, c)) => {
                    raw::redplay_file(handle, n.as_ptr(), n.len(), c.as_ptr(), c.len())
                }
                Input::Scene((n, c)) => {
                    raw::redplay_scene(handle, n.as_ptr(), n.len(), c.as_ptr(), c.len())
                }
            }
        })
    }

    /// Makes so many steps, or as many as there is something to do.
    pub fn advance(&mut self, most: u32) -> Result<(), Refused> {
        // SAFETY: as above.
        told(unsafe { raw::redplay_advance(&mut self.handle, most) })
    }

    /// What is left to do.
    pub fn rest(&self) -> Rest {
        // SAFETY: as above. What only looks leaves the handle as it is, and no two calls are at it at once: `Engine` is not `Sync`.
        match unsafe { raw::redplay_rest(&self.handle) } {
            0 => Rest::More,
            1 => Rest::Idle,
            _ => Rest::Ended,
        }
    }

    /// How many steps were taken, how many may be, and how many faults were met.
    pub fn totals(&self) -> Totals {
        let mut totals = Totals::default();
        // SAFETY: as above.
        unsafe { raw::redplay_counts(&self.handle, &mut totals) };
        totals
    }

    /// The bounds of the service.
    pub fn limits(&self) -> Limits {
        let mut limits = Limits::default();
        // SAFETY: as above.
        unsafe { raw::redplay_bounds(&self.handle, &mut limits) };
        limits
    }

    /// The line of a fault, the first at 0. A service that the verifier accepted has none.
    pub fn fault(&self, at: usize) -> Result<Vec<u8>, Refused> {
        let handle = &self.handle;
        // SAFETY: as above.
        let (answer, text) = text_of(|room, length| unsafe {
            raw::redplay_fault(handle, at, room.as_mut_ptr(), room.len(), length)
        });
        told(answer).map(|()| text)
    }

    /// The rows that differ from the picture of the last call, from the top.
    pub fn changed_rows(&mut self) -> Vec<usize> {
        let mut rows = 0u64;
        // SAFETY: as above.
        unsafe { raw::redplay_changed(&mut self.handle, &mut rows) };
        (0..ROWS).filter(|row| rows >> row & 1 == 1).collect()
    }

    /// The cells of a row, 0 the top one.
    pub fn row(&self, row: usize) -> Result<[Cell; COLUMNS], Refused> {
        let mut cells = [Cell::default(); COLUMNS];
        // SAFETY: as above.
        told(unsafe { raw::redplay_cells(&self.handle, row, cells.as_mut_ptr(), COLUMNS) })?;
        Ok(cells)
    }
}

impl Drop for Engine {
    fn drop(&mut self) {
        // SAFETY: as above; a handle without a session is left as it is.
        unsafe { raw::redplay_free(&mut self.handle) };
    }
}
