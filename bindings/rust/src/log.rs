//! The log of a host in a file.

use crate::fault::Fault;
use crate::raw::{self, RawLog};
use std::error::Error;
use std::ffi::OsStr;
use std::fmt;
use std::os::unix::ffi::OsStrExt;
use std::path::Path;
use std::ptr;

const ROOM: u8 = 12;

/// Why a log isn't made or opened.
#[derive(Clone, Copy, Debug, PartialEq, Eq)]
pub struct LogFault {
    pub fault: Fault,
    /// The number of the damaged frame, after `LogDamaged`; the head is 0.
    pub frame: Option<u64>,
}

impl fmt::Display for LogFault {
    fn fmt(&self, f: &mut fmt::Formatter<'_>) -> fmt::Result {
        match self.frame {
            Some(frame) => write!(f, "frame {frame}: {}", self.fault),
            None => self.fault.fmt(f),
        }
    }
}

impl Error for LogFault {}

/// A log that was opened.
pub struct Opened {
    pub log: Log,
    /// How many bytes were cut after the last entry: those of an append that was not finished.
    pub cut: u64,
}

/// The log of a host in a file, which this program has locked until the log is dropped: the file of
/// the program's `host --log`. `Host::append` makes the bytes that it stores, and `Host::resume`
/// takes those that it has.
///
/// ```
/// use x3d::{Host, Log};
///
/// let scene = b"#X3D V3.0 utf8\n";
/// let path = std::env::temp_dir().join(format!("x3d-doc-{}.log", std::process::id()));
/// let mut log = Log::make(&path, scene, 2)?;
/// let mut host = Host::resume(scene, 2, &log.read()?)?;
/// host.clock(1_000_000)?;
/// let append = host.append()?;
/// log.append(&append.bytes)?; // it is on the disk
/// host.stored(append.token)?; // and is shown
/// assert_eq!(log.count(), 1);
/// # std::fs::remove_file(&path)?;
/// # Ok::<(), Box<dyn std::error::Error>>(())
/// ```
pub struct Log {
    handle: RawLog,
}

// SAFETY: what a handle owns may go to another thread: this is proved of `LogHandle` (its `Send`,
// in crates/embed_handles), as it is of `HostHandle`.
unsafe impl Send for Log {}

fn bytes_of(path: &Path) -> &[u8] {
    OsStr::as_bytes(path.as_os_str())
}

impl Log {
    fn none() -> Log {
        Log {
            handle: RawLog {
                at: ptr::null_mut(),
            },
        }
    }

    /// Makes the log of a scene's text for 1 to 64 viewers, in a file that is missing or empty.
    /// Faults: `Range`, `NoLog` (no such folder), `LogBusy`, `NotEmpty`, `Device`, `Memory`.
    pub fn make(path: impl AsRef<Path>, text: &[u8], viewers: u8) -> Result<Log, Fault> {
        let (mut log, path) = (Log::none(), bytes_of(path.as_ref()));
        // SAFETY: the handle is null, and the bytes are lent for the call. So it is in each call
        // below, where the handle is as the last call left it.
        let status = unsafe {
            raw::x3d_log_make(
                &mut log.handle,
                path.as_ptr(),
                path.len(),
                text.as_ptr(),
                text.len(),
                viewers,
            )
        };
        Fault::told(status)?;
        Ok(log)
    }

    /// Opens the log of a scene's text, of this number of viewers, or of any. Faults, in this
    /// order: `NoLog`, `LogBusy`, `BadHead`, `WrongScene`, `WrongSeats`, `LogDamaged`, `HasBase`,
    /// `LogFull`; and `Device` and `Memory` at any time.
    pub fn open(
        path: impl AsRef<Path>,
        text: &[u8],
        viewers: Option<u8>,
    ) -> Result<Opened, LogFault> {
        let (mut log, path, mut place) = (Log::none(), bytes_of(path.as_ref()), 0);
        // SAFETY: as in `make`.
        let status = unsafe {
            raw::x3d_log_open(
                &mut log.handle,
                path.as_ptr(),
                path.len(),
                text.as_ptr(),
                text.len(),
                viewers.unwrap_or(0),
                &mut place,
            )
        };
        match Fault::told(status) {
            Ok(()) => Ok(Opened { log, cut: place }),
            Err(fault) => Err(LogFault {
                fault,
                frame: (fault == Fault::LogDamaged).then_some(place),
            }),
        }
    }

    /// Appends the bytes of an append of a host; after `Ok` they are on the disk. Faults: `InDoubt`
    /// (drop the host and the log, open the log again, and resume), `NotEntries`, `LogFull`,
    /// `Memory`: nothing is appended then.
    pub fn append(&mut self, bytes: &[u8]) -> Result<(), Fault> {
        Fault::told(unsafe {
            raw::x3d_log_append(&mut self.handle, bytes.as_ptr(), bytes.len())
        })
    }

    /// The bytes of all entries, for `Host::resume`. Fault: `Memory`.
    pub fn read(&mut self) -> Result<Vec<u8>, Fault> {
        let (mut wanted, mut bytes) = (0, Vec::new());
        loop {
            let room = bytes.len();
            let out: *mut u8 = bytes.as_mut_ptr();
            let status = unsafe { raw::x3d_log_read(&mut self.handle, out, room, &mut wanted) };
            if status != ROOM {
                Fault::told(status)?;
                bytes.truncate(wanted);
                return Ok(bytes);
            }
            bytes.resize(wanted, 0);
        }
    }

    /// The number of entries.
    pub fn count(&mut self) -> u64 {
        let mut count = 0;
        // The handle holds a log, so the call answers.
        unsafe { raw::x3d_log_count(&mut self.handle, &mut count) };
        count
    }

    /// The number of viewers that the log was made for.
    pub fn viewers(&mut self) -> u32 {
        let mut count = 0;
        unsafe { raw::x3d_log_viewers(&mut self.handle, &mut count) };
        count
    }

    /// What names this log: no other has the same run.
    pub fn run(&mut self) -> [u8; 16] {
        let (mut run, mut wanted) = ([0; 16], 0);
        unsafe {
            raw::x3d_log_copy_run(&mut self.handle, run.as_mut_ptr(), run.len(), &mut wanted)
        };
        run
    }
}

impl Drop for Log {
    fn drop(&mut self) {
        unsafe { raw::x3d_log_close(&mut self.handle) };
    }
}
