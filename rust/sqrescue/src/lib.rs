//! Which database a SQLite file and its logs stand for: read it page by page, check it, or recover it, beside writers.
//!
//! ```no_run
//! let view = sqrescue::View::open("ledger.db")?;
//! println!("{} pages of {} bytes", view.pages(), view.page_size());
//! # Ok::<(), sqrescue::Error>(())
//! ```
//!
//! While a view is open it has the locks of a reader of SQLite. Close it, by dropping it, as soon as it was read. A
//! process that has the same file open by SQLite loses no lock by any call here.
use sqrescue_sys as sys;
use std::ffi::CString;
use std::os::unix::ffi::OsStrExt;
use std::path::Path;
use std::{error, fmt, io, ptr};

/// Why a call didn't do what it was asked for. Nothing was written then, unless the disk failed in the middle.
#[derive(Debug)]
pub enum Error {
    /// A status of sqrescue.h, by its number; it is displayed by its name.
    Refused(u32),
    /// The same where the system refused a call, and what the system said.
    System(u32, io::Error),
    /// A check found a fault of this number (docs/OUTPUT.md) in this page, from 1.
    Damaged { fault: u32, page: u32 },
}

/// The name of a status or a fault.
fn name_of(number: u32, text: unsafe extern "C" fn(u32, *mut sys::sqr_name) -> u32) -> String {
    let mut name = sys::sqr_name::default();
    // SAFETY: the name is apart from all else, and as long as it has to be.
    let length = unsafe { text(number, &mut name) } as usize;
    String::from_utf8_lossy(&name.text[..length.min(24)]).into_owned()
}

impl fmt::Display for Error {
    fn fmt(&self, out: &mut fmt::Formatter) -> fmt::Result {
        match self {
            Error::Refused(status) => out.write_str(&name_of(*status, sys::sqr_status_text)),
            Error::System(status, cause) => write!(out, "{}: {cause}", name_of(*status, sys::sqr_status_text)),
            Error::Damaged { fault, page } => {
                write!(out, "page {page}: {} (fault {fault})", name_of(*fault, sys::sqr_fault_text))
            }
        }
    }
}

impl error::Error for Error {}

/// The answer of a call by path, and what the system said if it was the system that refused it.
fn asked(call: impl FnOnce() -> u32) -> Result<(), Error> {
    // SAFETY: errno is this thread's own.
    unsafe { *sys::__errno_location() = 0 }
    match call() {
        sys::SQR_OK => Ok(()),
        status => match io::Error::last_os_error() {
            cause if cause.raw_os_error() == Some(0) => Err(Error::Refused(status)),
            cause => Err(Error::System(status, cause)),
        },
    }
}

/// The answer of a call over bytes.
fn judged(status: u32) -> Result<(), Error> {
    if status == sys::SQR_OK {
        Ok(())
    } else {
        Err(Error::Refused(status))
    }
}

/// A path for C: SQR_MISUSE (25) if it has a zero byte.
fn c_path(path: &Path) -> Result<CString, Error> {
    CString::new(path.as_os_str().as_bytes()).map_err(|_| Error::Refused(25))
}

/// How a path is opened.
#[derive(Clone, Copy, Debug)]
pub struct Options {
    /// How long locks are waited for, in milliseconds.
    pub wait: u32,
    /// The frame that ends the commit which is shown, or 0: before the first; None: the database as it stands. The
    /// refusal "commit overwritten" means that a later checkpoint may have changed that database.
    pub at: Option<u32>,
    /// Whether locks are taken. Without them nobody else may write.
    pub locks: bool,
}

impl Default for Options {
    /// Waits for 5 seconds.
    fn default() -> Options {
        Options { wait: 5000, at: None, locks: true }
    }
}

impl Options {
    fn flags(&self) -> u32 {
        let at = if self.at.is_some() { sys::SQR_AT } else { 0 };
        at | if self.locks { 0 } else { sys::SQR_NO_LOCK }
    }

    fn of_c(&self) -> sys::sqr_options {
        sys::sqr_options { size: std::mem::size_of::<sys::sqr_options>(), wait: self.wait, at: self.at.unwrap_or(0) }
    }
}

/// A commit of a write-ahead log.
#[derive(Clone, Copy, Debug, PartialEq, Eq)]
pub struct Commit {
    /// The frame that ends it, from 1.
    pub frame: u32,
    /// How many frames it has.
    pub frames: u32,
    /// How many pages the database has there.
    pub pages: u32,
}

/// What a check of a sound database counted.
#[derive(Clone, Copy, Debug, PartialEq, Eq)]
pub struct Report {
    pub pages: u32,
    pub trees: u32,
    pub btree: u32,
    pub overflow: u32,
    pub free: u32,
}

/// A database that is open, with the locks of a reader.
#[derive(Debug)]
pub struct View {
    path: *mut sys::sqr_path,
    at: Option<u32>,
}

// SAFETY: a path may be read by any number of threads, and closed by one that has it for itself.
unsafe impl Send for View {}
unsafe impl Sync for View {}

impl View {
    /// Opens the database that a file shows with its logs.
    pub fn open(path: impl AsRef<Path>) -> Result<View, Error> {
        View::open_with(path, Options::default())
    }

    /// The same, as the options say.
    pub fn open_with(path: impl AsRef<Path>, options: Options) -> Result<View, Error> {
        let path = c_path(path.as_ref())?;
        let mut view = View { path: ptr::null_mut(), at: options.at };
        // SAFETY: the path ends with a zero, and the handle is apart from it and from the options.
        asked(|| unsafe { sys::sqr_open_path(path.as_ptr(), options.flags(), &options.of_c(), &mut view.path) })?;
        Ok(view)
    }

    fn view(&self) -> &sys::sqr_view {
        // SAFETY: what it gives is there until the path is closed.
        unsafe { &*sys::sqr_path_view(self.path) }
    }

    fn files(&self) -> &sys::sqr_files {
        // SAFETY: as above.
        unsafe { &*sys::sqr_path_files(self.path) }
    }

    /// How many pages the database has.
    pub fn pages(&self) -> u32 {
        self.view().pages
    }

    /// How many bytes a page has.
    pub fn page_size(&self) -> u32 {
        self.view().page_size
    }

    /// A page, from 1.
    pub fn page(&self, number: u32) -> Result<Vec<u8>, Error> {
        let mut page = vec![0; self.page_size() as usize];
        self.read_page(number, &mut page)?;
        Ok(page)
    }

    /// Reads a page, from 1, into a buffer of the page's size.
    pub fn read_page(&self, number: u32, out: &mut [u8]) -> Result<(), Error> {
        // SAFETY: the buffer is apart from what the view names.
        judged(unsafe { sys::sqr_page(self.view(), number, out.as_mut_ptr(), out.len()) })
    }

    /// The commits of the write-ahead log, the first one first; none if there is no log.
    pub fn commits(&self) -> Result<Vec<Commit>, Error> {
        let files = self.files();
        if files.wal_len == 0 {
            return Ok(Vec::new());
        }
        let (mut list, mut count) = (vec![sys::sqr_commit::default()], 0);
        loop {
            // SAFETY: the list and the count are apart from the log, and the list has as many places as its length.
            let status = unsafe {
                sys::sqr_wal_commits(files.wal, files.wal_len, list.as_mut_ptr(), list.len(), &mut count)
            };
            if status != sys::SQR_NO_ROOM {
                judged(status)?;
                break;
            }
            list.resize(count as usize, sys::sqr_commit::default());
        }
        list.truncate(count as usize);
        Ok(list.iter().map(|it| Commit { frame: it.frame, frames: it.frames, pages: it.pages }).collect())
    }

    /// Checks the structure of the database, with pointer maps and of any size, as `sqrescue check --large
    /// --pointer-maps` does.
    pub fn check(&self) -> Result<Report, Error> {
        let at = if self.at.is_some() { sys::SQR_AT } else { 0 };
        let flags = sys::SQR_LARGE | sys::SQR_POINTER_MAPS | at;
        let mut report = sys::sqr_report::default();
        // SAFETY: the report is apart from the files.
        match unsafe { sys::sqr_check_with(self.files(), flags, self.at.unwrap_or(0), &mut report) } {
            sys::SQR_DAMAGED => Err(Error::Damaged { fault: report.fault, page: report.page }),
            status => judged(status).map(|()| Report {
                pages: report.pages,
                trees: report.trees,
                btree: report.btree,
                overflow: report.overflow,
                free: report.free,
            }),
        }
    }
}

impl Drop for View {
    fn drop(&mut self) {
        // SAFETY: nothing that was lent is alive.
        unsafe { sys::sqr_close_path(&mut self.path) }
    }
}

/// What a recovery did.
#[derive(Clone, Copy, Debug, PartialEq, Eq)]
pub enum Recovery {
    /// No log is current: nothing.
    Nothing,
    /// A write-ahead log was folded into the file, and emptied.
    Fold,
    /// A write-ahead log without a commit was emptied.
    Empty,
    /// A hot journal was rolled back.
    RollBack,
}

/// What a recovery came to: the page size in bytes and the pages of the database that is left, 0 if it is none.
#[derive(Clone, Copy, Debug, PartialEq, Eq)]
pub struct Recovered {
    pub recovery: Recovery,
    pub page_size: u32,
    pub pages: u32,
}

impl From<sys::sqr_recovered> for Recovered {
    fn from(found: sys::sqr_recovered) -> Recovered {
        let recovery = match found.recovery {
            1 => Recovery::Fold,
            2 => Recovery::Empty,
            3 => Recovery::RollBack,
            _ => Recovery::Nothing,
        };
        Recovered { recovery, page_size: found.page_size, pages: found.pages }
    }
}

/// Recovers a database in its place, as `sqrescue recover FILE` does. `at` isn't for this call: SQR_UNKNOWN_OPTIONS.
pub fn recover(path: impl AsRef<Path>, options: Options) -> Result<Recovered, Error> {
    let path = c_path(path.as_ref())?;
    let mut found = sys::sqr_recovered::default();
    // SAFETY: the path ends with a zero, and what is written is apart from it and from the options.
    asked(|| unsafe { sys::sqr_recover(path.as_ptr(), options.flags(), &options.of_c(), &mut found) })?;
    Ok(found.into())
}

/// Writes the database that a file shows with its logs to a new file, as `sqrescue recover FILE --to OUT` does.
pub fn recover_to(path: impl AsRef<Path>, out: impl AsRef<Path>, options: Options) -> Result<Recovered, Error> {
    let (path, out) = (c_path(path.as_ref())?, c_path(out.as_ref())?);
    let mut found = sys::sqr_recovered::default();
    // SAFETY: both paths end with a zero, and what is written is apart from them and from the options.
    asked(|| unsafe {
        sys::sqr_recover_to(path.as_ptr(), out.as_ptr(), options.flags(), &options.of_c(), &mut found)
    })?;
    Ok(found.into())
}
