//! The calls of libsqrescue by path, and those over the files of an open path, as include/sqrescue.h declares them.
//! That header says what each call answers, and what a caller has to see to. The crate `sqrescue` wraps them safely.

#![allow(non_camel_case_types)]
use std::os::raw::{c_char, c_int};

/// The status of a call that did what it was asked for.
pub const SQR_OK: u32 = 0;
/// A check found a fault, which the report names.
pub const SQR_DAMAGED: u32 = 1;
/// The array has fewer places than are needed; how many are needed is written.
pub const SQR_NO_ROOM: u32 = 9;
/// A later checkpoint may have changed the database at the commit.
pub const SQR_COMMIT_OVERWRITTEN: u32 = 30;

/// No view is made, so that damaged files can be opened too.
pub const SQR_FILES_ONLY: u32 = 1;
/// No locks are taken.
pub const SQR_NO_LOCK: u32 = 2;
/// The database at a commit.
pub const SQR_AT: u32 = 4;
/// Databases of up to 2^40 bytes are checked.
pub const SQR_LARGE: u32 = 8;
/// Databases with pointer maps are checked too.
pub const SQR_POINTER_MAPS: u32 = 16;

/// An open path.
#[repr(C)]
pub struct sqr_path {
    _private: [u8; 0],
}

/// A database, page by page.
#[repr(C)]
pub struct sqr_view {
    pub db: *const u8,
    pub db_len: usize,
    pub log: *const u8,
    pub log_len: usize,
    pub places: *const u64,
    pub places_len: usize,
    pub page_size: u32,
    pub pages: u32,
}

/// The bytes of a database file and its logs.
#[repr(C)]
pub struct sqr_files {
    pub db: *const u8,
    pub db_len: usize,
    pub wal: *const u8,
    pub wal_len: usize,
    pub journal: *const u8,
    pub journal_len: usize,
}

/// What may be asked for when a path is opened.
#[repr(C)]
pub struct sqr_options {
    pub size: usize,
    /// How long locks are waited for, in milliseconds.
    pub wait: u32,
    /// With SQR_AT: the frame that ends the commit.
    pub at: u32,
}

/// What a recovery came to.
#[repr(C)]
#[derive(Default)]
pub struct sqr_recovered {
    pub recovery: u32,
    pub page_size: u32,
    pub pages: u32,
}

/// What a check found.
#[repr(C)]
#[derive(Default)]
pub struct sqr_report {
    pub fault: u32,
    pub page: u32,
    pub pages: u32,
    pub trees: u32,
    pub btree: u32,
    pub overflow: u32,
    pub free: u32,
}

/// A commit of a write-ahead log.
#[repr(C)]
#[derive(Clone, Default)]
pub struct sqr_commit {
    pub frame: u32,
    pub frames: u32,
    pub pages: u32,
}

/// The name of a status or a fault, with zeros behind it.
#[repr(C)]
#[derive(Default)]
pub struct sqr_name {
    pub text: [u8; 24],
}

extern "C" {
    /// The C library's errno of this thread.
    pub fn __errno_location() -> *mut c_int;
    pub fn sqr_version() -> u32;
    pub fn sqr_status_text(status: u32, name: *mut sqr_name) -> u32;
    pub fn sqr_fault_text(fault: u32, name: *mut sqr_name) -> u32;
    pub fn sqr_open_path(
        path: *const c_char,
        flags: u32,
        options: *const sqr_options,
        handle: *mut *mut sqr_path,
    ) -> u32;
    pub fn sqr_close_path(handle: *mut *mut sqr_path);
    pub fn sqr_path_view(handle: *const sqr_path) -> *const sqr_view;
    pub fn sqr_path_files(handle: *const sqr_path) -> *const sqr_files;
    pub fn sqr_page(view: *const sqr_view, page: u32, out: *mut u8, len: usize) -> u32;
    pub fn sqr_check_with(files: *const sqr_files, flags: u32, frame: u32, report: *mut sqr_report) -> u32;
    pub fn sqr_wal_commits(
        wal: *const u8,
        len: usize,
        commits: *mut sqr_commit,
        room: usize,
        count: *mut u32,
    ) -> u32;
    pub fn sqr_known_commits(files: *const sqr_files, known: *mut u8, room: usize, count: *mut u32) -> u32;
    pub fn sqr_recover(path: *const c_char, flags: u32, options: *const sqr_options, out: *mut sqr_recovered) -> u32;
    pub fn sqr_recover_to(
        path: *const c_char,
        to: *const c_char,
        flags: u32,
        options: *const sqr_options,
        out: *mut sqr_recovered,
    ) -> u32;
}
