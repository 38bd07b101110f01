// Package sqrescue reads, checks and recovers SQLite databases with the logs that a crash left beside them, and beside
// writers. It calls the C library libsqrescue, whose header says what each call answers.
//
// While a view is open it has the locks of a reader of SQLite: close it as soon as it was read. A process that has the
// same file open by SQLite loses no lock by any call here.
//
// pkg-config finds the library: after ./install PREFIX set PKG_CONFIG_PATH=PREFIX/lib/pkgconfig, or in the source tree
// to its folder release/lib/pkgconfig with CGO_CFLAGS=-I.../include.
package sqrescue

/*
#cgo pkg-config: sqrescue
#include <stdlib.h>
#include "sqrescue.h"
*/
import "C"

import (
	"fmt"
	"unsafe"
)

// Refusal is why a call didn't do what it was asked for: a status of sqrescue.h other than SQR_OK. Nothing was written
// then, unless the disk failed in the middle.
type Refusal struct {
	Status uint32
	Cause  error // what the system said, if the status comes from the system
}

func (refusal *Refusal) Error() string {
	name := C.GoString(C.sqr_status_name(C.uint32_t(refusal.Status)))
	if refusal.Cause != nil {
		return name + ": " + refusal.Cause.Error()
	}
	return name
}

// Unwrap is what the system said.
func (refusal *Refusal) Unwrap() error { return refusal.Cause }

// Damaged is a fault that a check found, by its number (docs/OUTPUT.md), in a page, from 1.
type Damaged struct {
	Fault, Page uint32
}

func (fault *Damaged) Error() string {
	name := C.GoString(C.sqr_fault_name(C.uint32_t(fault.Fault)))
	return fmt.Sprintf("page %d: %s (fault %d)", fault.Page, name, fault.Fault)
}

// judged is nil for SQR_OK. The cause is nil unless the system refused a call.
func judged(status C.uint32_t, cause error) error {
	if status == C.SQR_OK {
		return nil
	}
	return &Refusal{uint32(status), cause}
}

// Options say how a path is opened. With At the database is shown as it was at a commit; the refusal "commit
// overwritten" means that a later checkpoint may have changed it.
type Options struct {
	Wait    uint32  // how long locks are waited for, in milliseconds
	At      *uint32 // the frame that ends the commit which is shown, or 0: before the first; nil: as it stands
	Without bool    // without locks: then nobody else may write
}

// Usual waits for 5 seconds.
var Usual = Options{Wait: 5000}

func (options Options) ofC() (C.uint32_t, C.struct_sqr_options) {
	found := C.struct_sqr_options{size: C.sizeof_struct_sqr_options, wait: C.uint32_t(options.Wait)}
	flags := C.uint32_t(0)
	if options.At != nil {
		flags |= C.SQR_AT
		found.at = C.uint32_t(*options.At)
	}
	if options.Without {
		flags |= C.SQR_NO_LOCK
	}
	return flags, found
}

// View is a database that is open, with the locks of a reader. Several goroutines may read it; none while it's closed.
type View struct {
	path *C.struct_sqr_path
	at   *uint32
}

// Open opens the database that a file shows with its logs.
func Open(path string, options Options) (*View, error) {
	name := C.CString(path)
	defer C.free(unsafe.Pointer(name))
	flags, asked := options.ofC()
	view := &View{at: options.At}
	status, cause := C.sqr_open_path(name, flags, &asked, &view.path)
	if err := judged(status, cause); err != nil {
		return nil, err
	}
	return view, nil
}

// Close gives the locks and the memory back.
func (view *View) Close() { C.sqr_close_path(&view.path) }

func (view *View) view() *C.struct_sqr_view { return C.sqr_path_view(view.path) }

// Pages is how many pages the database has; 0 after Close.
func (view *View) Pages() uint32 { return uint32(view.view().pages) }

// PageSize is how many bytes a page has.
func (view *View) PageSize() uint32 { return uint32(view.view().page_size) }

// Page is the bytes of a page, from 1.
func (view *View) Page(number uint32) ([]byte, error) {
	page := make([]byte, view.PageSize())
	if len(page) == 0 {
		return nil, &Refusal{C.SQR_NO_SUCH_PAGE, nil}
	}
	status := C.sqr_page(view.view(), C.uint32_t(number), (*C.uint8_t)(&page[0]), C.size_t(len(page)))
	return page, judged(status, nil)
}

// Commit is a commit of a write-ahead log: the frame that ends it, how many frames it has, and how many pages the
// database has there.
type Commit struct {
	Frame, Frames, Pages uint32
}

// Commits are those of the write-ahead log, the first one first; none if there is no log.
func (view *View) Commits() ([]Commit, error) {
	files := C.sqr_path_files(view.path)
	if files.wal_len == 0 {
		return nil, nil
	}
	list, count := make([]C.struct_sqr_commit, 1), C.uint32_t(0)
	for {
		status := C.sqr_wal_commits(files.wal, files.wal_len, &list[0], C.size_t(len(list)), &count)
		if status == C.SQR_OK {
			break
		}
		if status != C.SQR_NO_ROOM {
			return nil, judged(status, nil)
		}
		list = make([]C.struct_sqr_commit, count)
	}
	commits := make([]Commit, count)
	for i := range commits {
		commits[i] = Commit{uint32(list[i].frame), uint32(list[i].frames), uint32(list[i].pages)}
	}
	return commits, nil
}

// Report is what a check of a sound database counted.
type Report struct {
	Pages, Trees, Btree, Overflow, Free uint32
}

// Check checks the structure of the database, with pointer maps and of any size, as `sqrescue check --large
// --pointer-maps` does. Its error is *Damaged if there is a fault.
func (view *View) Check() (Report, error) {
	flags, frame := C.uint32_t(C.SQR_LARGE|C.SQR_POINTER_MAPS), C.uint32_t(0)
	if view.at != nil {
		flags, frame = flags|C.SQR_AT, C.uint32_t(*view.at)
	}
	var found C.struct_sqr_report
	status := C.sqr_check_with(C.sqr_path_files(view.path), flags, frame, &found)
	if status == C.SQR_DAMAGED {
		return Report{}, &Damaged{uint32(found.fault), uint32(found.page)}
	}
	report := Report{uint32(found.pages), uint32(found.trees), uint32(found.btree), uint32(found.overflow),
		uint32(found.free)}
	return report, judged(status, nil)
}

// Recovered is what a recovery came to: "nothing", "fold", "empty" or "roll back", and the page size in bytes and the
// pages of the database that is left, 0 if it is none.
type Recovered struct {
	Recovery        string
	PageSize, Pages uint32
}

func recovered(found C.struct_sqr_recovered) Recovered {
	names := map[C.uint32_t]string{C.SQR_RECOVERY_NONE: "nothing", C.SQR_RECOVERY_FOLD: "fold",
		C.SQR_RECOVERY_EMPTY: "empty", C.SQR_RECOVERY_ROLL_BACK: "roll back"}
	return Recovered{names[found.recovery], uint32(found.page_size), uint32(found.pages)}
}

// Recover recovers a database in its place, as `sqrescue recover FILE` does. At isn't for this call.
func Recover(path string, options Options) (Recovered, error) {
	name := C.CString(path)
	defer C.free(unsafe.Pointer(name))
	flags, asked := options.ofC()
	var found C.struct_sqr_recovered
	status, cause := C.sqr_recover(name, flags, &asked, &found)
	return recovered(found), judged(status, cause)
}

// RecoverTo writes the database that a file shows with its logs to a new file, as `sqrescue recover FILE --to OUT`
// does.
func RecoverTo(path, out string, options Options) (Recovered, error) {
	name, to := C.CString(path), C.CString(out)
	defer C.free(unsafe.Pointer(name))
	defer C.free(unsafe.Pointer(to))
	flags, asked := options.ofC()
	var found C.struct_sqr_recovered
	status, cause := C.sqr_recover_to(name, to, flags, &asked, &found)
	return recovered(found), judged(status, cause)
}
