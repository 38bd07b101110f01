//! The calls over the sample database: what each answers, and what refuses it.
use sqrescue::{recover, recover_to, Commit, Error, Options, Recovery, View};
use std::path::{Path, PathBuf};
use std::{env, fs, process};

/// A copy of the sample database and its log in a folder of its own.
fn sample(name: &str) -> PathBuf {
    let folder = env::temp_dir().join(format!("sqrescue-{}-{name}", process::id()));
    fs::create_dir_all(&folder).unwrap();
    let data = Path::new(env!("CARGO_MANIFEST_DIR")).join("../../crates/sqrescue/data");
    for end in ["ledger.db", "ledger.db-wal"] {
        fs::copy(data.join(end), folder.join(end)).unwrap();
    }
    folder
}

#[test]
fn a_view_has_pages_commits_and_a_report() {
    let folder = sample("view");
    let view = View::open(folder.join("ledger.db")).unwrap();
    assert_eq!((view.pages(), view.page_size()), (5, 512));
    assert_eq!(&view.page(1).unwrap()[..15], b"SQLite format 3");
    assert_eq!(view.check().unwrap().pages, 5);
    let commits = view.commits().unwrap();
    assert_eq!(commits.last(), Some(&Commit { frame: 10, frames: commits.last().unwrap().frames, pages: 5 }));
    assert!(matches!(view.page(6), Err(Error::Refused(7))));
    assert_eq!(view.page(6).unwrap_err().to_string(), "no such page");
    fs::remove_dir_all(folder).unwrap();
}

#[test]
fn a_recovery_is_a_copy_or_in_place() {
    let folder = sample("recovery");
    let (path, out) = (folder.join("ledger.db"), folder.join("new.db"));
    let found = recover_to(&path, &out, Options::default()).unwrap();
    assert_eq!((found.recovery, found.pages), (Recovery::Fold, 5));
    assert_eq!(recover(&path, Options::default()).unwrap(), found);
    assert_eq!(fs::read(&path).unwrap(), fs::read(&out).unwrap());
    assert!(matches!(recover_to(&path, &out, Options::default()), Err(Error::System(27, _)) | Err(Error::Refused(27))));
    fs::remove_dir_all(folder).unwrap();
}

#[test]
fn a_commit_and_a_file_that_are_not_there_are_refused() {
    let folder = sample("refused");
    let at = |at| Options { at: Some(at), ..Options::default() };
    assert!(matches!(View::open_with(folder.join("ledger.db"), at(11)), Err(Error::Refused(10))));
    assert_eq!(View::open_with(folder.join("ledger.db"), at(10)).unwrap().pages(), 5);
    let missing = View::open(folder.join("none.db")).unwrap_err();
    assert_eq!(missing.to_string(), "not there: No such file or directory (os error 2)");
    assert!(matches!(View::open(&folder), Err(Error::Refused(19))));
    fs::remove_dir_all(folder).unwrap();
}
