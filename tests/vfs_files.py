"""Databases for tests/vfs, and what a connection answers."""
import os, random, shutil, sqlite3

SQL = "SELECT * FROM t ORDER BY k"  # the rows of a table that each of them has


def made(path, mode="delete", page_size=1024, rows=50):
    """A database with a table t(k, v), an index, an overflow page, and free pages."""
    db = sqlite3.connect(path, isolation_level=None)
    db.execute(f"PRAGMA page_size = {page_size}")
    db.execute(f"PRAGMA journal_mode = {mode}")
    db.execute("PRAGMA wal_autocheckpoint = 0")
    db.execute("CREATE TABLE t(k INTEGER PRIMARY KEY, v)")
    db.execute("CREATE INDEX i ON t(v)")
    db.execute("BEGIN")
    db.executemany("INSERT INTO t(v) VALUES(?)", [("v" * (k * 7 % 200),) for k in range(rows)])
    db.execute("INSERT INTO t(v) VALUES(zeroblob(9000))")
    db.execute("CREATE TABLE gone(v)")
    db.execute("INSERT INTO gone SELECT v FROM t")
    db.execute("DROP TABLE gone")
    db.execute("COMMIT")
    return db


def copied(path, to):
    """FILE with its logs, as they are now."""
    for end in ("", "-wal", "-journal"):
        if os.path.exists(f"{path}{end}"):
            shutil.copy(f"{path}{end}", f"{to}{end}")


def frames_of(path, page_size):
    """How many frames the log has."""
    return (os.path.getsize(f"{path}-wal") - 32) // (page_size + 24) if os.path.exists(f"{path}-wal") else 0


def logged(folder, page_size, checkpoints):
    """A database in WAL mode beside its log, and its rows by commit; some are followed by a checkpoint."""
    path, rows = folder / "made.db", {}
    db = made(path, "wal", page_size)
    db.execute("PRAGMA wal_checkpoint(TRUNCATE)")
    rows[0] = db.execute(SQL).fetchall()
    draw = random.Random(page_size + checkpoints)
    for commit in range(12):
        db.execute("BEGIN")
        db.execute("UPDATE t SET v = ? WHERE k % 7 = ?", (f"{commit}" * draw.randrange(400), draw.randrange(7)))
        db.execute("INSERT INTO t(v) VALUES(?)", (f"row of {commit}",))
        if commit % 4 == 3:
            db.execute("DELETE FROM t WHERE k % 5 = 0")
        db.execute("COMMIT")
        rows[frames_of(path, page_size)] = db.execute(SQL).fetchall()
        if checkpoints and commit == 6:
            reader = sqlite3.connect(path, isolation_level=None)
            reader.execute("BEGIN")
            reader.execute(SQL).fetchall()
            db.execute("INSERT INTO t(v) VALUES('beside a reader')")
            rows[frames_of(path, page_size)] = db.execute(SQL).fetchall()
            db.execute("PRAGMA wal_checkpoint(PASSIVE)").fetchall()
            reader.close()
    copied(path, folder / "log.db")
    db.close()
    return folder / "log.db", rows


def answers(db, statements):
    """What a connection answers to each statement: its rows, or the code and the text of an error."""
    found = []
    db.text_factory = bytes
    for sql in statements:
        try:
            found.append(db.execute(sql).fetchall())
        except sqlite3.Error as error:
            found.append((error.sqlite_errorcode, str(error)))
    db.close()
    return found


def plain(path, statements):
    """The same by SQLite's own VFS with `immutable`."""
    return answers(sqlite3.connect(f"file:{path}?immutable=1", uri=True, isolation_level=None), statements)


STATEMENTS = ["PRAGMA page_count", "SELECT * FROM sqlite_schema", "PRAGMA integrity_check", SQL, "SELECT * FROM t",
              "SELECT v FROM t ORDER BY v", "SELECT * FROM w", "SELECT count(*), sum(k) FROM t",
              "PRAGMA freelist_count"]


SIZES = {512: "PRAGMA encoding = 'UTF-16le'", 1024: "PRAGMA auto_vacuum = 1", 4096: "SELECT 1"}


def sources(folder):
    """Databases of several kinds."""
    for page_size, first in SIZES.items():
        path = folder / f"source{page_size}.db"
        db = sqlite3.connect(path, isolation_level=None)
        db.execute(f"PRAGMA page_size = {page_size}")
        db.execute(first)
        db.close()
        db = made(path, "delete", page_size)
        db.execute("CREATE TABLE w(a, b, PRIMARY KEY(b, a)) WITHOUT ROWID")
        db.execute("INSERT INTO w SELECT k, v FROM t")
        db.close()
        yield path.read_bytes()
