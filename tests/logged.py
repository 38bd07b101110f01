"""Databases beside the logs that a transaction of sqlite3 left, sound and damaged."""
import os, sqlite3


def content(path):
    """The bytes of a file, none where there is none."""
    if not os.path.exists(path):
        return b""
    with open(path, "rb") as file:
        return file.read()


def written(path, database, end="", log=b""):
    """A file and perhaps a log beside it."""
    for name, some in ((path, database), (path + end, log)) if end else ((path, database),):
        with open(name, "wb") as file:
            file.write(some)
    return path


def live(folder, mode, page_size, rows):
    """The bytes of a database that a transaction is changing, and of the log beside it."""
    path = os.path.join(folder, "live.db")
    for end in ("", "-wal", "-shm", "-journal"):
        if os.path.exists(path + end):
            os.remove(path + end)
    db = sqlite3.connect(path, isolation_level=None)
    db.execute(f"PRAGMA page_size = {page_size}")
    db.execute(f"PRAGMA journal_mode = {mode}")
    db.execute("PRAGMA cache_size = 5")
    db.execute("PRAGMA wal_autocheckpoint = 0")
    db.execute("CREATE TABLE t(id INTEGER PRIMARY KEY, body)")
    db.execute("CREATE INDEX i ON t(body)")
    for batch in range(3):
        db.execute("BEGIN")
        db.executemany("INSERT INTO t(body) VALUES(?)", [(os.urandom(30 + n % 700),) for n in range(rows)])
        db.execute("COMMIT")
    if mode == "wal":
        db.execute("PRAGMA wal_checkpoint(PASSIVE)")
        db.execute("UPDATE t SET body = ? WHERE id % 5 = 0", (b"x" * 200,))
        db.execute("DELETE FROM t WHERE id > ?", (2 * rows,))
        end = "-wal"
    else:
        db.execute("BEGIN")
        db.execute("UPDATE t SET body = randomblob(500)")
        end = "-journal"
    copy = content(path), content(path + end)
    db.close()
    return copy, end


def logged(folder, draw, spoilt):
    """Paths of databases with a log each, one of each kind sound, and so many with another log or file."""
    paths = []
    for mode in ("wal", "delete"):
        for page_size in (512, 4096):
            (database, log), end = live(folder, mode, page_size, 60)
            name = os.path.join(folder, f"live-{mode}-{page_size}")
            paths.append(written(name, database, end, log))
            for number in range(spoilt):
                some = bytearray(log[:draw.randrange(len(log))] if number % 3 == 0 else log)
                for _ in range(number % 3):
                    at = draw.randrange(len(some)) if number % 2 else draw.randrange(40) % len(some)
                    some[at] ^= 1 << draw.randrange(8)
                paths.append(written(f"{name}-{number}", database[:draw.randrange(len(database))] if number % 7 == 6
                                     else database, end, bytes(some)))
            paths.append(written(name + "-none", b"no database", end, log[:32]))
    return paths
