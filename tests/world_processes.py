"""Other processes beside the program: sqlite3's shell or Python's module with a database open, one that holds a lock,
and a writer. This file is also what such a process runs."""
import ctypes, fcntl, os, random, signal, sqlite3, subprocess, sys, time

DONE = "done"
UNSYNCED = "PRAGMA synchronous = off"  # as lib.py has it


class Other:
    """A process that answers each line given to it with a line."""

    def __init__(self, *command, **more):
        pipes = dict(stdin=subprocess.PIPE, stdout=subprocess.PIPE, text=True, bufsize=1)
        self.child = subprocess.Popen(command, **pipes, **more)

    def __enter__(self):
        return self

    def __exit__(self, *_):
        self.kill()

    def says(self, *lines):
        """Gives it lines, and waits until it has done them."""
        self.child.stdin.write("".join(line + "\n" for line in lines) + f".print {DONE}\n")
        for line in self.child.stdout:
            if line.strip() == DONE:
                return
        raise RuntimeError(f"the other process has ended at {lines}")

    def begins(self, line):
        """Gives it a line, and doesn't wait."""
        self.child.stdin.write(line + "\n")

    def end(self):
        """Lets it close what it has open, and end."""
        self.child.stdin.close()
        self.child.wait(60)

    def kill(self):
        """Ends it at once."""
        if self.child.poll() is None:
            self.child.kill()
            self.child.wait()
        for pipe in self.child.stdin, self.child.stdout:
            try:
                pipe.close()
            except OSError:
                pass  # what it was given last and didn't take


def opened_by(kind, file, **more):
    """A process of this kind, `shell` or `module`, that has the database open."""
    if kind == "shell":
        return Other("sqlite3", "-batch", file, **more)
    return Other(sys.executable, os.path.abspath(__file__), "sql", file, **more)


def locking(file, *kind):
    """A process that holds a lock on a file: `flock`, or `read` or `write` with the first byte and how many bytes."""
    other = Other(sys.executable, os.path.abspath(__file__), "lock", file, *[str(word) for word in kind])
    other.says()
    return other


def writing(file, mode, seconds):
    """A process that writes a database in this journal mode for so long."""
    command = [sys.executable, os.path.abspath(__file__), "write", file, mode, str(seconds)]
    return subprocess.Popen(command, stdin=subprocess.DEVNULL)


TABLES = """CREATE TABLE a(id INTEGER PRIMARY KEY, t TEXT, n);
CREATE INDEX by_number ON a(n);
CREATE TABLE b(k TEXT PRIMARY KEY, v) WITHOUT ROWID;
"""

# The b-trees of these tables, with the schema's.
TREES = 4


def make(file, mode="delete", rows=100, page_size=1024):
    """Makes a sound database of some tables, and closes it."""
    db = sqlite3.connect(file, isolation_level=None)
    db.executescript(f"PRAGMA page_size={page_size}; PRAGMA journal_mode={mode}; {UNSYNCED}; {TABLES}")
    db.execute("BEGIN")
    for row in range(rows):
        db.execute("INSERT INTO a(t, n) VALUES (?, ?)", (f"row {row} " * 9, row))
        db.execute("INSERT INTO b VALUES (?, ?)", (f"key {row * 7919 % 1000003}", row))
    db.execute("COMMIT")
    db.close()


def rows_of(file):
    """What a database's tables hold, or which fault its integrity check finds."""
    db = sqlite3.connect(file, isolation_level=None)
    try:
        verdict = db.execute("PRAGMA integrity_check").fetchall()
        if verdict != [("ok",)]:
            return verdict
        return [db.execute(f"SELECT * FROM {table} ORDER BY 1").fetchall() for table in ("a", "b")]
    except sqlite3.DatabaseError as error:
        return str(error)
    finally:
        db.close()


# ---- what such a process does


def answer_lines(does):
    """Does each line, and answers where it is asked to print."""
    for line in sys.stdin:
        if line.startswith(".print "):
            print(line.removeprefix(".print ").strip(), flush=True)
        else:
            does(line)


def run_sql(file):
    """Runs each line as a statement."""
    db = sqlite3.connect(file, isolation_level=None)
    answer_lines(lambda line: db.execute(line).fetchall())
    db.close()


def hold_lock(path, kind, *bounds):
    """Holds a lock, and answers once it does."""
    file = open(path, "rb+")
    if kind == "flock":
        fcntl.flock(file, fcntl.LOCK_EX)
    else:
        first, count = (int(number) for number in bounds)
        fcntl.lockf(file, fcntl.LOCK_SH if kind == "read" else fcntl.LOCK_EX, count, first)
    answer_lines(lambda line: None)


def change_rows(db, chance):
    """A transaction of a few changes, now and then rolled back."""
    db.execute("BEGIN IMMEDIATE")
    for _ in range(chance.randrange(1, 30)):
        number = chance.randrange(600)
        text = chr(97 + number % 26) * chance.randrange(4000)
        db.execute("INSERT OR REPLACE INTO a(id, t, n) VALUES (?, ?, ?)", (number, text, chance.random()))
        db.execute("INSERT OR REPLACE INTO b VALUES (?, ?)", (f"key {number}", text[:90]))
        db.execute("DELETE FROM a WHERE id = ?", (chance.randrange(900),))
    db.execute("ROLLBACK" if chance.random() < 0.1 else "COMMIT")


def write(file, mode, seconds):
    """Writes a database in bursts, with pauses of up to 20 ms between them."""
    chance = random.Random(mode)
    end = time.monotonic() + float(seconds)
    db = sqlite3.connect(file, isolation_level=None, timeout=60)
    for name, value in ("journal_mode", mode), ("synchronous", "off"), ("wal_autocheckpoint", 200), ("cache_size", 20):
        db.execute(f"PRAGMA {name}={value}").fetchall()
    while time.monotonic() < end:
        for _ in range(chance.randrange(1, 25)):
            change_rows(db, chance)
        if chance.random() < 0.1:
            db.execute("DELETE FROM a WHERE id % 3 = 0")
            db.execute(chance.choice(["VACUUM", "PRAGMA wal_checkpoint(TRUNCATE)", "REINDEX"])).fetchall()
        time.sleep(chance.choice([0, 0.001, 0.005, 0.02]))
    db.close()


if __name__ == "__main__":
    libc = ctypes.CDLL(None)
    libc.prctl(1, signal.SIGKILL)  # PR_SET_PDEATHSIG: it ends with the process that began it
    {"sql": run_sql, "lock": hold_lock, "write": write}[sys.argv[1]](*sys.argv[2:])
