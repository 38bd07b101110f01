"""Readings during writes with a rollback journal, and during VACUUM. Readings with a connection that holds RESERVED
alone, with a journal whose writer is gone, and with FILE.lock."""
import contextlib, os, re, sqlite3, subprocess, sys, time

from locks_runs import *

LONG = 10 if "--long" in sys.argv else 1
BESIDE = int(os.environ.get("READINGS", 300 * LONG))  # readings during writes, a third in each mode
VACUUMS = BESIDE * 2 // 3  # and during VACUUM
ROWS = 300  # of a table whose rows all have the number of the last commit: some 200,000 bytes are printed
MANY = 5000  # of a larger one: some 3 million bytes are printed
NONE_CURRENT = "1073742337"  # the byte of the launcher's own lock

WRITER = """import ctypes, random, sqlite3, sys
ctypes.CDLL(None).prctl(1, 9)
path, mode, kind, seed = sys.argv[1:]
chance, number = random.Random(seed), 0
db = sqlite3.connect(path, timeout=60, isolation_level=None)
db.execute("PRAGMA journal_mode=" + mode)
db.execute("PRAGMA synchronous=" + chance.choice(["full", "off"]))
db.execute("PRAGMA cache_size=" + chance.choice(["5", "2000"]))
print("begun", flush=True)
while True:
    if kind == "vacuum" and chance.random() < 0.5:
        db.execute("VACUUM")
        continue
    db.execute("BEGIN IMMEDIATE")
    db.execute("UPDATE t SET number=?, pad=hex(randomblob(300))", (number + 1,))
    if chance.random() < 0.3:
        db.execute("ROLLBACK")
    else:
        try:
            db.execute("COMMIT")
            number += 1
        except sqlite3.OperationalError:
            db.execute("ROLLBACK")
"""


def filled(mode, rows=ROWS):
    made(mode)
    sql(UNSYNCED, "CREATE TABLE n(x)", "DROP TABLE t", "CREATE TABLE t(id INTEGER PRIMARY KEY, number, pad)",
        f"WITH RECURSIVE k(i) AS (SELECT 1 UNION ALL SELECT i+1 FROM k WHERE i<{rows}) "
        "INSERT INTO t SELECT i, 0, hex(randomblob(300)) FROM k")


class Writer:
    """A process that writes one transaction after another."""

    def __init__(self, mode, kind="update", seed=1):
        words = [sys.executable, "-c", WRITER, "a.db", mode, kind, str(seed)]
        self.child = subprocess.Popen(words, stdout=subprocess.PIPE, text=True)
        assert self.child.stdout.readline() == "begun\n"

    def __enter__(self):
        return self

    def __exit__(self, *_):
        self.child.kill()
        self.child.communicate()


def of_one_commit(numbers):
    return len(numbers) in (ROWS, MANY) and len(set(numbers)) == 1 and numbers[0] >= 0


def rows_fault(answer, pattern=re.compile(r'{"id":\d+,"number":(-?\d+),')):
    """What is wrong with rows that were printed: they are not refused, and all of one commit."""
    if answer.status or answer.err:
        return f"status {answer.status} {answer.err[-200:]}"
    numbers = [int(number) for number in pattern.findall(answer.out)]
    return None if of_one_commit(numbers) else f"{len(numbers)} rows of {set(numbers)}"


def statements_fault(answer):
    return rows_fault(answer, re.compile(r'VALUES\(\d+,(-?\d+),'))


def script_fault(answer):
    if answer.status or answer.err:
        return f"status {answer.status} {answer.err[-200:]}"
    db = sqlite3.connect(":memory:")
    db.executescript(answer.out)
    numbers = [number for number, in db.execute("SELECT number FROM t")]
    db.close()
    return None if of_one_commit(numbers) else f"{len(numbers)} rows of {set(map(str, numbers))}"


def copy_fault(answer):
    if answer.status or answer.err:
        return f"status {answer.status} {answer.err[-200:]}"
    db = sqlite3.connect("copy.db")
    numbers = [number for number, in db.execute("SELECT number FROM t")]
    whole = db.execute("PRAGMA integrity_check").fetchall()
    db.close()
    os.remove("copy.db")
    return None if of_one_commit(numbers) and whole == [("ok",)] else f"{len(numbers)} rows, {whole}"


def is_clean(answer):
    return wrong(answer, 0, re.compile("clean: .*\n"), re.compile(".*", re.S))


def is_done(answer):
    return None if answer.status == 0 else f"status {answer.status} {answer.err[-200:]}"


# each reading, and what is wrong with its answer
READINGS = [
    ("rows a.db --table t --json", rows_fault),
    ("check a.db --deep", is_clean),
    ("salvage a.db --to -", script_fault),
    ("recover a.db --to copy.db", copy_fault),
    ("diff a.db", is_done),
    ("check a.db", is_clean),
    ("show a.db --pages", is_done),
    ("rows a.db --places", is_done),
    ("show a.db --log", is_done),
    ("rows a.db --table t --sql", statements_fault),
    ("rows a.db --deleted", is_done),
    ("report a.db --to -", is_done),
]


def beside(mode, kind, count):
    """So many readings during writes: what is wrong with the first few of them."""
    faults = []
    filled(mode)
    with Writer(mode, kind):
        for trial in range(count):
            line, fault_of = READINGS[trial % len(READINGS)]
            fault = fault_of(launched(f"{line} --wait 60"))
            if fault:
                faults.append((line, fault))
    return is_(f"{mode}, {kind}", not faults, (len(faults), faults[:3]))


@test
def readings_beside_writers():
    """Beside writers with each kind of rollback journal no reading is refused, and each shows one commit."""
    for mode in "delete", "truncate", "persist":
        yield beside(mode, "update", -(-BESIDE // 3))


@test
def readings_beside_vacuum():
    """Beside a connection that vacuums the database again and again, too."""
    for mode in "delete", "persist":
        yield beside(mode, "vacuum", VACUUMS // 2)


def is_alone(held):
    """Whether the launcher holds its special lock, which means that no journal is current."""
    numbers = held.said.split()[1].split(",")
    return NONE_CURRENT in read(f"/proc/{held.child.pid}/fdinfo/{numbers[0]}").decode()


@test
def a_connection_that_holds_reserved():
    """FILE alone is the database while somebody is about to write, with a hot journal or none. Its journal may come
    and go during the reading, and RESERVED is never locked."""
    for mode in "delete", "truncate", "persist":
        for begins in ("BEGIN IMMEDIATE",), ("PRAGMA synchronous=off", "BEGIN IMMEDIATE", "UPDATE t SET number=-1"):
            filled(mode)
            with Session() as session:
                for line in begins:
                    session.says(line)
                name = f"{mode}, {len(begins)}"
                for line, fault_of in READINGS:
                    yield f"{name}: {line}", fault_of(launched(line))
                with Held("rows a.db --table t --json") as held:
                    yield is_(f"{name}: no journal is current", held.is_held and is_alone(held), held.said)
                    for line in "UPDATE t SET number=-2", "ROLLBACK", "BEGIN IMMEDIATE", "UPDATE t SET number=-3":
                        found = session.says(line)
                        yield is_(f"{name}: {line}", found == [], found)
                    yield f"{name}: goes on", rows_fault(held.goes_on())


@test
def a_writer_that_begins_meanwhile():
    """Where no journal was hot when it was looked at, none is current, whoever begins to write until the end."""
    for mode in "delete", "truncate", "persist":
        filled(mode)
        sql("UPDATE t SET number=0")
        for line, fault_of in READINGS:
            with Session() as session, Held(line) as held:
                yield is_(f"{mode}, {line}: no journal is current", held.is_held and is_alone(held), held.said)
                for statement in "BEGIN IMMEDIATE", "UPDATE t SET number=-1":
                    session.says(statement)
                yield f"{mode}, {line}", fault_of(held.goes_on())


def torn(mode):
    """A database whose writer ended in the middle of a commit: it has a hot journal, and FILE has new pages."""
    filled(mode)
    before = read("a.db")
    left(f"PRAGMA journal_mode={mode}", "PRAGMA cache_size=5", "BEGIN",
         "UPDATE t SET number=-1, pad=hex(randomblob(300))")
    return before


@test
def a_journal_whose_writer_is_gone():
    """A hot journal that nobody will finish is current: it is rolled back in what is read. Others may have it open."""
    for mode in "delete", "truncate", "persist":
        before = torn(mode)
        yield is_(f"{mode}: torn", read("a.db") != before and os.path.getsize("a.db-journal") > 512)
        log = read("a.db-journal")
        with Held("rows a.db --table t --json") as held:
            yield is_(f"{mode}: it is current", held.is_held and not is_alone(held), held.said)
            for line, fault_of in READINGS:
                if line == "diff a.db":
                    yield f"{mode}: {line}", wrong(launched(line), 0, re.compile("table \"t\"\n.*", re.S))
                elif line == "show a.db --log":
                    yield f"{mode}: {line}", wrong(launched(line), 0, re.compile("journal pagesize .*", re.S))
                else:
                    yield f"{mode}: {line}", fault_of(launched(line))
            found = sql("SELECT count(*) FROM t")
            yield is_(f"{mode}: SQLite waits", found == "database is locked", found)
            yield f"{mode}: goes on", rows_fault(held.goes_on())
        yield is_(f"{mode}: unchanged", read("a.db-journal") == log)
        found = sql(f"SELECT count(*) FROM t WHERE number=0", "PRAGMA integrity_check")
        yield is_(f"{mode}: rolled back", found == [[(ROWS,)], [("ok",)]], found)


GONE = """import os, sqlite3, sys
db = sqlite3.connect("a.db", isolation_level=None)
for line in "PRAGMA synchronous=off", "BEGIN IMMEDIATE", "UPDATE t SET number=-1": db.execute(line)
os._exit(0)
"""


@contextlib.contextmanager
def held_before_a_journal_is_lost(mode, line, rows=ROWS):
    """A connection that has read since before a writer that is gone and never wrote FILE, and a line whose locks are
    held: the connection may write over that writer's journal."""
    filled(mode, rows)
    with Session() as session:
        for statement in f"PRAGMA journal_mode={mode}", "BEGIN", "SELECT count(*) FROM t":
            session.says(statement)
        subprocess.run([sys.executable, "-c", GONE], check=True)
        with Held(line) as held:
            yield session, held
            session.says("ROLLBACK")


@test
def a_journal_that_changes_meanwhile():
    """A reader may be older than a writer that is gone and never wrote FILE. It may write over that writer's journal:
    FILE alone is the database from then on, and nothing is refused."""
    for mode in "delete", "persist":
        for line, fault_of in READINGS:
            with held_before_a_journal_is_lost(mode, line) as (session, held):
                yield is_(f"{mode}, {line}: it is current", held.is_held and not is_alone(held), held.said)
                found = session.says("UPDATE t SET number=-2 WHERE id<100")
                yield is_(f"{mode}, {line}: it changes", found == [], found)
                yield f"{mode}, {line}", fault_of(held.goes_on())


# commands that print such a table while they read it
PRINTING = [READINGS[k] for k in (0, 2, 9)]


@test
def a_journal_that_changes_behind_output():
    """It may do so also once a part was printed: what follows is read of FILE alone, and nothing is printed twice."""
    for mode in "delete", "persist":
        for line, fault_of in PRINTING:
            with held_before_a_journal_is_lost(mode, line, MANY) as (session, held):
                yield is_(f"{mode}, {line}: it is current", held.is_held and not is_alone(held), held.said)
                begun = held.begins()
                yield is_(f"{mode}, {line}: a part is printed", len(begun) > 0)
                found = session.says("UPDATE t SET number=-2 WHERE id<100")
                yield is_(f"{mode}, {line}: it changes", found == [], found)
                answer = held.goes_on()
                yield f"{mode}, {line}", fault_of(Answer(answer.status, begun + answer.out, answer.err))


@test
def a_folder_for_a_lock():
    """FILE.lock is SQLite's unix-dotfile if it is a folder: in use for a recovery, a note otherwise. A file of that
    name is a note."""
    for mode in "delete", "wal":
        made(mode)
        os.mkdir("a.db.lock")
        note = ("sqrescue: note: a.db.lock: a folder, by which SQLite's unix-dotfile locks the database: its owner may "
                "write meanwhile\n")
        for by in launcher, program:
            refused = re.compile(f"({re.escape(note)})?{IN_USE}")
            yield f"{mode}: recover", wrong(launched("recover a.db", by=by), 3, "", refused)
            yield f"{mode}: check", wrong(launched("check a.db", by=by), 0, re.compile("clean: .*\n"), note)
            yield f"{mode}: forced", wrong(launched("recover a.db --no-lock", by=by), 0, "nothing to recover\n", note)
        begun = time.monotonic()
        yield f"{mode}: waits", wrong(launched("recover a.db --wait 1"), 3, "", re.compile(f".*{IN_USE}", re.S))
        yield is_(f"{mode}: it waited", time.monotonic() - begun >= 1)
        os.rmdir("a.db.lock")
        with open("a.db.lock", "w"):
            pass
        note = "sqrescue: note: a.db.lock: no folder, so no lock of SQLite's unix-dotfile\n"
        for by in launcher, program:
            found = launched("recover a.db", by=by)
            yield f"{mode}: recover beside a file", wrong(found, 0, "nothing to recover\n", note)
            found = launched("check a.db", by=by)
            yield f"{mode}: check beside a file", wrong(found, 0, re.compile("clean: .*\n"), note)
        os.remove("a.db.lock")
