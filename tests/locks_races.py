"""The launcher beside processes of SQLite that open, commit, close, end in the middle and read."""
import json, mmap, os, random, shutil, signal, sqlite3, struct, subprocess, sys, time
from concurrent.futures import ThreadPoolExecutor

from locks_runs import *

LONG = 10 if "--long" in sys.argv else 1
TRIALS, ALONE = 300 * LONG, 60 * LONG  # recoveries under locks, and without
SNAPSHOTS, JOURNALS = 200 * LONG, 60 * LONG
LEFT = 150  # the rows of what a process left
LONGEST_LOG = 1 << 30  # of a workload: one that grows on would fill the disk

# ---- recoveries beside processes that open, commit and close

WRITER = """import ctypes, random, sqlite3, sys, time
ctypes.CDLL(None).prctl(1, 9)
chance = random.Random(sys.argv[1])
for line in sys.stdin:
    path, seconds = line.split()
    told, end = [], time.monotonic() + float(seconds)
    while time.monotonic() < end:
        db = sqlite3.connect(path, timeout=5, isolation_level=None)
        try:
            db.execute("PRAGMA synchronous=off")
            number = chance.randrange(1 << 60)
            db.execute("INSERT INTO w VALUES(?, zeroblob(3000))", (number,))
            told.append(number)
        except sqlite3.Error as error:
            told.append(str(error))
        db.close()
        time.sleep(chance.random() * 0.01)
    print(told, flush=True)
"""


def template(mode):
    """What a process left: a log with commits, or a hot journal."""
    made(mode, "left.db")
    sql("CREATE TABLE w(number, pad)", file="left.db")
    if mode == "wal":
        left("PRAGMA wal_autocheckpoint=0",
             *[f"INSERT INTO w VALUES({-row}, zeroblob(3000))" for row in range(1, LEFT)], file="left.db")
    else:
        rows = [f"INSERT INTO w VALUES({-row}, zeroblob(3000))" for row in range(1, LEFT)]
        sql("BEGIN", *rows, "COMMIT", file="left.db")
        left("PRAGMA cache_size=5", "BEGIN", "UPDATE w SET pad=randomblob(3000)", file="left.db")
    return {end: read("left.db" + end) for end in ENDS if os.path.exists("left.db" + end)}


class Race:
    """Trials, one behind the other, of a recovery in a folder beside two writers."""

    def __init__(self, files, seed, command):
        self.files, self.command, self.chance = files, command, random.Random(seed)
        self.folder = os.path.join(os.getcwd(), f"race{seed}-{len(command)}")
        os.mkdir(self.folder)
        self.path = os.path.join(self.folder, "a.db")
        pipes = dict(stdin=subprocess.PIPE, stdout=subprocess.PIPE, text=True, bufsize=1)
        self.writers = [subprocess.Popen([sys.executable, "-c", WRITER, str(seed * 2 + k)], **pipes) for k in range(2)]
        self.lost, self.refused, self.recovered, self.faults = 0, 0, 0, []

    def trial(self):
        for end in ENDS:
            if os.path.exists(self.path + end):
                os.remove(self.path + end)
        for end, content in self.files.items():
            with open(self.path + end, "wb") as file:
                file.write(content)
        pipes = dict(stdout=subprocess.PIPE, stderr=subprocess.PIPE, text=True)
        run = subprocess.Popen([*self.command, self.path], **pipes)
        time.sleep(self.chance.random() * 0.015)
        for writer in self.writers:
            writer.stdin.write(f"{self.path} 0.03\n")
        out, err = run.communicate(timeout=SECONDS)
        told = [it for writer in self.writers for it in json.loads(writer.stdout.readline().replace("'", '"'))]
        self.refused += "in use" in err
        self.recovered += run.returncode == 0
        if run.returncode not in (0, 3) or run.returncode == 3 and err != IN_USE:
            self.faults.append((run.returncode, out, err))
        self.judge([it for it in told if isinstance(it, int)])

    def judge(self, told):
        db = sqlite3.connect(self.path, isolation_level=None)
        try:
            have = {number for number, in db.execute("SELECT number FROM w")}
            verdict = db.execute("PRAGMA integrity_check").fetchall()
        except sqlite3.Error as error:
            have, verdict = set(), error
        db.close()
        gone = [it for it in told + [-row for row in range(1, LEFT)] if it not in have]
        self.lost += bool(gone) or verdict != [("ok",)]

    def trials(self, count):
        for _ in range(count):
            self.trial()
        for writer in self.writers:
            writer.stdin.close()
            writer.wait()
            writer.stdout.close()
        shutil.rmtree(self.folder)
        return self


def races(files, count, command):
    """So many trials, in as many folders at once as there are processors."""
    at_once = os.cpu_count() or 1
    each = [Race(files, seed, command) for seed in range(at_once)]
    with ThreadPoolExecutor(at_once) as runs:
        return list(runs.map(lambda race: race.trials(count // at_once), each))


@test
def recoveries_beside_writers():
    """No commit that was told is lost, and no database is malformed, in trials at random moments."""
    for mode in "wal", "delete":
        files = template(mode)
        done = races(files, TRIALS, [launcher, "recover", "--wait", "1"])
        faults = [fault for race in done for fault in race.faults]
        lost, recovered, refused = (sum(getattr(race, it) for race in done) for it in ("lost", "recovered", "refused"))
        print(f"{mode}: {recovered} recovered, {refused} in use, {lost} with a loss")
        yield is_(f"{mode}: no commit is lost", lost == 0, lost)
        yield is_(f"{mode}: some are recovered", recovered > 0, recovered)
        yield is_(f"{mode}: nothing else is said", not faults, faults[:2])
        control = races(files, ALONE, [program, "recover", "--no-lock"])
        lost = sum(race.lost for race in control)
        print(f"{mode}, without locks: {lost} of {ALONE} with a loss")


# ---- copies beside writers

WAL = {"write": 10, "read": 3}
PROFILES = {
    # name: page size, journal mode, how many are ended a second, and of each writer what it does
    "wal": (4096, "wal", 0, [{"mix": WAL, "pause": 0.002}] * 3),
    "checkpoints": (4096, "wal", 0, [{"mix": WAL, "auto": 0, "pause": 0.02}] * 2 + [{"mix": {
        "PRAGMA wal_checkpoint(passive)": 3, "PRAGMA wal_checkpoint(restart)": 2, "PRAGMA wal_checkpoint(truncate)": 2},
        "timeout": 0.2, "pause": 0.004}]),
    "opened and closed": (512, "wal", 0, [{"mix": WAL, "close": 0.7, "pause": 0.002}] * 3),
    "ended": (512, "wal", 10, [{"mix": WAL, "close": 0.05, "cache": 10, "rollback": 0.3, "pause": 0.002}] * 3),
    "delete": (4096, "delete", 10, [{"mix": WAL, "cache": 10, "pause": 0.002}] * 3),
    "persist": (1024, "persist", 10, [{"mix": WAL, "cache": 10, "pause": 0.002}] * 3),
}


def start_database(path, page_size, mode):
    db = sqlite3.connect(path, isolation_level=None)
    for line in (f"PRAGMA page_size={page_size}", f"PRAGMA journal_mode={mode}",
                 "CREATE TABLE t(k INTEGER PRIMARY KEY, v, pad)", "CREATE TABLE u(k INTEGER PRIMARY KEY, pad)",
                 "CREATE TABLE m(n, sum)", "BEGIN"):
        db.execute(line)
    db.executemany("INSERT INTO t VALUES(?, 0, zeroblob(200))", [(row,) for row in range(200)])
    db.execute("INSERT INTO m VALUES(0, 0)")
    db.execute("COMMIT")
    db.close()


def number_at(board, at):
    return struct.unpack("<q", board[at:at + 8])[0]


class Writers:
    """Processes that write a database, and say on a board which transaction they have begun, and which is committed."""

    def __init__(self, path, page_size, mode, kills, profiles):
        start_database(path, page_size, mode)
        self.path, self.kills, self.profiles, self.seed, self.errors = path, kills, profiles, 0, {}
        with open(path + ".board", "wb") as file:
            file.write(bytes(4096))
        with open(path + ".board", "r+b") as file:
            self.board = mmap.mmap(file.fileno(), 4096)
        self.each = [self.start(at) for at in range(len(profiles))]

    def start(self, at):
        self.seed += 1
        words = [self.path, self.path + ".board", str(at), str(self.seed), json.dumps(self.profiles[at])]
        script = os.path.join(os.path.dirname(os.path.abspath(__file__)), "locks_writer.py")
        return subprocess.Popen([sys.executable, script, *words], stdout=subprocess.PIPE)

    def begun(self):
        return max(number_at(self.board, 16 + 32 * at) for at in range(len(self.each)))

    def committed(self):
        return max(number_at(self.board, 24 + 32 * at) for at in range(len(self.each)))

    def end_one(self, at):
        self.each[at].kill()
        self.each[at].communicate()
        self.each[at] = self.start(at)

    def stop(self):
        self.board[0] = 1
        for process in self.each:
            out = process.communicate()[0]
            for error, count in (json.loads(out) if out else {"no answer": 1}).items():
                self.errors[error] = self.errors.get(error, 0) + count
        return [error for error in self.errors if "LOST" in error or "TORN" in error or "malformed" in error]


def fault_of(path, low, high, is_deep):
    """What is wrong with a copy: it isn't of one transaction, of another time, or malformed."""
    db = sqlite3.connect(path, isolation_level=None)
    try:
        n, total = db.execute("SELECT n, sum FROM m").fetchone()
        found = db.execute("SELECT min(v), max(v), count(*), sum(v) FROM t").fetchone()
        rows = db.execute("SELECT count(*), coalesce(max(k), -1) FROM u").fetchone()
        if found != (n, n, 200, total) or rows != (n % 40, n % 40 - 1):
            return f"of several transactions: {n}, {found}, {rows}"
        if not low <= n <= high:
            return f"of another time: {n}, not {low} to {high}"
        if is_deep and db.execute("PRAGMA integrity_check").fetchall() != [("ok",)]:
            return "malformed"
    except sqlite3.Error as error:
        return str(error)
    finally:
        db.close()


def snapshots(name, command, copies=SNAPSHOTS):
    """What is wrong with copies that a command makes beside a workload, and how long the slowest took. Between two is
    as much time as one took: readings without a pause keep SQLite from beginning its log anew, and it grows."""
    page_size, mode, kills, profiles = PROFILES[name]
    path, out = (os.path.join(os.getcwd(), name.replace(" ", "-") + end) for end in (".db", ".copy"))
    writers = Writers(path, page_size, mode, kills, profiles)
    try:
        faults, slowest = copies_beside(writers, command, out, copies)
    finally:
        said = writers.stop()
    return faults, said, slowest


def copies_beside(writers, command, out, copies):
    path, kills, chance = writers.path, writers.kills, random.Random(1)
    faults, slowest, last_kill = [], 0, 0
    while writers.committed() < 3:
        time.sleep(0.01)
    for count in range(copies):
        if kills and time.monotonic() - last_kill > 1 / kills:
            writers.end_one(chance.randrange(len(writers.each)))
            last_kill = time.monotonic()
        low, begun = writers.committed(), time.monotonic()
        answer = copied(command, path, out)
        took = time.monotonic() - begun
        slowest = max(slowest, took)
        if answer.status:
            faults.append((count, answer))
        else:
            fault = fault_of(out, low, writers.begun(), count % 10 == 0)
            faults += [(count, fault)] if fault else []
        for end in ENDS:
            if os.path.exists(out + end):
                os.remove(out + end)
        if size_of(path + "-wal") > LONGEST_LOG:
            faults.append((count, "the log grows"))
            break
        time.sleep(took)
    return faults, slowest


def size_of(path):
    """How long a file is; 0 where a writer has removed it."""
    try:
        return os.path.getsize(path)
    except FileNotFoundError:
        return 0


def copied(command, path, out):
    done = subprocess.run([command, "recover", path, "--to", out], capture_output=True, text=True, timeout=60)
    return Answer(done.returncode, done.stdout, done.stderr)


@test
def copies_beside_writers():
    """Each copy is of one transaction, which was committed when it was begun or later; none is refused for good."""
    with ThreadPoolExecutor(2) as runs:
        made = runs.map(lambda name: snapshots(name, launcher), PROFILES)
        for name, (faults, writers, slowest) in zip(PROFILES, made):
            right = SNAPSHOTS - len(faults)
            print(f"{name}: {right} of {SNAPSHOTS} copies right, the slowest in {slowest:.2f} seconds")
            yield is_(f"{name}: copies", not faults, faults[:2])
            yield is_(f"{name}: writers", not writers, writers)


@test
def copies_without_locks():
    """By the program alone, which takes none: each copy is of one transaction, or is refused as files changed."""
    for name in "wal", "checkpoints", "opened and closed":
        faults, writers, slowest = snapshots(name, program, SNAPSHOTS // 4)
        refused = [fault for _, fault in faults if fault == Answer(3, "", "sqrescue: file changed\n")]
        counted = f"{len(refused)} of {SNAPSHOTS // 4} copies refused"
        print(f"{name}, without locks: {counted}, the slowest in {slowest:.2f} seconds")
        yield is_(f"{name}, without locks: copies", len(faults) == len(refused) < SNAPSHOTS // 4, faults[:2])
        yield is_(f"{name}, without locks: writers", not writers, writers)


# ---- hot journals beside readers

READER = """import sqlite3, sys
while True:
    db = sqlite3.connect(sys.argv[1], timeout=0, isolation_level=None)
    try:
        db.execute("BEGIN")
        n, total = db.execute("SELECT n, sum FROM m").fetchone()
        if db.execute("SELECT min(v), max(v), sum(v) FROM t").fetchone() != (n, n, total):
            print("half a transaction", flush=True)
        db.execute("COMMIT")
    except sqlite3.OperationalError:
        pass
    except sqlite3.DatabaseError as error:
        print(error, flush=True)
    db.close()
"""


@test
def hot_journals_beside_readers():
    """A writer ends in the middle: the copy is what SQLite makes of the files, and a reader of SQLite sees no half."""
    profile = {"mix": {"write": 1}, "cache": 5, "rollback": 0}
    path, out, everything = (os.path.join(os.getcwd(), name) for name in ("hot.db", "hot.copy", "hot.all"))
    for mode in "delete", "persist":
        for end in ENDS:
            if os.path.exists(path + end):
                os.remove(path + end)
        writers, chance, faults, hot = Writers(path, 512, mode, 0, [profile]), random.Random(5), [], 0
        for count in range(JOURNALS // 2):
            low, begun = writers.committed(), time.monotonic()
            while writers.committed() <= low and time.monotonic() - begun < 5:
                time.sleep(0.001)
            time.sleep(chance.random() * 0.01)
            writers.each[0].kill()
            writers.each[0].communicate()
            for end in ENDS:
                if os.path.exists(everything + end):
                    os.remove(everything + end)
                if end != "-shm" and os.path.exists(path + end):
                    shutil.copy(path + end, everything + end)
            hot += os.path.exists(path + "-journal") and read(path + "-journal")[:1] not in (b"", b"\0")
            reader = subprocess.Popen([sys.executable, "-c", READER, path], stdout=subprocess.PIPE, text=True)
            answer = copied(launcher, path, out)
            time.sleep(0.03)
            reader.kill()
            said = reader.communicate()[0]
            n = sql("SELECT n FROM m", file=everything)[0][0]
            fault = answer.status or said or fault_of(out, n, n, True)
            faults += [(count, fault, answer)] if fault else []
            if os.path.exists(out):
                os.remove(out)
            writers.each[0] = writers.start(0)
        faults += writers.stop()
        print(f"{mode}: {hot} hot journals of {JOURNALS // 2}")
        yield is_(f"{mode}: copies", not faults, faults[:2])
        yield is_(f"{mode}: some are hot", hot > 0)
