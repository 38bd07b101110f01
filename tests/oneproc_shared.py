"""What tests/oneproc has done in a process of its own: calls of Python's package beside SQLite in one process.

usage: oneproc_shared.py shared BOX ROUNDS SECONDS    each part prints a line, which tests/oneproc judges
       oneproc_shared.py forks                        a line for each way that a child ends
       oneproc_shared.py package                      each line says whether it is so
       oneproc_shared.py pools"""
import hashlib, multiprocessing, os, pickle, signal, sqlite3, subprocess, sys, threading, time
from concurrent.futures import ProcessPoolExecutor

import sqrescue

# Another process that writes: a line in, `SECONDS PATH`, and one out.
OTHER = """
import sqlite3, sys
for line in sys.stdin:
    wait, path = line.rstrip("\\n").split(" ", 1)
    db = sqlite3.connect(path, isolation_level=None, timeout=float(wait))
    try:
        db.execute("BEGIN IMMEDIATE")
        db.execute("INSERT INTO t SELECT NULL, hex(randomblob(200)) FROM t LIMIT 40")
        db.execute("COMMIT")
        said = "ok"
    except sqlite3.OperationalError as error:
        said = error
    db.close()
    print(said, flush=True)
"""
FILES = ("", "-wal", "-shm", "-journal", ".out")


class Writer:
    """The other process."""

    def __init__(self):
        words = [sys.executable, "-c", OTHER]
        self.it = subprocess.Popen(words, stdin=subprocess.PIPE, stdout=subprocess.PIPE, text=True)

    def write(self, path, wait):
        """What SQLite says to it there, if it waits for locks for so many seconds."""
        self.it.stdin.write(f"{wait} {path}\n")
        self.it.stdin.flush()
        return self.it.stdout.readline().strip()

    def end(self):
        self.it.communicate()


def begun(path, mode):
    """A connection to a new database of 200 rows."""
    for end in FILES:
        if os.path.exists(path + end):
            os.remove(path + end)
    db = sqlite3.connect(path, isolation_level=None, timeout=20, check_same_thread=False)
    db.execute("PRAGMA journal_mode = " + mode)
    db.execute("PRAGMA synchronous = off")
    db.execute("CREATE TABLE t(k INTEGER PRIMARY KEY, v)")
    db.execute("CREATE INDEX i ON t(v)")
    db.execute("BEGIN")
    db.executemany("INSERT INTO t VALUES(?, ?)", [(k, "theirs" + "x" * 200) for k in range(200)])
    db.execute("COMMIT")
    return db


def viewed(path):
    with sqrescue.View(path) as view:
        return len(view)


def copied(path):
    if os.path.exists(path + ".out"):
        os.remove(path + ".out")
    return sqrescue.recover_to(path, path + ".out")


def recovered(path):
    return sqrescue.recover(path, wait=0)


CALLS = {"check": sqrescue.check, "view": viewed, "copy": copied, "recover": recovered}


def answer(call, path):
    """`ok`, or the name of the exception."""
    try:
        CALLS[call](path)
        return "ok"
    except sqrescue.Error as error:
        return type(error).__name__


def number(path, what):
    """What another process sees."""
    script = "import sqlite3, sys;"
    script += "print(sqlite3.connect(sys.argv[1], timeout=0.1).execute(sys.argv[2]).fetchone()[0])"
    return subprocess.run([sys.executable, "-c", script, path, what], capture_output=True, text=True).stdout.strip()


def round_of(writer, path, mode, call):
    """In the middle of a transaction a call is made, and another process tries to write."""
    db = begun(path, mode)
    db.execute("BEGIN IMMEDIATE")
    db.execute("UPDATE t SET v = 'ours' || v WHERE k % 2 = 0")
    said, theirs = answer(call, path), writer.write(path, 0)
    db.execute("COMMIT")
    ours = db.execute("SELECT count(*) FROM t WHERE v LIKE 'ours%'").fetchone()[0]
    sound = db.execute("PRAGMA integrity_check").fetchone()[0]
    db.close()
    return said, theirs, ours, sound


def idle(writer, path, call):
    """A connection that is idle while a call is made and another process opens, writes and closes; then it commits."""
    db = begun(path, "wal")
    said, theirs = answer(call, path), writer.write(path, 5)
    for k in range(1000, 1100):
        db.execute("INSERT INTO t VALUES(?, 'late')", (k,))
    seen = number(path, "SELECT count(*) FROM t WHERE v = 'late'")
    db.close()
    return said, theirs, seen


def busy(writer, path, mode, seconds):
    """Threads that commit, others that make our calls, and another process that commits."""
    begun(path, mode).close()
    counts, answers, over = [0, 0, 0], {}, time.monotonic() + seconds

    def goes_on():  # on a slow machine until each did something
        is_done = min(counts) > 0 and len(answers) > 3
        return time.monotonic() < (over if is_done else over + 60)

    def commits(at):
        db = sqlite3.connect(path, isolation_level=None, timeout=30)
        db.execute("PRAGMA synchronous = off")
        while goes_on():
            db.execute("INSERT INTO t VALUES(NULL, ?)", (f"thread{at}",))
            counts[at] += 1
            if counts[at] % 20 == 0:
                db.close()
                db = sqlite3.connect(path, isolation_level=None, timeout=30)
                db.execute("PRAGMA synchronous = off")
        db.close()

    def calls(names):
        k = 0
        while goes_on():
            name, k = names[k % len(names)], k + 1
            said = answer(name, path)
            answers[name, said] = answers.get((name, said), 0) + 1

    def others():
        while goes_on():
            counts[2] += writer.write(path, 20) == "ok"

    all_of = [threading.Thread(target=commits, args=(at,)) for at in (0, 1)]
    all_of += [threading.Thread(target=calls, args=(names,)) for names in (("check", "copy"), ("view", "recover"))]
    all_of.append(threading.Thread(target=others))
    for thread in all_of:
        thread.start()
    for thread in all_of:
        thread.join()
    db = sqlite3.connect(path)
    found = [db.execute("SELECT count(*) FROM t WHERE v = ?", (f"thread{at}",)).fetchone()[0] for at in (0, 1)]
    found.append((db.execute("SELECT count(*) FROM t").fetchone()[0] - sum(found) - 200) / 40)
    sound = db.execute("PRAGMA integrity_check").fetchone()[0]
    db.close()
    return [b - a for a, b in zip(counts, found)], sound, sorted(answers), min(counts) > 0


def shared(box, rounds, seconds):
    path, heard, writer = "shared.db", [], Writer()
    signal.signal(signal.SIGCHLD, lambda *_: heard.append(1))
    for mode in ("wal", "delete"):
        for call in CALLS:
            for _ in range(int(rounds)):
                print("round", mode, call, *round_of(writer, path, mode, call))
    for call in CALLS:
        print("idle", call, *idle(writer, path, call))
    had = len(heard)
    db = begun(path, "wal")
    now = len(os.listdir("/proc/self/fd"))
    for k in range(40):
        answer(sorted(CALLS)[k % 4], path)
    print("left", len(os.listdir("/proc/self/fd")) - now, len(heard) - had)
    db.close()
    if box != "bare":
        for mode in ("wal", "delete"):
            print("busy", mode, *busy(writer, path, mode, float(seconds)))
    writer.end()


def child_of(view, how):
    """A child is forked, and ends."""
    if how == "process":
        process = multiprocessing.get_context("fork").Process(target=len, args=(view,))
        process.start()
        return process.join()
    pid = os.fork()
    if pid:
        return os.waitpid(pid, 0)
    if how == "exit":
        sys.exit(0)
    if how == "with":
        with view:
            pass
    if how == "reads":
        os._exit(view.check().pages != len(view))
    os._exit(0)


def forks():
    """A child that ends keeps its parent's locks, so no other process may empty the log that the view reads."""
    path = "forked.db"
    begun(path, "wal").close()
    script = "import sqlite3, sys; db = sqlite3.connect(sys.argv[1]); db.execute('PRAGMA wal_autocheckpoint = 0');"
    script += "db.execute('UPDATE t SET v = 1'); db.commit(); print('ready', flush=True); sys.stdin.read()"
    words = [sys.executable, "-c", script, path]
    other = subprocess.Popen(words, stdin=subprocess.PIPE, stdout=subprocess.PIPE)
    other.stdout.readline()
    for how in ("exit", "_exit", "process", "with", "reads"):
        with sqrescue.View(path) as view:
            pages = hashlib.sha256(b"".join(view)).digest()
            child_of(view, how)
            is_busy = number(path, "PRAGMA wal_checkpoint(TRUNCATE)")
            print("fork", how, is_busy, hashlib.sha256(b"".join(view)).digest() == pages)
    other.communicate()


def raised(call):
    """The exception that a call raises."""
    try:
        call()
    except sqrescue.Error as error:
        return error


def spoilt(name):
    """A new database of fifty long rows, and one whose second page is spoilt."""
    begun(name, "wal").close()
    db = sqlite3.connect(name, isolation_level=None)
    db.execute("DROP TABLE t")
    db.execute("PRAGMA journal_mode = wal")
    db.execute("CREATE TABLE t(v)")
    db.executemany("INSERT INTO t VALUES(?)", [("x" * 3000,) for _ in range(50)])
    db.execute("PRAGMA wal_checkpoint")
    with open(name, "rb") as file, open("spoilt.db", "wb") as other:
        content = bytearray(file.read())
        content[4096] = 77
        other.write(content)
    return db


def read(view, how, wrong):
    try:
        while True:
            view.check() if how else view[len(view)]
    except ValueError:
        pass
    except BaseException as error:
        wrong.append(error)


def exceptions():
    """Each exception has what it should, also once it was pickled."""
    damaged = raised(lambda: sqrescue.check("spoilt.db"))
    again = pickle.loads(pickle.dumps(damaged))
    print((again.fault, again.page, str(again)) == ("Kind", 2, "page 2: Kind") == (damaged.fault, 2, str(damaged)))
    for call, wanted, names in ((lambda: sqrescue.View("nowhere.db"), 2, ("nowhere.db", None)),
                                (lambda: sqrescue.check("."), 21, (".", None)),
                                (lambda: sqrescue.recover_to("many.db", "spoilt.db"), 17, ("many.db", "spoilt.db")),
                                (lambda: sqrescue.recover_to("many.db", "no/where"), 2, ("many.db", "no/where"))):
        error = raised(call)
        again = pickle.loads(pickle.dumps(error))
        print((error.errno, (error.filename, error.filename2)) == (wanted, names) and str(again) == str(error))


def pages():
    """Pages in reverse order, and in a buffer."""
    with sqrescue.View("many.db") as view:
        print(list(reversed(view)) == list(view)[::-1] and len(list(reversed(view))) == len(view) > 40)
        buffer = bytearray(3 * view.page_size)
        view.read_into(7, memoryview(buffer)[view.page_size:])
        print(view[7] in buffer and buffer.count(0, 0, view.page_size) == view.page_size)
        for short in (bytearray(view.page_size - 1), bytearray()):
            try:
                view.read_into(7, short)
                print("a buffer that is too short")
            except ValueError:
                pass


def closes():
    """A view is closed while two threads read it."""
    wrong = []
    for k in range(40):
        view = sqrescue.View("many.db")
        readers = [threading.Thread(target=read, args=(view, k % 2, wrong)) for _ in range(2)]
        for reader in readers:
            reader.start()
        time.sleep(0.002)
        view.close()
        for reader in readers:
            reader.join()
    print(wrong == [] and sqrescue.__version__ == "1.0.0")


def package():
    db = spoilt("many.db")
    exceptions()
    pages()
    closes()
    db.execute("INSERT INTO t SELECT randomblob(3000) FROM t, (SELECT 1 FROM t LIMIT 40)")
    db.close()
    view = sqrescue.View("many.db")  # nobody has it open, so it is copied
    first = view[len(view)]
    db = sqlite3.connect("many.db", isolation_level=None)
    db.execute("UPDATE t SET v = 1")
    print(view[len(view)] == first and os.path.getsize("many.db") > 4 << 20)
    view.close()
    db.close()


def pools():
    """Each kind of pool hands over what `check` answers, and what it raises."""
    spoilt("many.db").close()
    pages = len(sqrescue.View("many.db"))
    for how in ("fork", "spawn", "forkserver"):
        context = multiprocessing.get_context(how)
        with context.Pool(2) as pool:
            print([it.pages for it in pool.map(sqrescue.check, ["many.db"] * 6)] == [pages] * 6)
            print(raised(lambda: pool.map(sqrescue.check, ["many.db", "spoilt.db"])).fault == "Kind")
            print(raised(lambda: pool.map(sqrescue.check, ["nowhere.db"])).errno == 2)
        with ProcessPoolExecutor(2, mp_context=context) as pool:
            futures = [pool.submit(sqrescue.check, name) for name in ("many.db", "spoilt.db", "many.db")]
            print([raised(it.result) is None for it in futures] == [True, False, True])


if __name__ == "__main__":
    {"shared": shared, "forks": forks, "package": package, "pools": pools}[sys.argv[1]](*sys.argv[2:])
