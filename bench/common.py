"""What the benchmarks and the tests share."""
import os, re, shutil, statistics, subprocess, sys, time

top = os.path.dirname(os.path.dirname(os.path.abspath(__file__)))
sqrescue = os.environ.get("SQRESCUE") or os.path.join(top, "bin", "sqrescue")

# The note of a file that isn't as long as its header says.
LENGTH = re.compile(r"sqrescue: note: .* (ends at byte|goes on for) .*\n")


def without_lengths(text):
    """What the program says on standard error, but for notes of a file that isn't as long as its header says."""
    return LENGTH.sub("", text)


def numbers(*defaults):
    """The numbers of the command line, with these where there are none."""
    given = [int(word) for word in sys.argv[1:]]
    return given + list(defaults)[len(given):]


def compiled(folder, name):
    """The C program of this name, compiled."""
    program = os.path.join(folder, name)
    subprocess.run(["gcc", "-O2", "-o", program, os.path.join(top, "bench", name + ".c")], check=True)
    return program


def contents(folder):
    """The files of a folder with their bytes, and its links with the names that they lead to."""
    found = {}
    for name in sorted(os.listdir(folder)):
        path = os.path.join(folder, name)
        if os.path.islink(path):
            found[name] = os.readlink(path)
            continue
        with open(path, "rb") as file:
            found[name] = file.read()
    return found


def fill(folder, files):
    """Makes a folder hold just these files and links."""
    shutil.rmtree(folder, ignore_errors=True)
    os.mkdir(folder)
    for name, content in files.items():
        path = os.path.join(folder, name)
        if isinstance(content, str):
            os.symlink(content, path)
            continue
        with open(path, "wb") as file:
            file.write(content)


def sqlite(database, sql):
    """Runs SQL on a database file."""
    subprocess.run(["sqlite3", database], input=sql.encode(), check=True, stdout=subprocess.DEVNULL)


def database(folder, size, page_size):
    """A database file of about so many bytes: nearly half in a table, a quarter each in its index and in chains of
    overflow pages, and a twentieth in the freelist."""
    db = os.path.join(folder, f"{size}.db")
    sqlite(db, f"""PRAGMA page_size={page_size}; PRAGMA journal_mode=off; PRAGMA synchronous=off;
CREATE TABLE plain(id INTEGER PRIMARY KEY, n INTEGER, t TEXT);
CREATE TABLE large(id INTEGER PRIMARY KEY, b BLOB);
CREATE TABLE gone(b BLOB);
INSERT INTO plain(n, t)
  SELECT value * 7, hex(randomblob(30)) || hex(zeroblob(value % 40)) FROM generate_series(1, {size // 300});
INSERT INTO large(b) SELECT randomblob({page_size * 5 // 2}) FROM generate_series(1, {size // page_size // 12});
INSERT INTO gone(b) SELECT randomblob({page_size * 3 // 4}) FROM generate_series(1, {size // page_size // 20});
CREATE INDEX by_text ON plain(t, n);
DROP TABLE gone;
""")
    return db


def live_log(folder, megabytes, page_size):
    """A database file beside a log of about so many MiB, in which each page is written five times."""
    made, base = os.path.join(folder, "made.db"), os.path.join(folder, "base.db")
    rounds = 4
    content = f"randomblob({page_size * 4 // 5})"
    rows = megabytes * 1048576 // page_size // (rounds + 1)
    sqlite(made, f"""PRAGMA page_size={page_size}; PRAGMA journal_mode=wal;
PRAGMA wal_autocheckpoint=0; PRAGMA synchronous=off;
CREATE TABLE a(id INTEGER PRIMARY KEY, b BLOB); PRAGMA wal_checkpoint(TRUNCATE);
INSERT INTO a(b) SELECT {content} FROM generate_series(1, {rows});
""" + f"UPDATE a SET b = {content};\n" * rounds + f".shell cp {made} {base}; cp {made}-wal {base}-wal\n")
    size = os.path.getsize(base + "-wal")
    print(f"log of {size} bytes, {(size - 32) // (page_size + 24)} frames of {page_size} byte pages")
    return base


def hot_journal(folder, megabytes, page_size):
    """A database file beside a hot journal of about so many MiB and several segments: the middle of a transaction that
    writes each page once, with room in memory for a sixth of them."""
    made, base = os.path.join(folder, "made.db"), os.path.join(folder, "base.db")
    content = f"randomblob({page_size * 4 // 5})"
    rows = megabytes * 1048576 // page_size
    sqlite(made, f"""PRAGMA page_size={page_size}; PRAGMA journal_mode=delete; PRAGMA synchronous=off;
CREATE TABLE a(id INTEGER PRIMARY KEY, b BLOB);
INSERT INTO a(b) SELECT {content} FROM generate_series(1, {rows});
PRAGMA synchronous=full; PRAGMA cache_size={rows // 6};
BEGIN; UPDATE a SET b = {content};
.shell cp {made} {base}; cp {made}-journal {base}-journal
ROLLBACK;
""")
    print(f"journal of {os.path.getsize(base + '-journal')} bytes, pages of {page_size} bytes")
    return base


def memory_of(process):
    """The most memory in KiB that a process had so far, 0 where it has ended."""
    try:
        with open(f"/proc/{process}/status") as status:
            found = re.search(r"VmHWM:\s+(\d+)", status.read())
            return int(found[1]) if found else 0
    except OSError:
        return 0


def run(command, out=subprocess.DEVNULL):
    """Runs a command: its processor time in seconds, user and system, and the most memory in KiB
    that was seen of it."""
    child = subprocess.Popen(command, stdout=out)
    memory = done = 0
    while not done:
        memory = max(memory, memory_of(child.pid))
        time.sleep(0.001)
        done, status, usage = os.wait4(child.pid, os.WNOHANG)
    if status != 0:
        sys.exit(f"{command[0]}: status {status}")
    return usage.ru_utime + usage.ru_stime, memory


def fresh(base, db):
    """Makes a copy of a database file and of the log beside it."""
    for end in ("", "-wal", "-shm", "-journal"):
        if os.path.exists(db + end):
            os.remove(db + end)
        if os.path.exists(base + end):
            shutil.copy(base + end, db + end)
    os.sync()


def compare(base, db, runs, commands):
    """Runs the commands in turn on fresh copies, and prints what they took. All are to leave the same database."""
    times = {name: [] for name in commands}
    memory = {name: 0 for name in commands}
    left = set()
    for _ in range(runs):
        for name, command in commands.items():
            fresh(base, db)
            seconds, most = run(command)
            times[name].append(seconds)
            memory[name] = max(memory[name], most)
            with open(db, "rb") as file:
                left.add(hash(file.read()))
    if len(left) != 1:
        sys.exit("the databases differ")
    c = statistics.median(times["plain C"])
    for name in commands:
        t = statistics.median(times[name])
        print(f"{name:10} {t:7.3f} s of processor time, {t / c:5.2f} times plain C, {memory[name]} KiB at most")
