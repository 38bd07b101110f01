"""What the parts of tests/locks share: the launcher with the program beside it, one that waits once its locks are held,
and other processes with locks and databases."""
import contextlib, fcntl, json, os, shutil, sqlite3, struct, subprocess, sys, tempfile, time

import world_processes as processes
from lib import UNSYNCED, path_of
from world_runs import Answer, SECONDS, program, test, wrong

PENDING, SHARED, SHARED_LENGTH, WRITE, READ0, READ4, CONNECTIONS = 1 << 30, (1 << 30) + 2, 510, 120, 123, 127, 128
IN_USE = "sqrescue: in use\n"
NO_LOCKS = "sqrescue: no locks\n"
NOT_HERE = "sqrescue: note: SQLite's locks can't be taken here: nobody else may write these files meanwhile\n"
ENDS = "", "-wal", "-shm", "-journal"

holder = tempfile.TemporaryDirectory()
os.chmod(holder.name, 0o755)


def installed(name, beside, made=path_of("sqrescue-locked")):
    """The launcher in a folder of its own, with this beside it, or nothing."""
    top = os.path.join(holder.name, name)
    os.makedirs(os.path.join(top, "bin"))
    launcher = shutil.copy(made, os.path.join(top, "bin", "sqrescue"))
    if beside:
        os.makedirs(os.path.join(top, "libexec", "sqrescue"))
        shutil.copy(beside, os.path.join(top, "libexec", "sqrescue", "sqrescue"))
    return launcher


def waiting():
    """A program that says that the locks are held, or not, and waits for a line before it goes on as the real one."""
    path = os.path.join(holder.name, "waits")
    with open(path, "w") as script:
        script.write(f"""#!/bin/sh
case $1 in
  --locks) ;;
  --held) echo held "$2"; read -r _ ;;
  *) echo not held "$@"; read -r _ ;;
esac
exec {program} "$@"
""")
    os.chmod(path, 0o755)
    return path


launcher = installed("place", program)
waiter = installed("waiting", waiting())
alone = installed("alone", None)


def launched(line, by=launcher, before=(), **more):
    """The answer of the launcher to a line of words."""
    streams = dict(stdin=subprocess.DEVNULL, stdout=subprocess.PIPE, stderr=subprocess.PIPE)
    try:
        done = subprocess.run([*before, by, *line.split()], timeout=SECONDS, **{**streams, **more})
    except subprocess.TimeoutExpired:
        return Answer(f"none in {SECONDS} seconds", "", "")
    return Answer(done.returncode, *[(text or b"").decode(errors="replace") for text in (done.stdout, done.stderr)])


class Held:
    """A run of the launcher, whose program waits once the locks are held, and what it said of them."""

    def __init__(self, line):
        pipes = dict(stdin=subprocess.PIPE, stdout=subprocess.PIPE, stderr=subprocess.PIPE, text=True)
        self.child = subprocess.Popen([waiter, *line.split()], **pipes)
        self.said = self.child.stdout.readline().strip()
        self.is_held = self.said.startswith("held ")

    def begins(self):
        """Lets it go on, and answers the first character that it prints; the rest waits in a pipe that is full."""
        self.child.stdin.write("\n")
        self.child.stdin.flush()
        return os.read(self.child.stdout.fileno(), 1).decode()

    def goes_on(self):
        out, err = self.child.communicate("\n", timeout=SECONDS)
        return Answer(self.child.returncode, out, err)

    def __enter__(self):
        return self

    def __exit__(self, *_):
        if self.child.poll() is None:
            self.child.kill()
            self.child.communicate()


@contextlib.contextmanager
def locked(path, kind, start, count=1):
    """A lock of an open file, and none of a process, on these bytes."""
    with open(path, "rb+") as file:
        fcntl.fcntl(file, fcntl.F_OFD_SETLK, struct.pack("hhxxxxqqixxxx", kind, os.SEEK_SET, start, count, 0))
        yield


def sql(*statements, file="a.db", seconds=0.1):
    """What each of these statements answers on a connection of its own, or why SQLite refuses it."""
    found = []
    db = sqlite3.connect(file, isolation_level=None, timeout=seconds)
    for statement in statements:
        try:
            found.append(db.execute(statement).fetchall())
        except sqlite3.Error as error:
            found.append(str(error))
    db.close()
    return found if len(found) > 1 else found[0]


def made(mode, file="a.db"):
    """A database of a row, in this journal mode, that nobody has open."""
    for end in ENDS:
        if os.path.exists(file + end):
            os.remove(file + end)
    sql(f"PRAGMA journal_mode={mode}", UNSYNCED, "CREATE TABLE t(x)", "INSERT INTO t VALUES(1)", file=file)


SESSION = """import json, sqlite3, sys
db = sqlite3.connect(sys.argv[1], isolation_level=None, timeout=0.1)
for line in sys.stdin:
    try:
        print(json.dumps(db.execute(json.loads(line)).fetchall()), flush=True)
    except sqlite3.Error as error:
        print(json.dumps(str(error)), flush=True)
db.close()
"""


class Session:
    """A connection of another process: this one can't hold one, since it opens the files too, and where it closes one
    its process loses all of SQLite's locks on that file."""

    def __init__(self, file="a.db"):
        pipes = dict(stdin=subprocess.PIPE, stdout=subprocess.PIPE, text=True, bufsize=1)
        self.child = subprocess.Popen([sys.executable, "-c", SESSION, file], **pipes)

    def says(self, statement):
        """What SQLite answers, rows as lists, or why it refuses."""
        self.child.stdin.write(json.dumps(statement) + "\n")
        return json.loads(self.child.stdout.readline())

    def close(self):
        self.child.stdin.close()
        self.child.wait(SECONDS)
        self.child.stdout.close()

    def __enter__(self):
        return self

    def __exit__(self, *_):
        if self.child.poll() is None:
            self.close()


LEAVE = """import sqlite3, os, sys
db = sqlite3.connect(sys.argv[1], isolation_level=None)
db.execute("PRAGMA synchronous=off")
for line in sys.argv[2:]: db.execute(line).fetchall()
os._exit(0)
"""


def left(*statements, file="a.db"):
    """Has a process do these statements, and end without closing the database."""
    subprocess.run([sys.executable, "-c", LEAVE, file, *statements], check=True)


def read(path):
    with open(path, "rb") as file:
        return file.read()


def is_(what, holds, said=""):
    """A row: its name, and what is wrong."""
    return what, None if holds else f"not so: {said}"


__all__ = [name for name in dir() if not name.startswith("_")]
