"""A process that writes, as a profile says, until it is told to stop. Each transaction writes the same number into
every row of t and m, and keeps (number % 40) rows in u. What was begun and committed is told in shared memory."""
import ctypes, json, mmap, os, random, signal, sqlite3, struct, sys, time

ctypes.CDLL(None).prctl(1, signal.SIGKILL)  # PR_SET_PDEATHSIG: it ends with the process that began it

path, board_path = sys.argv[1:3]
slot, seed, profile = int(sys.argv[3]), int(sys.argv[4]), json.loads(sys.argv[5])
board = mmap.mmap(os.open(board_path, os.O_RDWR), 4096)  # 0: stop; 16+32*slot: begun, committed, count, worst wait
rng = random.Random(seed)
errors = {}


def put(at, value):
    # (pack_into writes zeros first, and then a byte at a time)
    board[16 + 32 * slot + at:24 + 32 * slot + at] = struct.pack("<q", value)


def get(at):
    return struct.unpack("<q", board[16 + 32 * slot + at:24 + 32 * slot + at])[0]


def committed():
    """The last number that any writer was told is committed."""
    return max(struct.unpack("<q", board[24 + 32 * i:32 + 32 * i])[0] for i in range(16))


def connect():
    c = sqlite3.connect(path, timeout=profile.get("timeout", 2.0), isolation_level=None)
    c.execute("pragma synchronous=%s" % profile.get("sync", "normal"))
    c.execute("pragma wal_autocheckpoint=%d" % profile.get("auto", 10))
    c.execute("pragma cache_size=%d" % profile.get("cache", 2000))
    return c


def transaction(c):
    t0, low = time.monotonic(), committed()
    c.execute(rng.choice(profile.get("begin", ["begin immediate"])))
    n = c.execute("select n from m").fetchone()[0] + 1
    if n <= low:
        raise sqlite3.DatabaseError("LOST %d of %d" % (n, low))
    put(0, n)
    c.execute("update t set v=?, pad=randomblob(?)", (n, rng.randrange(20, 260)))
    want = n % 40
    have = c.execute("select count(*) from u").fetchone()[0]
    if have < want:
        c.executemany("insert into u values(?, zeroblob(?))", [(i, rng.randrange(0, 9000)) for i in range(have, want)])
    elif have > want:
        c.execute("delete from u where k>=?", (want,))
    c.execute("update m set n=?, sum=(select sum(v) from t)", (n,))
    if rng.random() < profile.get("rollback", 0.1):
        c.execute("rollback")
        return
    c.execute("commit")
    put(8, n)
    put(16, get(16) + 1)
    took = int((time.monotonic() - t0) * 1e6)
    if took > get(24):
        put(24, took)


def other(c, what):
    if what == "read":
        c.execute("begin")
        a = c.execute("select n from m").fetchone()[0]
        time.sleep(rng.random() * 0.005)
        b = c.execute("select min(v), max(v) from t").fetchone()
        c.execute("commit")
        if b != (a, a):
            raise sqlite3.DatabaseError("TORN READ %r %r" % (a, b))
    elif what.startswith("PRAGMA "):
        c.execute(what).fetchall()
    else:
        raise ValueError(what)


def once(c):
    what = rng.choices(list(profile["mix"]), list(profile["mix"].values()))[0]
    if what == "write":
        transaction(c)
    else:
        other(c, what)


c = None
while board[0] == 0:
    try:
        if c is None:
            c = connect()
        once(c)
        if rng.random() < profile.get("close", 0.0):
            c.close()
            c = None
        if profile.get("pause"):
            time.sleep(rng.random() * profile["pause"])
    except sqlite3.Error as e:
        errors[str(e)] = errors.get(str(e), 0) + 1
        try:
            if c is not None and c.in_transaction:
                c.execute("rollback")
        except sqlite3.Error as e:
            errors["rollback: " + str(e)] = errors.get("rollback: " + str(e), 0) + 1
            c.close()
            c = None
try:
    if c is not None:
        c.close()
except sqlite3.Error as e:
    errors["close: " + str(e)] = 1
print(json.dumps(errors))
