"""A process that writes to a database with a write-ahead log as a profile says, checkpoints it and is killed. After
each commit it writes down which frame of which log ended it, and the sum of the bytes that the database then had."""
import ctypes, hashlib, json, os, random, signal, sqlite3, subprocess, sys

INDEX_FRONT, INDEX_SALTS = 16, 32  # where FILE-shm has the last frame, and the log's salts


def without_mode(content):
    """A database's bytes but for the two that say whether it has a write-ahead log."""
    return content[:18] + b"\2\2" + content[20:]


def sum_of(content):
    return hashlib.sha256(without_mode(content)).hexdigest()


class Writer:
    def __init__(self, path, record, profile):
        self.path, self.profile = path, profile
        self.rng = random.Random(profile["seed"])
        self.record = os.open(record, os.O_WRONLY | os.O_CREAT | os.O_APPEND)
        self.index = self.reader = None
        self.db = self.opened()
        self.next_row, self.has_u = 1, False
        for line in (f"PRAGMA page_size={profile['page_size']}", f"PRAGMA auto_vacuum={profile.get('vacuum', 0)}",
                     "PRAGMA journal_mode=wal", "CREATE TABLE t(a INTEGER PRIMARY KEY, b TEXT)",
                     "CREATE INDEX i ON t(b)", "CREATE TABLE n(k INTEGER PRIMARY KEY, v INTEGER)",
                     "INSERT INTO n VALUES(1, 0)"):
            self.db.execute(line).fetchall()
        self.db.execute("BEGIN")
        self.insert(profile.get("rows", 60))
        self.db.execute("COMMIT")
        # (SQLite would lose its locks if this process closed the file)
        self.index = os.open(path + "-shm", os.O_RDONLY)
        if self.rng.random() < 0.7:
            self.db.execute("PRAGMA wal_checkpoint(TRUNCATE)").fetchall()
        self.note()

    def opened(self):
        db = sqlite3.connect(self.path, isolation_level=None, timeout=0)
        auto = self.profile.get("auto", 0)
        for line in ("PRAGMA synchronous=off", f"PRAGMA cache_size={self.profile.get('cache', 2000)}",
                     f"PRAGMA mmap_size={self.profile.get('mmap', 0)}",
                     "" if auto is None else f"PRAGMA wal_autocheckpoint={auto}"):
            db.execute(line).fetchall()
        return db

    def note(self):
        """Writes down what the last commit left."""
        head = os.pread(self.index, 48, 0)
        frame = int.from_bytes(head[INDEX_FRONT:INDEX_FRONT + 4], sys.byteorder)
        salts = head[INDEX_SALTS:INDEX_SALTS + 8].hex()
        os.write(self.record, f"{salts} {frame} {sum_of(self.db.serialize())}\n".encode())

    # ---- transactions

    def text(self, most):
        return self.rng.randbytes(self.rng.randrange(most)).hex()

    def insert(self, count):
        for _ in range(count):
            most = 3000 if self.rng.random() < 0.05 else 200
            self.db.execute("INSERT INTO t VALUES(?, ?)", (self.next_row, self.text(most)))
            self.next_row += 1

    def some_row(self):
        return self.rng.randrange(1, self.next_row)

    def add(self):
        self.insert(self.rng.randrange(1, 12))

    def change(self):
        for _ in range(self.rng.randrange(1, 6)):
            self.db.execute("UPDATE t SET b=? WHERE a=?", (self.text(200), self.some_row()))

    def count(self):
        self.db.execute("UPDATE n SET v=v+1")

    def remove(self):
        first = self.some_row()
        self.db.execute("DELETE FROM t WHERE a BETWEEN ? AND ?", (first, first + self.rng.randrange(30)))

    def shrink(self):
        self.db.execute("DELETE FROM t WHERE a > ?", (self.next_row // 3,))

    def table(self):
        if self.has_u:
            self.db.execute("DROP TABLE u")
        else:
            self.db.execute("CREATE TABLE u(a INTEGER PRIMARY KEY, b TEXT)")
            self.db.executemany("INSERT INTO u VALUES(?, ?)", [(n, self.text(300)) for n in range(30)])
        self.has_u = not self.has_u

    def give_up(self):
        """A transaction that may write to the log and is rolled back."""
        self.db.execute("BEGIN")
        self.db.execute("UPDATE t SET b=b||'x'")
        self.db.execute("ROLLBACK")

    def commit(self):
        kinds = {self.add: 5, self.change: 5, self.count: 3, self.remove: 3, self.shrink: 1, self.table: 1}
        kind = self.rng.choices(list(kinds), list(kinds.values()))[0]
        self.db.execute("BEGIN")
        kind()
        if self.profile.get("vacuum") == 2:
            self.db.execute(f"PRAGMA incremental_vacuum({self.rng.randrange(1, 40)})").fetchall()
        self.db.execute("COMMIT")
        self.note()
        if self.rng.random() < 0.03:
            self.db.execute("VACUUM")
            self.note()
        if self.rng.random() < 0.1:
            self.give_up()

    # ---- what lies beside

    def read(self):
        """A reader keeps the log from being begun anew, and later commits from being copied."""
        if self.rng.random() < 0.35:
            if self.reader:
                self.reader.close()
            self.reader = self.opened()
            self.reader.execute("BEGIN")
            self.reader.execute("SELECT * FROM n").fetchone()

    def checkpoint(self):
        line = f"PRAGMA wal_checkpoint({self.profile['checkpoint']})"
        chunk = self.profile.get("chunk")
        if not chunk:
            self.db.execute(line).fetchall()
            return
        lines = f".filectrl chunk_size {chunk}\nPRAGMA mmap_size={self.profile.get('mmap', 0)};\n{line};\n"
        ends = self.rng.randrange(1, 60) if self.profile.get("ends") and self.rng.random() < 0.3 else 0
        done = subprocess.run(["sqlite3", self.path], input=lines.encode(), capture_output=True,
                              env=dict(os.environ, ENDS=str(ends)))
        if done.returncode:
            self.die()

    def die(self):
        os.kill(os.getpid(), signal.SIGKILL)

    def step(self):
        if self.profile.get("reader"):
            self.read()
        try:
            self.commit()
        except sqlite3.OperationalError:  # a reader keeps VACUUM or the like off
            if self.db.in_transaction:
                self.db.execute("ROLLBACK")
        if self.profile["checkpoint"] and self.rng.random() < self.profile.get("often", 0.4):
            self.checkpoint()


def main():
    path, record, profile = sys.argv[1], sys.argv[2], json.loads(sys.argv[3])
    writer = Writer(path, record, profile)
    print("ready", flush=True)
    steps = profile["steps"]
    ends = writer.rng.randrange(steps * 4 // 5 if profile.get("late") else 0, steps) if profile.get("ends") else None
    for number in range(steps):
        if number == ends:
            ctypes.CDLL(None).ends_before(writer.rng.randrange(1, 90))
        writer.step()
    writer.die()


if __name__ == "__main__":
    main()
