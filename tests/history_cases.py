"""Parts of tests/history: checkpoints of sqlite3 that copy frames into the file, cut it and lengthen it again, and
writers that are killed."""
import random, re, sqlite3, subprocess, sys

from history_answers import *
from history_logs import Several
from lib import preloaded
from locks_runs import launched, launcher, left, program

PARTS = []
COMMITS = int(os.environ.get("COMMITS", "1000"))  # that `defaults` asks for


def part(function):
    PARTS.append(function)
    return function


class Told:
    """What databases were at commits, as sqlite3 told here."""

    def __init__(self):
        self.sums = {}

    def sum(self, log, commit):
        return self.sums.get(commit)


class Live:
    """A database of this process, with what sqlite3 told of it at its commits. Other programs read its files: SQLite
    would lose its locks if this process opened and closed them."""

    def __init__(self, folder, vacuum=0, page_size=1024):
        self.path, self.told, self.reader = os.path.join(folder, "live.db"), Told(), None
        self.db = sqlite3.connect(self.path, isolation_level=None)
        for line in (f"PRAGMA page_size={page_size}", f"PRAGMA auto_vacuum={vacuum}", "PRAGMA journal_mode=wal",
                     "PRAGMA synchronous=off", "PRAGMA wal_autocheckpoint=0"):
            self.db.execute(line)

    def files(self):
        return [subprocess.check_output(["cat", self.path + end]) for end in ("", "-wal")]

    def note(self):
        self.told.sums[Past(*self.files()).front] = sum_of(self.db.serialize())

    def commit(self, *lines):
        self.db.execute("BEGIN")
        for line in lines:
            self.db.execute(line)
        self.db.execute("COMMIT")
        self.note()

    def emptied(self):
        self.db.execute("PRAGMA wal_checkpoint(TRUNCATE)").fetchall()
        self.told.sums = {0: sum_of(self.db.serialize())}

    def checkpoint(self, kind="PASSIVE"):
        return self.db.execute(f"PRAGMA wal_checkpoint({kind})").fetchone()

    def reads(self):
        """A reader of the last commit, instead of an earlier one."""
        self.closes()
        self.reader = sqlite3.connect(self.path, isolation_level=None)
        self.reader.execute("BEGIN")
        self.reader.execute("SELECT * FROM sqlite_schema").fetchone()

    def closes(self):
        if self.reader:
            self.reader.close()
            self.reader = None

    def ends(self):
        self.closes()
        self.db.close()


def shell(path, *lines, library=None, ends=0):
    """The sqlite3 of the command line, which may be killed before one of its writes. Its status."""
    more = dict(LD_PRELOAD=library, ENDS=str(ends)) if library else {}
    text = "".join(f"{line}\n" for line in lines)
    return subprocess.run(["sqlite3", path], input=text.encode(), capture_output=True,
                          env=dict(os.environ, **more)).returncode


def judged(files, looks=LOOKS, pairs=4):
    """A file and its log, by all that the program reports of them."""
    files.is_true()
    files.judge_all(looks=looks)
    files.front_is_shown([*looks, ("show",), ("show", "--log"), ("show", "--commits")])
    files.lists_commits()
    files.explains()
    rng = random.Random(len(files.log))
    drawn = [(rng.choice(files.commits), rng.choice(files.commits)) for _ in range(pairs)]
    known = [commit for commit in files.commits if files.known[commit]]
    files.judge_differences({*drawn, (known[0], known[-1]), (known[-1], known[0])})
    files.judge_default()
    files.judge_history(0)
    files.judge_history(known[0])
    files.judge_report()


# ---- by name


@part
def copied_over(folder):
    """A passive checkpoint copies all frames; commits that don't name each page that was copied are refused."""
    live = Live(folder, page_size=512)
    live.db.execute("CREATE TABLE acct(id INTEGER PRIMARY KEY, who TEXT, bal INTEGER)")
    live.db.executemany("INSERT INTO acct VALUES(?, ?, 100)", [(n, f"w{n:04}" + "." * 30) for n in range(200)])
    live.emptied()
    for n in range(1, 7):
        more = {3: ["DELETE FROM acct WHERE id BETWEEN 50 AND 120"],
                5: [f"INSERT INTO acct VALUES({1000 + k}, 'n{k:04}{'.' * 60}', 7)" for k in range(100)]}
        live.commit(f"UPDATE acct SET bal=bal-10 WHERE id={n * 3}",
                    f"UPDATE acct SET bal=bal+10 WHERE id={199 - n * 3}", *more.get(n, []))
    before = Files(folder, *live.files(), live.told, "before the checkpoint")
    holds("all are known before a checkpoint", all(before.known.values()), before.known)
    judged(before)
    live.checkpoint()
    files = Files(folder, *live.files(), live.told, "copied over")
    live.ends()
    check("the last two alone are known", [m for m in files.commits if files.known[m]], files.commits[-2:])
    judged(files, MORE_LOOKS)
    refused_words(files)


def refused_words(files):
    """The line, the object and the status of a refusal, for each command; nothing is written."""
    first, last = files.commits[1], files.commits[-1]
    out = os.path.join(files.folder, "none.out")
    words = [["check"], ["check", "--deep"], ["show"], ["show", "--pages"], ["show", "--page", "2"], ["rows"],
             ["rows", "--places"], ["rows", "--deleted"], ["rows", "--table", "acct"], ["salvage", "--to", out],
             ["recover", "--to", out], ["report", "--to", out]]
    before = [content(files.path + end) for end in ("", "-wal")]
    for line in words:
        for at in 0, first:
            found = run(*line, files.path, "--at", at)
            holds(f"{line} at {at} is refused", is_refused(found), found)
            check(f"{line} at {at}: object", run(*line, files.path, "--at", at, "--json")[:2], (3, OBJECT))
            holds(f"{line} at {at}: nothing is made", not os.path.exists(out))
    for line in ["--from", first], ["--to", first], ["--from", first, "--sql"], ["--from", 0, "--deleted"]:
        found = run("diff", files.path, *line)
        holds(f"diff {line} is refused", is_refused(found), found)
    for line in words:
        found = run(*line, files.path, "--at", last + 1)
        check(f"{line}: no such commit", (found[0], found[2]), (3, b"sqrescue: no such commit\n"))
    check("nothing is written", [content(files.path + end) for end in ("", "-wal")], before)


@part
def journal_beside_an_empty_log(folder):
    """If the log has no bytes, a hot journal is current: the database is the one before its transaction, and FILE alone
    at 0. If the log has commits, both are refused, at each of them too."""
    path, out = os.path.join(folder, "j.db"), os.path.join(folder, "j.out")
    db = sqlite3.connect(path, isolation_level=None)
    for line in "PRAGMA page_size=512", "PRAGMA cache_size=5", "CREATE TABLE t(a INTEGER PRIMARY KEY, b)":
        db.execute(line)
    db.executemany("INSERT INTO t VALUES(?, ?)", [(n, "x" * 300) for n in range(100)])
    before = db.serialize()
    db.execute("BEGIN")
    db.execute("UPDATE t SET b='y' || b")
    file, journal = (subprocess.check_output(["cat", path + end]) for end in ("", "-journal"))
    db.execute("ROLLBACK")
    db.close()
    holds("the transaction wrote to the file", file != before and journal[8:12] != bytes(4), len(journal))
    put(path, file)
    put(path + "-journal", journal)
    put(path + "-wal", b"")
    for words, wanted in ([], before), (["--at", 0], file):
        found = run("recover", path, "--to", out, *words)
        check(f"beside an empty log {words}", (found[0], content(out) == wanted), (0, True))
        os.path.exists(out) and os.remove(out)
    check("its rows", run("rows", path, "--json", "--table", "t")[1].count(b'"b":"x'), 100)
    copied_log = log_of_commits(folder)
    put(path + "-wal", copied_log)
    for words in [], ["--at", 0], ["--at", 1]:
        found = run("check", path, *words)
        check(f"beside a log with commits {words}", (found[0], found[2]), (3, b"sqrescue: two logs\n"))


def log_of_commits(folder):
    """The log of a database of another name."""
    live = Live(folder, page_size=512)
    live.commit("CREATE TABLE n(k INTEGER PRIMARY KEY, v)")
    live.commit("INSERT INTO n VALUES(1, 0)")
    log = live.files()[1]
    live.ends()
    return log


def shrunk(folder, vacuum, by_itself=False, chunk=0, regrow=False):
    """A later, smaller commit is copied and cuts the file, while a reader keeps the log from being begun again. Then a
    larger one may lengthen it again. Chunks: the length is no commit's size."""
    live = Live(folder, vacuum)
    vacuumed = ["PRAGMA incremental_vacuum"] * (vacuum == 2)
    sizes = [f".filectrl chunk_size {chunk}"] * bool(chunk)
    rng = random.Random(5)
    for line in "CREATE TABLE t(a INTEGER PRIMARY KEY, b)", "CREATE TABLE n(k INTEGER PRIMARY KEY, v)":
        live.db.execute(line)
    live.db.execute("INSERT INTO n VALUES(1, 0)")
    live.db.executemany("INSERT INTO t VALUES(?, ?)", [(n, rng.randbytes(400).hex()) for n in range(60)])
    live.emptied()
    live.commit("UPDATE t SET b=b||'!' WHERE a BETWEEN 8 AND 44", "DELETE FROM t WHERE a=45", *vacuumed)
    live.commit("UPDATE n SET v=1")
    if by_itself:
        live.db.execute("PRAGMA wal_autocheckpoint=10")
    live.commit("DELETE FROM t WHERE a BETWEEN 12 AND 43", *vacuumed)
    if not by_itself:
        live.reads()
        shell(live.path, *sizes if not regrow else [], "PRAGMA wal_checkpoint(PASSIVE);")
        if regrow:
            live.commit(f"INSERT INTO t VALUES(1000, '{'y' * 900}')")
            live.reads()
            shell(live.path, *sizes, "PRAGMA wal_checkpoint(PASSIVE);")
        live.commit("UPDATE n SET v=3")
    found = live.files()
    live.ends()
    return found, live.told


@part
def cut_by_a_checkpoint(folder):
    """Commits whose pages a checkpoint cut away: comparing bytes alone doesn't show it."""
    ways = {"auto_vacuum FULL": dict(vacuum=1), "its own checkpoint": dict(vacuum=1, by_itself=True),
            "auto_vacuum INCREMENTAL": dict(vacuum=2), "chunks": dict(vacuum=1, chunk=16384),
            "lengthened again": dict(vacuum=1, regrow=True),
            "lengthened again by chunks": dict(vacuum=1, regrow=True, chunk=49152)}
    reasons = set()
    for name, way in ways.items():
        for end in "", "-wal", "-shm":
            if os.path.exists(os.path.join(folder, "live.db" + end)):
                os.remove(os.path.join(folder, "live.db" + end))
        (file, log), told = shrunk(folder, **way)
        files = Files(folder, file, log, told, name, ["--pointer-maps"])
        lost = {commit: files.past.lost_page(commit) for commit in files.commits}
        holds(f"{name}: some commit is lost", any(lost.values()), lost)
        reasons |= {why[1] for why in lost.values() if why}
        judged(files)
    check("pages were copied over, and cut away", reasons, {"copied", "cut away"})


@part
def killed_while_it_grew(folder):
    """A checkpoint cut the file. A later one, of a process that maps it, lengthens it first and is killed while it
    copies: pages are zeros that weren't zeros before the first checkpoint."""
    library = preloaded(folder, "ends")
    live = Live(folder, vacuum=1)
    for line in "CREATE TABLE t(a INTEGER PRIMARY KEY, b)", "CREATE TABLE n(k INTEGER PRIMARY KEY, v)":
        live.db.execute(line)
    live.db.execute("INSERT INTO n VALUES(1, 0)")
    live.db.executemany("INSERT INTO t VALUES(?, ?)", [(n, f"{n:08}" * 100) for n in range(60)])
    live.emptied()
    live.commit("UPDATE t SET b=b||'!' WHERE a BETWEEN 8 AND 44", "DELETE FROM t WHERE a=45")
    live.commit("UPDATE n SET v=1")
    live.commit("DELETE FROM t WHERE a BETWEEN 12 AND 43")
    live.reads()
    live.checkpoint()
    for first in 1000, 2000, 3000:
        live.commit(f"INSERT INTO t SELECT {first}+a, b||'z' FROM t WHERE a<11")
    live.commit("UPDATE n SET v=2")
    file, log = live.files()
    live.ends()
    several, reasons, last = Several(folder), set(), None
    for ends in range(1, 200):
        path = os.path.join(folder, "copy.db")
        put(path, file)
        put(path + "-wal", log)
        status = shell(path, "PRAGMA synchronous=off;", "PRAGMA mmap_size=100000000;",
                       "PRAGMA wal_checkpoint(PASSIVE);", library=library, ends=ends)
        os.path.exists(path + "-shm") and os.remove(path + "-shm")
        if status == 0:
            break
        if content(path) == last:
            continue
        last = content(path)
        past = several.add(f"killed before write {ends}", last, log)
        for commit in [0, *past.commits]:
            if past.is_known(commit):
                check(f"before write {ends}: the definition at {commit}", sum_of(past.used(commit)),
                      live.told.sum(log, commit))
            else:
                reasons.add(past.lost_page(commit)[1])
    several.judge("--pointer-maps")
    for path in list(several.pasts)[::9]:
        several.made(path, next(commit for commit in several.commits(path) if several.pasts[path].is_known(commit)))
    holds("it was killed at many places", len(several.pasts) > 20, len(several.pasts))
    holds("pages were cut away", "cut away" in reasons, reasons)


@part
def lengthened_in_advance(folder):
    """A file that SQLite lengthens by chunks: its commits have more pages than their headers count. What happened to
    the pages above the count doesn't make a commit unknown. sqlite3 shows the same databases of logs that end there."""
    path, chunks = os.path.join(folder, "long.db"), ".filectrl chunk_size 65536"
    shell(path, chunks, "PRAGMA page_size=1024;", "PRAGMA journal_mode=wal;",
          "CREATE TABLE t(a INTEGER PRIMARY KEY, b);", "CREATE TABLE n(v);", "INSERT INTO n VALUES(0);")
    commits = [f"BEGIN; UPDATE n SET v={k}; INSERT INTO t(b) VALUES('{'y' * 900}'); COMMIT;" for k in range(1, 7)]
    before, after = (f".system cp long.db {name}.db; cp long.db-wal {name}.db-wal" for name in ("before", "after"))
    done = subprocess.run(["sqlite3", path], text=True, capture_output=True, cwd=folder, input="\n".join([
        chunks, "PRAGMA synchronous=off;", "PRAGMA wal_autocheckpoint=0;", *commits, before,
        "PRAGMA wal_checkpoint(PASSIVE);", after]))
    check("sqlite3", (done.returncode, done.stderr), (0, ""))
    (file, log), later = (copied(os.path.join(folder, name)) for name in ("before.db", "after.db"))
    past, told = Past(file, log), Told()
    for commit in [0, *past.commits]:
        told.sums[commit] = sum_of(shown_by_sqlite(folder, file, log[:32 + commit * (24 + past.size)]))
    holds("the log stays", later[1] == log)
    sizes = {commit: (past.count(commit), past.frames[commit - 1][1]) for commit in past.commits}
    holds("the headers count fewer pages", all(count < size for count, size in sizes.values()), sizes)
    judged(Files(folder, file, log, told, "lengthened in advance"))
    files = Files(folder, *later, told, "lengthened in advance and copied")
    known = [commit for commit in files.commits if files.known[commit]]
    check("each is known whose frames, or those before, have page 1", known, files.commits[2:])
    above = range(files.past.count(known[0]) + 1, files.past.long + 1)
    holds("pages above its count are copied", any(files.past.is_copied(page) for page in above))
    judged(files)


def shown_by_sqlite(folder, file, log):
    """The database that sqlite3 shows of a file and a log."""
    path = os.path.join(folder, "shown.db")
    for end, some in ("", file), ("-wal", log):
        put(path + end, some)
    os.path.exists(path + "-shm") and os.remove(path + "-shm")
    db = sqlite3.connect(path)
    try:
        return db.serialize()
    finally:
        db.close()


EXCLUSIVE = """import os, sqlite3, sys
db = sqlite3.connect(sys.argv[1], isolation_level=None)
for line in "PRAGMA locking_mode=exclusive", "PRAGMA wal_checkpoint(PASSIVE)": db.execute(line).fetchall()
os._exit(0)
"""


@part
def an_index_that_lies(folder):
    """A connection in exclusive mode keeps its index to itself. So FILE-shm, which a killed one left, says that no
    frame was copied although a checkpoint copied all. Nothing is read from that: commits are refused all the same,
    with locks and without."""
    path = os.path.join(folder, "index.db")
    left("PRAGMA journal_mode=wal", "PRAGMA wal_autocheckpoint=0", "CREATE TABLE t(a)", "CREATE TABLE u(a)",
         "PRAGMA wal_checkpoint(TRUNCATE)", "INSERT INTO t VALUES(1)", "INSERT INTO u VALUES(2)",
         "INSERT INTO t VALUES(3)", file=path)
    index, before = content(path + "-shm"), content(path)
    subprocess.run([sys.executable, "-c", EXCLUSIVE, path], check=True)
    past = Past(*copied(path))
    holds("it copied", content(path) != before and len(past.commits) == 3, past.commits)
    holds("FILE-shm says that it didn't", index[96:100] == index[128:132] == bytes(4))
    holds("FILE-shm is as before", content(path + "-shm") == index)
    holds("FILE-shm is the log's", index[32:40] == copied(path)[1][16:24])
    known = [commit for commit in [0, *past.commits] if past.is_known(commit)]
    check("the last two are known", known, past.commits[-2:])
    for commit in [0, *past.commits]:
        for by in launcher, program:
            answer = launched(f"check {path} --at {commit}", by=by)
            wanted = (0, "") if commit in known else (3, REFUSED.decode())
            check(f"at {commit} by {os.path.basename(by)}", (answer.status, answer.err), wanted)


# ---- killed at any time


def profiles():
    """Each kind of checkpoint at each page size, with a reader and without one, and what else is drawn."""
    rng = random.Random(80)
    for page_size in 512, 1024, 2048, 4096:
        for kind in "PASSIVE", "", "FULL", "RESTART", "TRUNCATE":
            for reader in True, False:
                yield dict(seed=rng.randrange(10**6), page_size=page_size, checkpoint=kind, reader=reader,
                           auto=0 if kind else rng.choice([20, 60]), vacuum=rng.choice([0, 0, 1, 2]),
                           mmap=rng.choice([0, 10**8]), chunk=rng.choice([0, 0, 65536, 20000]),
                           cache=rng.choice([10, 2000]), rows=rng.choice([10, 60, 150]), often=rng.choice([0.2, 0.6]),
                           steps=rng.choice([6, 12, 20]), ends=rng.random() < 0.6)


def killed_files(folder, number, profile, library):
    """The files that a writer of this profile left, in a folder of their own."""
    place = os.path.join(folder, str(number))
    os.mkdir(place)
    seconds = None
    if not profile["ends"] and number % 2:
        profile, seconds = dict(profile, steps=10**6), random.Random(number).random() * 0.8
    record = killed(place, profile, library, seconds)
    file, log = copied(os.path.join(place, "w.db"))
    maps = ["--pointer-maps"] if profile["vacuum"] else []
    name = re.sub("[{}' ]", "", str({key: value for key, value in profile.items() if key != "steps"}))
    return Files(place, file, log, record, name, maps)


def thinned(files, most, rng):
    """So many commits, the last known and the first unknown ones among them, and 0."""
    if len(files.commits) <= max(most, 6):
        return files.commits
    turns = [a for a, b in zip(files.commits, files.commits[1:]) if files.known[a] != files.known[b]][:4]
    return sorted({0, files.commits[-1], *turns, *rng.sample(files.commits, most - len(turns) - 2)})


@part
def killed_writers(folder):
    """Writers that are killed at any time, under each kind of checkpoint."""
    library, rng = preloaded(folder, "ends"), random.Random(1)
    made = list(workers.map(lambda one: killed_files(folder, *one, library), enumerate(profiles())))
    known, lost = 0, 0
    for number, files in enumerate(made):
        files.is_true()
        files.judge_all(thinned(files, 8, rng), LOOKS if number % 3 == 0 else [])
        files.front_is_shown(LOOKS[number % 2:][:1])
        known += sum(files.known.values())
        lost += len(files.commits) - sum(files.known.values())
        if files.commits:
            files.judge_history(next(commit for commit in files.commits if files.known[commit]))
            files.judge_differences([(rng.choice(files.commits), rng.choice(files.commits)) for _ in range(2)])
            files.judge_report()
    holds("many commits are known, and many aren't", known > 50 and lost > 50, (known, lost))


@part
def defaults(folder):
    """Commits of logs of which sqlite3's own checkpoints, as they are by default, copied frames: a thousand, or
    COMMITS."""
    library, rng = preloaded(folder, "ends"), random.Random(2)
    runs = [dict(seed=number, page_size=4096, checkpoint="", auto=None, reader=number % 4 < 3, rows=300, ends=True,
                 late=True, vacuum=0, steps=rng.choice([250, 300, 350])) for number in range(-(-COMMITS // 100))]
    asked = found = 0
    for files in list(workers.map(lambda one: killed_files(folder, *one, library), enumerate(runs))):
        files.is_true()
        some = thinned(files, min(max(COMMITS - asked, 10), 125), rng) if asked < COMMITS else []
        files.judge_all(some, [])
        asked += len(some)
        found += sum(files.known[commit] for commit in some)
    print(f"defaults: {asked} commits, {found} known and right")
    holds("so many commits", asked >= COMMITS, asked)
    holds("some are known, and some aren't", asked // 10 < found < asked, (found, asked))
