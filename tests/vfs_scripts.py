"""What processes of their own run in tests/vfs."""

# Opens a URI, reads, cuts FILE to half a page or to nothing, and reads on.
CUT = """
uri, path, how = sys.argv[1:]
db = opened(uri)
db.execute("PRAGMA cache_size = 2")
print(len(db.execute("SELECT * FROM t LIMIT 2").fetchall()))
os.truncate(path, 4096 if how == "half" else 0)
for sql in ("SELECT count(*), sum(length(v)) FROM t", "SELECT sqrescue_error()"):
    try:
        print((db if sql.endswith("t") else first).execute(sql).fetchone()[0])
    except sqlite3.Error as error:
        print(error.sqlite_errorcode)
"""

# Cuts FILE and writes it again without locks, until it is killed.
CUTTER = """
import os, sys
path = sys.argv[1]
with open(path, "rb") as file:
    content = file.read()
print("ready", flush=True)
while True:
    os.truncate(path, 0)
    with open(path, "r+b") as file:
        file.write(content)
"""

# Opens a URI again and again, and counts what it comes to.
OPENER = """
found = {}
for k in range(150):
    try:
        said = opened(sys.argv[1]).execute("SELECT count(*) FROM t").fetchone()[0]
    except sqlite3.Error as error:
        said = "refused"
    found[said] = found.get(said, 0) + 1
print(sum(found.values()))
"""

# Holds a database's exclusive lock for some seconds.
HOLDER = """
import sqlite3, sys, time
while True:
    try:
        db = sqlite3.connect(sys.argv[1], isolation_level=None, timeout=20)
        db.execute("BEGIN EXCLUSIVE")
        break
    except sqlite3.OperationalError:
        pass
print("held", flush=True)
time.sleep(float(sys.argv[2]))
db.execute("ROLLBACK")
"""

# A writer: each commit counts one up, adds a row of that number and takes an old one away.
WRITER = """
import random, sqlite3, sys
path, mode = sys.argv[1:]
db = sqlite3.connect(path, isolation_level=None, timeout=30)
db.execute("PRAGMA journal_mode = " + mode)
db.execute("PRAGMA synchronous = off")
db.execute("PRAGMA wal_autocheckpoint = 300")
db.execute("CREATE TABLE IF NOT EXISTS counter(n)")
db.execute("CREATE TABLE IF NOT EXISTS rows(n INTEGER PRIMARY KEY, body)")
db.execute("CREATE INDEX IF NOT EXISTS bodies ON rows(body)")
db.execute("INSERT INTO counter VALUES(0)")
db.execute("PRAGMA wal_checkpoint(TRUNCATE)").fetchall()
print("ready", flush=True)
draw, n = random.Random(5), 0
while True:
    n += 1
    db.execute("BEGIN IMMEDIATE")
    db.execute("UPDATE counter SET n = ?", (n,))
    db.execute("INSERT INTO rows VALUES(?, randomblob(?))", (n, draw.choice([10, 300, 3000])))
    db.execute("DELETE FROM rows WHERE n < ?", (n - 60,))
    db.execute("COMMIT")
"""
