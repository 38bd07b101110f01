#!/usr/bin/env python3
"""work.py FILE LEVEL END SEED: commits to a new database in WAL mode, with savepoints that the cache can't hold.

LEVEL is full or normal. END is rollback or release: what ends the savepoints that don't last. SEED chooses the rows."""
import os, random, sqlite3, sys
path, level, end, seed = sys.argv[1:]
draw = random.Random(int(seed))
marks = open(os.environ.get('SQCRASH_MARKS', os.devnull), 'ab', 0)
db = sqlite3.connect(path, isolation_level=None)


def run(step, *values):
    return db.execute(step, values).fetchall()


def insert(count, most):
    for _ in range(count):
        run('insert into t(b, c) values(?, ?)', draw.getrandbits(40), draw.randbytes(draw.randint(1, most)))


def leave(savepoint, is_undone):
    if is_undone and end == 'rollback':
        run('rollback to ' + savepoint)
    run('release ' + savepoint)


for setting in 'page_size = 1024', 'synchronous = ' + level, 'cache_size = 10', 'journal_mode = wal':
    run('pragma ' + setting)
marks.write(b'mode\n')
for step in 'create table t(a integer primary key, b, c)', 'create index i on t(b)':
    run(step)
    marks.write(b'commit\n')
for number in range(10):
    run('begin')
    insert(draw.randint(1, 4), 2000)
    run('savepoint outer')
    insert(draw.randint(5, 25), 900)
    run('savepoint inner')
    run('update t set b = b + 1 where a % 2 = 0')
    run('delete from t where a % 5 = 0')
    leave('inner', number % 2 == 1)
    insert(1, 3000)
    leave('outer', number % 3 == 2)
    insert(draw.randint(0, 2), 500)
    run('commit')
    marks.write(b'commit\n')
    if number % 3 == 1:
        run('pragma wal_checkpoint(%s)' % draw.choice(['passive', 'restart', 'truncate']))
        marks.write(b'checkpoint\n')
db.close()
marks.write(b'closed\n')
