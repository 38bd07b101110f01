#!/usr/bin/env python3
"""loss.py FILE [STATEMENT..]: commits row 2 to a new database in WAL mode, runs the statements, and exits."""
import os, sqlite3, sys
db = sqlite3.connect(sys.argv[1], isolation_level=None)
marks = open(os.environ.get('SQCRASH_MARKS', os.devnull), 'ab', 0)
many = 'with n(a) as (select 2 union all select a + 1 from n where a < 30) '
for step in ['pragma journal_mode = wal', 'pragma synchronous = full', 'pragma cache_size = 10',
             'create table t(a integer primary key, b, c)', 'create index i on t(b)', 'insert into t values(1, 1, 1)',
             'pragma wal_checkpoint(truncate)', 'update t set c = 2', 'savepoint s',
             many + 'insert into t select a, a, zeroblob(3000) from n', 'update t set c = zeroblob(3001) where a > 15',
             'rollback to s', 'insert into t values(2, 2, 2)', 'release s', *sys.argv[2:]]:
    db.execute(step).fetchall()
    if not db.in_transaction: marks.write(b'mode\n' if step.startswith('pragma') else b'commit\n')
print(sqlite3.sqlite_version, db.execute('select a, b, c from t').fetchall(), flush=True)
os._exit(0)  # as a process that is killed: nothing closes the database
