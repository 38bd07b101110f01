"""Commits 12 batches to a LevelDB database, each by a write that returns when it is durable, and marks each."""
import os
import plyvel

database = plyvel.DB('store', create_if_missing=True, write_buffer_size=8192)
marks = open(os.environ['SQCRASH_MARKS'], 'ab', 0)
for batch in range(12):
    with database.write_batch(sync=True) as changes:
        for row in range(3):
            changes.put(b'key%d' % (3 * batch + row), bytes([batch]) * 600)
    marks.write(b'commit\n')
database.close()
