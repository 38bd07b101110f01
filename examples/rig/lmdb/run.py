"""Commits 8 transactions to an LMDB database, and marks each."""
import os
import lmdb

store = lmdb.open('store', map_size=1 << 20, lock=False)
marks = open(os.environ['SQCRASH_MARKS'], 'ab', 0)
for number in range(8):
    with store.begin(write=True) as changes:
        for row in range(3):
            changes.put(b'key%d' % (2 * number + row), bytes([number]) * 300)
    marks.write(b'commit\n')
store.close()
