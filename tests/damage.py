"""Databases that sqlite3 makes, and bytes that are changed in them where they are likely to matter."""
import os

from lib import sqlite

# Fields of the header that `check` looks at.
HEADER = [0, 16, 17, 20, 21, 22, 23, *range(24, 40), 55, 67, *range(92, 96)]

# For each database its page size, its reserved bytes, its encoding and how many rows it has.
DATABASES = [(512, 0, "UTF-8", 120), (512, 20, "UTF-8", 120), (512, 0, "UTF-16le", 120), (512, 0, "UTF-8", 15),
             (1024, 0, "UTF-8", 150), (4096, 0, "UTF-8", 200)]
# Those with auto-vacuum.
MAPPED = [(512, 0, "UTF-8", 120), (512, 20, "UTF-8", 60), (1024, 0, "UTF-16le", 100)]

ROWS = """WITH RECURSIVE n(i) AS (SELECT 1 UNION ALL SELECT i + 1 FROM n WHERE i < {rows})
INSERT INTO {table} SELECT {columns} FROM n;"""


def made(folder, page_size, reserved, encoding, rows, auto_vacuum="none"):
    """A database of tables, indexes, a table without rowids, a trigger, overflow chains and free pages. It has no view,
    for which sqlite3 may leave out its check of the freelist."""
    database = os.path.join(folder, f"{page_size}-{reserved}-{encoding}-{rows}-{auto_vacuum}.db")
    mixed = "printf('%08x', i * 2654435761 % 4294967296)"
    plain = f"i, i * i % 97 - 9, i / 7.0, substr(hex({mixed}) || hex({mixed}) || hex({mixed}), 1, 2 + i % 39), "
    plain += f"zeroblob(CASE i % 17 WHEN 0 THEN {2 * page_size} WHEN 5 THEN {page_size // 2} ELSE i % 50 END)"
    keyed = f"{mixed} || hex(zeroblob(CASE i % 11 WHEN 0 THEN {page_size // 3} ELSE 5 END)), i"
    sqlite(database, f"""PRAGMA page_size = {page_size}; PRAGMA encoding = '{encoding}';
PRAGMA auto_vacuum = {auto_vacuum}; PRAGMA synchronous = off;
.filectrl reserve_bytes {reserved}
VACUUM;
CREATE TABLE plain(id INTEGER PRIMARY KEY, n, r REAL, t TEXT, b BLOB);
CREATE TABLE keyed(k TEXT PRIMARY KEY, v) WITHOUT ROWID;
CREATE INDEX by_t ON plain(t); CREATE INDEX by_n ON plain(n);
CREATE TRIGGER added AFTER INSERT ON keyed BEGIN SELECT 1; END; CREATE TABLE gone(x);
{ROWS.format(rows=rows, table="plain", columns=plain)}
{ROWS.format(rows=rows, table="keyed", columns=keyed)}
{ROWS.format(rows=rows // 6, table="gone", columns=f"zeroblob({page_size} + i)")}
DELETE FROM plain WHERE id % 5 = 0; DELETE FROM keyed WHERE v % 7 = 0;
UPDATE plain SET t = substr(t, 1, 5) WHERE id % 6 = 1; DROP TABLE gone;
""")
    with open(database, "rb") as file:
        return page_size, file.read()


def number(content, at):
    return int.from_bytes(content[at:at + 2], "big")


def place(draw, page_size, content):
    """A place whose byte is likely to matter: in a header, a pointer, the front of a cell or a freeblock, or a link."""
    kind = draw.random()
    if kind < 0.08:
        return draw.choice(HEADER)
    front = draw.randrange(len(content) // page_size) * page_size
    head = front if front else 100
    if kind < 0.4:
        return head + draw.randrange(12)
    if content[head] not in (2, 5, 10, 13):
        return front + draw.randrange(16)
    cells = min(number(content, head + 3), page_size // 4)
    if not cells:
        return head + draw.randrange(12)
    pointer = head + (12 if content[head] in (2, 5) else 8) + 2 * draw.randrange(cells)
    if kind < 0.55:
        return pointer + draw.randrange(2)
    cell = front + number(content, pointer)
    if kind < 0.88:
        return cell + draw.randrange(60 if front == 0 and kind > 0.8 else 9)
    freeblock = number(content, head + 1)
    if freeblock and kind < 0.97:
        return front + freeblock + draw.randrange(4)
    return front + page_size - 1 - draw.randrange(8)


def damaged(draw, page_size, content):
    """The content with some bytes changed, and now and then cut."""
    content = bytearray(content)
    for _ in range(draw.choice([1, 1, 2, 2, 3, 4, 6])):
        at = min(place(draw, page_size, content), len(content) - 1)
        old = content[at]
        content[at] = draw.choice(
            [draw.randrange(256), old ^ 1 << draw.randrange(8), (old + 1) % 256, (old - 1) % 256, 0, 13, 5])
    return bytes(content[:draw.randrange(len(content) + 1)] if draw.random() < 0.15 else content)
