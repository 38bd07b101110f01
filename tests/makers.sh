# Databases with their logs as sqlite3 leaves them in the folder $folder; read by tests/real and tests/library.

live() { # PAGE_SIZE TO [SQL]: a database with a live log, copied while its connection is open
  rm -f "$folder"/work.db*
  sqlite3 "$folder/work.db" >/dev/null <<S
PRAGMA page_size = $1;
PRAGMA journal_mode = wal;
PRAGMA wal_autocheckpoint = 0;
CREATE TABLE a(id INTEGER PRIMARY KEY, text TEXT);
INSERT INTO a(text) VALUES ('first');
PRAGMA wal_checkpoint(TRUNCATE);
${3:-}
.shell cp "$folder/work.db" "$2"
.shell cp "$folder/work.db-wal" "$2-wal"
S
}

commits="INSERT INTO a(text) SELECT hex(randomblob(400)) FROM generate_series(1, 300);
CREATE TABLE b(x, y); CREATE INDEX c ON b(y);
INSERT INTO b SELECT value, hex(randomblob(20)) FROM generate_series(1, 500);
UPDATE a SET text = hex(randomblob(500)) WHERE id % 3 = 0;
DELETE FROM b WHERE x > 400;"
unfinished="PRAGMA cache_size = 4; BEGIN; UPDATE a SET text = hex(randomblob(600));
INSERT INTO a(text) SELECT hex(randomblob(900)) FROM generate_series(1, 400);"
shrinking="DROP TABLE b; DELETE FROM a WHERE id > 20; VACUUM; INSERT INTO a(text) VALUES ('last');"
restarted="PRAGMA wal_checkpoint(RESTART); INSERT INTO a(text) VALUES ('after the restart');"

# Makes middle.db, in the middle of a transaction that was spilled, and ended.db, as its commit left it, with the header
# of its journal put back where the mode leaves it. With synchronous off a journal has one header and no count;
# otherwise each spill begins a further segment.
hot() { # PAGE_SIZE SYNCHRONOUS VACUUM SQL [MODE [PSOW]]
  rm -f "$folder"/{work,middle,ended}.db*
  sqlite3 "file:$folder/work.db?psow=${6:-1}" >/dev/null <<S
PRAGMA page_size = $1;
PRAGMA auto_vacuum = $3;
PRAGMA journal_mode = delete;
PRAGMA synchronous = off;
CREATE TABLE a(id INTEGER PRIMARY KEY, text TEXT);
$commits
CREATE TABLE wide(id INTEGER PRIMARY KEY, text TEXT);
INSERT INTO wide(text) SELECT hex(randomblob($1 * 2 / 5)) FROM generate_series(1, 40);
PRAGMA journal_mode = ${5:-persist};
PRAGMA synchronous = $2;
PRAGMA cache_size = $((4 + 32768 / $1));
BEGIN;
UPDATE wide SET text = hex(randomblob($1 * 2 / 5));
$4
.shell cp "$folder/work.db" "$folder/middle.db"
.shell cp "$folder/work.db-journal" "$folder/middle.db-journal"
COMMIT;
.shell cp "$folder/work.db" "$folder/ended.db"
.shell [ ! -e "$folder/work.db-journal" ] || cp "$folder/work.db-journal" "$folder/ended.db-journal"
S
  [ "${5:-persist}" != persist ] ||
    dd if="$folder/middle.db-journal" of="$folder/ended.db-journal" bs=28 count=1 conv=notrunc status=none
}

growing="INSERT INTO a(text) SELECT hex(randomblob(900)) FROM generate_series(1, 400);
UPDATE a SET text = hex(randomblob(600));"
deleting="DELETE FROM a WHERE id % 2 = 0; UPDATE b SET y = hex(randomblob(30));"
cutting="DELETE FROM a WHERE id > 20; DELETE FROM wide WHERE id > 10;"
