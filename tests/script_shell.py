"""What sqlite3's shell does with a script, for tests/scripts: `runs` reads it as the shell of SQLite 3.40 reads its
standard input (shell.c, `process_input`), and `fault_in` judges what it would run: nothing but statements that a script
of sqrescue may have, each alone, with the texts of the schema byte for byte."""
import re, sqlite3

SPACE = b" \t\n\v\f\r"
HIGH = {byte: "z" for byte in range(128, 256)}  # sqlite3_complete takes these bytes as letters
PLAIN = (b"", False, False)  # in no quote or comment; nothing but blanks yet; no `;` at the end


def quote_end(line, at, quote):
    """Where a quote or comment ends that the shell is in; None if not in this line."""
    while True:
        at = line.find(b"*/" if quote == b"*" else quote, at)
        if at < 0:
            return None
        if quote not in b"*]" and line[at + 1:at + 2] == quote:
            at += 2
            continue
        return at + (2 if quote == b"*" else 1)


def scanned(line, state):
    """The shell's state after a line (`quickscan`): the quote that it is in, whether there was more than blanks and
    comments, and whether a `;` is at the end."""
    quote, dark, ended = state
    at = 0
    while at < len(line):
        if quote:
            at = quote_end(line, at, quote)
            if at is None:
                return quote, dark, ended
            quote = b""
            continue
        byte = line[at:at + 1]
        at += 1
        if byte == b"-" and line[at:at + 1] == b"-":
            break
        if byte == b"/" and line[at:at + 1] == b"*":
            quote, at = b"*", at + 1
        elif byte == b";":
            ended = True
        elif byte not in SPACE:
            dark, ended = True, False
            if byte in b"[`'\"":
                quote = b"]" if byte == b"[" else byte
    return quote, dark, ended


def is_complete(sql):
    """What sqlite3_complete says."""
    return sqlite3.complete_statement(sql.decode("latin-1").translate(HIGH))


def is_terminator(line):
    """Whether the shell reads a line as `;` (`line_is_command_terminator`)."""
    line = line.lstrip(SPACE)
    size = 1 if line[:1] == b"/" else 2 if line[:2].lower() == b"go" else 0
    return size > 0 and scanned(line[size:], PLAIN) == PLAIN


def runs(script):
    """What the shell runs, in order: a statement, or several in one; a line that is a command; what is left over."""
    done, sql, state = [], b"", PLAIN
    for line in script.split(b"\n")[:-1] + [script.rpartition(b"\n")[2]] * (not script.endswith(b"\n")):
        line = line.removesuffix(b"\r")
        if not state[0] and is_terminator(line) and is_complete(sql + b";"):
            line = b";"
        state = scanned(line, state)
        if not sql and state[:2] == (b"", False):
            state = PLAIN
        elif not sql and line[:1] in (b".", b"#"):
            done.append(("a command", line))
            state = PLAIN
        else:
            sql = sql + b"\n" + line if sql else line.lstrip(SPACE)
            is_over = state == (b"", True, True) and is_complete(sql)
            if is_over:
                done.append(("a statement", sql))
            if is_over or state[:2] == (b"", False):  # nothing but comments is dropped
                sql, state = b"", PLAIN
    return done + [("left over", sql)] * bool(sql.strip(SPACE))


NAME = rb'"(?:[^"\0\r]|"")*"'
TEXT = rb"'(?:[^'\0\r]|'')*'"
CAST = rb"CAST\(X'(?:[0-9a-f]{2})*' AS TEXT\)"
VALUE = rb"(?:NULL|-?\d+(?:\.\d+)?(?:e[-+]?\d+)?|X'(?:[0-9a-f]{2})*'|" + CAST + rb"|" + TEXT + rb")"
LIST = VALUE + rb"(?:," + VALUE + rb")*"
NAMED = rb"(?:\((?:\w+|" + NAME + rb")(?:,(?:\w+|" + NAME + rb"))*\))?"
EQUAL = rb"(?:rowid|_rowid_|oid|" + NAME + rb")(?:=| IS )" + VALUE + rb"(?: COLLATE (?:BINARY|NOCASE|RTRIM))?"

# Each statement that isn't a text of the schema.
OWN = re.compile(rb"PRAGMA (?:encoding='UTF-16(?:le|be)'|(?:foreign_keys|writable_schema)=OFF"
                 rb"|(?:ignore_check_constraints|writable_schema)=ON);"
                 rb"|BEGIN TRANSACTION;|COMMIT;|DELETE FROM sqlite_sequence;|ANALYZE sqlite_schema;"
                 rb"|SELECT sqrescue_stopped\(\);"
                 rb"|CREATE TABLE IF NOT EXISTS " + NAME + rb"\(" + NAME + rb"(?:," + NAME + rb")*\);"
                 rb"|INSERT OR ABORT INTO " + NAME + NAMED + rb" VALUES\(" + LIST + rb"\);"
                 rb"|INSERT OR ABORT INTO sqlite_schema\(type,name,tbl_name,rootpage,sql\)"
                 rb" VALUES\('table'," + CAST + rb"," + CAST + rb",0," + CAST + rb"\);"
                 rb"|DELETE FROM " + NAME + rb" WHERE " + EQUAL + rb"(?: AND " + EQUAL + rb")*;"
                 rb"|DROP (?:TABLE|TRIGGER) " + NAME + rb";"
                 rb'|CREATE TABLE "lost_and_found(?:_\d+)?"'
                 rb"\(rootpgno INTEGER, pgno INTEGER, nfield INTEGER, id INTEGER\);"
                 rb'|ALTER TABLE "lost_and_found(?:_\d+)?" ADD COLUMN c\d+;')

BLANKS = bytes.maketrans(b"\t\n\v\f\r", b"     ")


def is_text(statement, texts):
    """Whether a statement is one of these texts up to its last token, with other blanks if a comment says so."""
    bare = statement.removesuffix(b";").rstrip(b" \t\n")
    return any(text.startswith(bare) or text.translate(BLANKS).startswith(bare.translate(BLANKS)) for text in texts)


def fault_in(script, texts):
    """What the shell would do with a script that it must not; None if nothing. `texts` are those of the schema."""
    if b"\0" in script or b"\r" in script:
        return "it has a NUL or a CR"
    for what, sql in runs(script):
        if what != "a statement" or not OWN.fullmatch(sql) and not is_text(sql, texts):
            return f"{what}: {sql[:300]}"
    return None


def texts_in(path):
    """The bytes of each text of a schema, also of one that SQLite refuses."""
    db = sqlite3.connect(path)
    db.text_factory = bytes
    db.execute("PRAGMA writable_schema=ON")
    found = [text for text, in db.execute("SELECT CAST(sql AS BLOB) FROM sqlite_schema WHERE sql IS NOT NULL")]
    db.close()
    return found
