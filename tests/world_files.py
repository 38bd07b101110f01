"""Links, what is no regular file, and files that may not be opened."""
import contextlib, os, re, socket, stat, subprocess, tempfile
from samples import PAGE, put
from world_runs import (
    DB, EACH_LINE, FAILED, IN_USE, IS_ROOT, JOURNAL, LIVE, LOOKING, SECONDS, WAL, begun, fill, nobody, program, read,
    run, snapshot, test, unchanged, write, wrong,
)

# Links, each with what it leads to; TOP is the folder of the test.
LINKED = {
    "l.db": "there/in/a.db",
    "two.db": "l.db",
    "whole.db": "TOP/there/in/a.db",
    "three.db": "TOP/two.db",
    "there/back.db": "../two.db",
    "folder": "there/in",
}
TARGET = "there/in/a.db"


def linked(log, content):
    """Makes the links, each with logs of other databases beside it, and the file that they lead to with this log."""
    fill()
    os.makedirs("there/in")
    for name, to in LINKED.items():
        os.symlink(to.replace("TOP", os.getcwd()), name)
        if name != "folder":
            write(name + "-wal", b"beside the link")
            write(name + "-journal", JOURNAL)
    write(TARGET, DB)
    write(TARGET + log, content)


def beside_target():
    return {path: found for path, found in snapshot().items() if not path.startswith("./there/in/")}


@test
def links_to_the_file():
    """The logs are those beside the file that the links lead to; what lies beside a link isn't looked at."""
    folded, rolled_back = b"y" * PAGE + b"x" * PAGE + b"z" * PAGE, b"j" * PAGE
    rows = [("-wal", WAL, "wal: front 3, 3 pages\n", (folded, b""))]
    rows += [("-journal", JOURNAL, "journal: 1 records, 1 pages\n", (rolled_back, put(JOURNAL, 0, bytes(28))))]
    names = [TARGET, "l.db", "two.db", "whole.db", "three.db", "there/back.db", "folder/a.db", "there/../folder/a.db"]
    for name in names:
        for log, content, out, right in rows:
            linked(log, content)
            for line in LOOKING:
                alone = run(line.replace("a.db", TARGET))
                yield f"{name}, {log}, {line}", unchanged(line.replace("a.db", name), *alone)
            before = beside_target()
            yield f"{name}, {log}, recover", wrong(run(f"recover {name}"), 0, out)
            left = read(TARGET), read(TARGET + log)
            yield f"{name}, {log}, what is left", None if left == right else "other bytes"
            yield f"{name}, {log}, what is beside it", None if beside_target() == before else "it was changed"


@test
def a_link_in_use():
    """The lock is one on the file that the link leads to."""
    with begun("shell", "wal", LIVE[2]):
        os.symlink("a.db", "l.db")
        yield "link", unchanged("recover l.db", 3, "", IN_USE)


def fifo(path):
    os.mkfifo(path)


def folder(path):
    os.mkdir(path)


def listener(path):
    with socket.socket(socket.AF_UNIX) as end:
        end.bind(path)


def device(path):
    os.mknod(path, 0o666 | stat.S_IFCHR, os.makedev(1, 5))  # as /dev/zero


def link(to):
    def make(path):
        os.symlink(to, path)

    return make


KINDS = {"a FIFO": fifo, "a folder": folder, "a socket": listener} | ({"a device": device} if IS_ROOT else {})
LINKS = {
    "leads nowhere": link("nowhere"),
    "leads round": link("a.db-wal"),
    "leads to the file": link("a.db"),
    "leads to another file": link("other"),
    "leads to a device": link("/dev/null"),
}


@test
def a_file_of_another_kind():
    """FILE that is no regular file, or a link that leads to none."""
    leads = {
        "leads nowhere": link("nowhere"),
        "leads round": link("a.db"),
        "leads to null": link("/dev/null"),
        "leads to zeros": link("/dev/zero"),
        "leads into a file": link("other/a.db"),
    }
    for name, make in {**KINDS, **leads}.items():
        fill(None, WAL)
        write("other", DB)
        make("a.db")
        for line in EACH_LINE:
            yield f"{name}, {line}", unchanged(line, 3, "", FAILED)
    fill()
    for path in "/dev/zero", "/dev/null", "/dev/full", "/", ".", "b.db", "b.db/", "":
        for command in "check", "show", "recover":
            answer = subprocess.run([program, command, path], capture_output=True, text=True, timeout=SECONDS)
            yield f"{command} {path}", wrong((answer.returncode, answer.stdout, answer.stderr), 3, "", FAILED)
    fifo("c.db")
    os.symlink("c.db", "l.db")
    yield "a link to a FIFO", unchanged("recover l.db", 3, "", FAILED)


@test
def a_log_of_another_kind():
    """FILE-wal or FILE-journal that is no regular file, or any link."""
    for log in "-wal", "-journal":
        for name, make in {**KINDS, **LINKS}.items():
            for beside in (False, True):
                fill(DB, *((None, JOURNAL) if log == "-wal" else (WAL, None)) if beside else ())
                write("other", WAL if log == "-wal" else JOURNAL)
                make("a.db" + log)
                for line in EACH_LINE:
                    yield f"{log}, {name}, {line}", unchanged(line, 3, "", FAILED)


@test
def a_log_by_another_name():
    """FILE-wal or FILE-journal that is FILE by another name, or one the other."""
    for content in DB, WAL, JOURNAL, b"":
        for first, second in ("", "-wal"), ("", "-journal"), ("-wal", "-journal"):
            fill(DB)
            write("a.db" + first, content)
            os.link("a.db" + first, "a.db" + second)
            for line in EACH_LINE:
                yield f"{second} is FILE{first}, {line}", unchanged(line, 3, "", FAILED)
    fill(DB, WAL)
    os.symlink("a.db", "l.db")
    os.remove("a.db-wal")
    os.link("a.db", "a.db-wal")
    yield "over a link", unchanged("recover l.db", 3, "", FAILED)


@test
def shared_memory_of_another_kind():
    """FILE-shm isn't opened."""
    for name, make in {**KINDS, "leads round": link("a.db-shm"), "leads nowhere": link("nowhere")}.items():
        fill(DB, WAL)
        make("a.db-shm")
        yield name, wrong(run("recover a.db"), 0, "wal: front 3, 3 pages\n")


NEED_FILE = [line for line in EACH_LINE if "--log" not in line]


@test
def a_file_without_permission():
    """Files that may not be read, or not be written, and folders that may not be looked into."""
    with tempfile.TemporaryDirectory() as folder, contextlib.chdir(folder):
        os.chmod(folder, 0o755)
        for log, files in ("-wal", (DB, WAL)), ("-journal", (DB, None, JOURNAL)):
            for name in "a.db", "a.db" + log:
                for mode in 0o600, 0o622:
                    fill(*files)
                    os.chmod(name, mode if IS_ROOT else mode & 0o222)
                    for line in EACH_LINE if name != "a.db" else NEED_FILE:
                        yield f"{name} of mode {mode:o}, {line}", nobody(line, 3, "", FAILED)
                fill(*files)
                for end in "", log:
                    os.chmod("a.db" + end, 0o666)
                os.chmod(name, 0o444)
                yield f"{name} can't be written", nobody("recover a.db", 3, "", FAILED)
                for line in LOOKING:
                    alone = run(line)
                    yield f"{name} can't be written, {line}", nobody(line, *alone)
        fill()
        os.mkdir("closed", 0o700 if IS_ROOT else 0o000)
        for line in EACH_LINE:
            yield f"a closed folder, {line}", nobody(line.replace("a.db", "closed/a.db"), 3, "", FAILED)
        os.chmod("closed", 0o700)




@test
def a_name_that_is_not_text():
    """A word that isn't UTF-8 is named as shells read it, whichever it is; nothing is opened."""
    fill()
    names = {
        b"a\xff.db": r"$'a\xff.db'",
        b"\xe4 b'\n.db": r"$'\xe4 b\'\n.db'",
        b"n" * 4000 + b"\x80": "$'" + "n" * 4000 + r"\x80'",
    }
    for name, told in names.items():
        for words in ([b"check", name], [b"recover", b"a.db", b"--to", name], [b"show", name, b"--log", b"\xfe"]):
            ran = subprocess.run([program, *words], capture_output=True, cwd=os.getcwdb())
            said = f"sqrescue: note: {told} isn't UTF-8: give the file and its logs such names\n" \
                "sqrescue: the words aren't text\n"
            found = ran.returncode, ran.stdout, ran.stderr.decode()
            yield f"{told[:40]}, {words[0].decode()}", None if found == (2, b"", said) else repr(found)[:300]
