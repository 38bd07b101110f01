"""Parts of tests/history: the twin against every file that there may have been, and logs that are made byte by byte."""
import itertools, os, random, sys

from history_answers import *
from history_twin import Past
from samples import PAGE, file_of, first_page, put_all, sum_over, words

PARTS = []


def part(function):
    PARTS.append(function)
    return function


# ---- every file that there may have been


def letter(name):
    """A page: zeros, or filled with a letter. As a first page it doesn't count pages validly."""
    return bytes(PAGE) if name == "0" else put_all(name.encode() * PAGE, [(92, words(0))])


def log_with(frames):
    """A log of frames with their pages."""
    head = words(0x377F0683, 3007000, PAGE, 0) + words(1, 2)
    sums = sum_over((0, 0), head)
    log = bytearray(head + words(*sums))
    for page, end, content in frames:
        sums = sum_over(sums, words(page, end) + content)
        log += words(page, end) + words(1, 2) + words(*sums) + content
    return bytes(log)


def steps_of(file, frames, sizes, most):
    """What one step of a checkpoint makes of a file: it writes a frame's page, cuts the file, not below a commit's
    size, or lengthens it."""
    for page, _, content in frames:
        longer = file + ("0",) * (page - len(file))
        yield longer[:page - 1] + (content,) + longer[page:]
    for size in sizes:
        for length in range(size, len(file)):
            yield file[:length]
    if len(file) < most:
        yield file + ("0",)


def reached(file, frames, sizes, most):
    seen, todo = {file}, [file]
    while todo:
        for other in steps_of(todo.pop(), frames, sizes, most):
            if other not in seen:
                seen.add(other)
                todo.append(other)
    return seen


def shown(file, frames, commit):
    """The database at a commit over this file, by letters, which count no pages."""
    count = frames[commit - 1][1] if commit else len(file)
    return tuple(page_at(file, frames, commit, page) for page in range(1, count + 1))


def page_at(file, frames, commit, page):
    """A page of it, also past its end."""
    last = {page: content for page, _, content in frames[:commit]}
    return last.get(page, file[page - 1] if page <= len(file) else "0")


@part
def every_file_before(_):
    """All logs of two frames and files of two pages, of two letters and zeros: a commit is known to the twin exactly if
    all files that checkpoints turn into this one have the same database there. The page that is the reason for an
    unknown one differs between them, or the length if that is the reason."""
    most, letters = 2, "0ab"
    files = [file for length in range(most + 2) for file in itertools.product(letters, repeat=length)]
    one = list(itertools.product(range(1, most + 1), letters, range(most + 1)))
    wrong, count = [], 0
    for number in 1, 2:
        for drawn in itertools.product(one, repeat=number):
            frames = [(page, end, content) for page, content, end in drawn]
            if not frames[-1][1]:
                continue
            before, sizes = {}, {end for _, end, _ in frames if end}
            for file in files:
                for made in reached(file, frames, sizes, most):
                    if len(made) <= most:
                        before.setdefault(made, []).append(file)
            wrong += of_log(frames, before)
            count += len(before)
    holds(f"known exactly if it is so, of {count} files", not wrong and count > 500, wrong[:3])


def of_log(frames, before):
    """Where the twin judges otherwise; by one log, with the files that each file may have been."""
    log = log_with([(page, end, letter(content)) for page, end, content in frames])
    wrong = []
    for made, files in before.items():
        past = Past(b"".join(map(letter, made)), log)
        for commit in [0, *past.commits][:-1]:
            is_one = len({shown(file, frames, commit) for file in files}) == 1
            page, _ = past.lost_page(commit) or (None, None)
            is_lost = page and len({page_at(file, frames, commit, page) for file in files}) > 1
            is_lost = is_lost or page == 0 and len({len(file) for file in files}) > 1
            if past.is_known(commit) != is_one or bool(is_lost) == is_one:
                wrong.append((frames, made, commit, is_one, page))
    return wrong


# The same with counts. A first page is zeros, or counts no pages validly ("n"), or so many of them.
MOST = 2  # pages of a file that checkpoints made; one that they began with may have one more
FIRSTS, OTHERS = ("0", "n", 1, 2, 3), ("0", "a", "b")


def page_for(content):
    """The bytes of a page of such a file."""
    return put_all(letter("n"), [(24, words(7, content)), (92, words(7))]) if isinstance(content, int) else (
        letter(content))


def pages_at(file, frames, commit):
    """The database at a commit of a file that checkpoints haven't changed. A frame's page stands for the file's, which
    is zeros past its end. It has as many pages as the header counts, if that is valid and not above the commit's size,
    otherwise that size. Before the first commit the file's length is in place of the size, and any count is valid."""
    named = {page: content for page, _, content in frames[:commit]}
    size = frames[commit - 1][1] if commit else len(file)
    count = page_at(file, frames, commit, 1)
    is_valid = isinstance(count, int) and (not commit or count <= size)
    return tuple(named.get(page, page_at(file, [], 0, page)) for page in range(1, (count if is_valid else size) + 1))


def counted_logs(rng, most):
    """All logs of a frame, and so many each of two and three that are drawn."""
    one = [(page, content, end) for page in range(1, MOST + 1) for end in range(MOST + 1)
           for content in (FIRSTS if page == 1 else OTHERS)]
    last = [frame for frame in one if frame[2]]
    drawn = [[*(rng.choice(one) for _ in range(number)), rng.choice(last)] for number in (1, 2) for _ in range(most)]
    return [[(page, end, content) for page, content, end in frames] for frames in [[it] for it in last] + drawn]


def counted_of_log(frames, files):
    """Commits at which the twin judges otherwise than all files that each file may have been."""
    before, sizes, wrong = {}, {end for _, end, _ in frames if end}, []
    for file in files:
        for made in reached(file, frames, sizes, MOST):
            if len(made) <= MOST:
                before.setdefault(made, []).append(file)
    log = log_with([(page, end, page_for(content)) for page, end, content in frames])
    for made, others in before.items():
        past = Past(b"".join(map(page_for, made)), log)
        for commit in [0, *past.commits][:-1]:
            found = {pages_at(file, frames, commit) for file in others}
            if past.is_known(commit) != (len(found) == 1):
                wrong.append((frames, made, commit, found))
            elif past.is_known(commit) and [page_for(content) for content in found.pop()] != past.pages(commit):
                wrong.append((frames, made, commit, past.pages(commit)))
    return wrong, len(before)


@part
def every_count_before(_):
    """The same with first pages that count pages: a commit is known to the twin exactly if all files that checkpoints
    turn into this one have the same database there, with as many pages as its header counts. `--long` draws more."""
    files = [file for length in range(MOST + 2)
             for file in itertools.product(*([FIRSTS, OTHERS, OTHERS][:length]))]
    wrong, count = [], 0
    for frames in counted_logs(random.Random(28), 2000 if "--long" in sys.argv else 60):
        faults, number = counted_of_log(frames, files)
        wrong, count = wrong + faults, count + number
    holds(f"known exactly if it is so, of {count} files", not wrong and count > 2000, wrong[:2])


# ---- logs made byte by byte


def drawn_page(rng, page, most):
    """A page of few that are drawn; a first page counts what it likes, validly or not."""
    if page > 1:
        return letter(rng.choice("00abc"))
    count, is_valid = rng.randrange(most + 2), rng.random() < 0.7
    other = words(7 if is_valid else 8)
    return put_all(first_page(count), [(24, words(7)), (92, other), (200, rng.choice([b"p", b"q"]))])


def drawn(rng):
    """A file and a log of small numbers, of which checkpoints copied some frames, and cut the file."""
    most = 5
    frames = []
    for _ in range(rng.randrange(2, 8)):
        page = rng.randrange(1, most + 1)
        frames.append((page, rng.choice([0, 0, 1, 2, 3, 4, 5]), drawn_page(rng, page, most)))
    frames[-1] = (frames[-1][0], rng.randrange(1, most + 1), frames[-1][2])
    file = [drawn_page(rng, page, most) for page in range(1, rng.randrange(most + 1) + 1)]
    for _ in range(rng.randrange(4)):
        page, _, content = rng.choice(frames)
        file += [bytes(PAGE)] * (page - len(file))
        file[page - 1] = content
        if rng.random() < 0.4:
            file = file[:rng.choice([end for _, end, _ in frames if end])]
    return b"".join(file), log_with(frames)


def is_headed(page, size):
    """It is the first page of a database of pages of this size."""
    return page[:16] == b"SQLite format 3\0" and page[16:18] == size.to_bytes(2, "big")


class Several:
    """Files with their logs, of which each commit is asked for in one run for many files."""

    def __init__(self, folder):
        self.folder, self.pasts = folder, {}

    def add(self, name, file, log):
        path = os.path.join(self.folder, f"{len(self.pasts)} {name}")
        put(path, file)
        put(path + "-wal", log)
        self.pasts[path] = Past(file, log)
        return self.pasts[path]

    def commits(self, path):
        """Those whose first page is a database's, as the file's own has to be at 0."""
        past = self.pasts[path]
        return [commit for commit in [0, *past.commits]
                if is_headed(past.last_frames(commit).get(1, past.of_file(1)), past.size)]

    def judge(self, *words):
        """Exactly the unknown ones are refused, and a note explains why. Counts the unknown and the known ones."""
        counts = [0, 0]
        for commit in sorted({commit for path in self.pasts for commit in self.commits(path)}):
            paths = [path for path in self.pasts if commit in self.commits(path)]
            told, notes = told_of_each(commit, paths, words)
            lost = [path for path in paths if not self.pasts[path].is_known(commit)]
            check(f"why not {commit}", sorted(notes), sorted(f"{it}: {note_of(self.pasts[it], commit)}" for it in lost))
            for path in paths:
                is_known = self.pasts[path].is_known(commit)
                counts[is_known] += 1
                wanted = None if is_known else "commit overwritten"
                check(f"{path} at {commit} of {self.pasts[path].front}", told.get(path, "nothing"), wanted)
        return counts

    def made(self, path, commit):
        """The database of a commit that is known."""
        out = path + ".out"
        found = run("recover", path, "--to", out, "--at", commit)
        is_right = content(out) == self.pasts[path].database(commit)
        holds(f"{path} at {commit} of {self.pasts[path].front}: what is made", found[0] == 0 and is_right, found)


def told_of_each(commit, paths, words):
    """Why the database of a commit of these files is refused; None if it isn't. And the notes that explain it."""
    told, notes, none = {}, [], os.path.join(os.path.dirname(paths[0]), "none")  # of several, one isn't there
    for first in range(0, len(paths), 100):
        _, out, err = run("check", "--json", *words, "--at", commit, *paths[first:first + 100], none)
        for line in out.decode().splitlines():
            found = json.loads(line)
            told[found.get("file")] = found.get("refused")
        notes += [line for line in err.decode().splitlines(True) if "isn't known" in line]
    return told, notes


@part
def made_at_random(folder):
    """Logs that name their growth and logs that don't, files of any length: each commit that is known is answered, and
    no other."""
    rng, several = random.Random(15), Several(folder)
    turned = 0
    for number in range(400):
        past = several.add("random", *drawn(rng))
        known = [past.is_known(commit) for commit in past.commits]
        turned += any(a and not b for a, b in zip(known, known[1:]))
    lost, known = several.judge()
    holds("many of each", known > 200 and lost > 200 and turned > 5, (known, lost, turned))
    for path in rng.sample(sorted(several.pasts), 25):
        commits = [commit for commit in several.commits(path) if several.pasts[path].is_known(commit)]
        if commits:
            several.made(path, rng.choice(commits))


def own(count):
    """A first page of so many pages that no frame has."""
    return put_all(first_page(count), [(200, b"own")])


def odd_files_in(add):
    """Files that are empty, short, or grown by zeros; commits whose sizes go up and down; sectors that are alike. Each
    with the commits that are known."""
    one, a, b, x, zeros = first_page(2), letter("a"), letter("b"), letter("x"), letter("0")
    log = log_with([(1, 0, one), (2, 2, a), (1, 0, first_page(3)), (3, 3, b), (3, 3, letter("c"))])
    add("nothing copied", own(1), log, [0, 2, 4, 5])
    add("an empty file", b"", log, [2, 4, 5])
    add("the last frame copied", one + a + letter("c"), log, [2, 4, 5])
    add("page 1 copied", first_page(3), log, [2, 4, 5])
    later = log_with([(1, 2, one), (2, 2, b)])
    add("page 2 is later", own(2) + b, later, [2])
    add("page 2 is later and doesn't count at 0", own(1) + b, later, [0, 2])
    add("the first half alone is alike", own(2) + b[:256] + x[256:], later, [0, 1, 2])
    add("all but the last byte is alike", own(2) + b[:511] + b"x", later, [0, 1, 2])
    # The commits have 4, 2, 5 and 5 pages.
    sizes = log_with([(1, 4, first_page(4)), (1, 2, one), (1, 0, first_page(5)), (2, 5, a), (2, 5, b)])
    add("sizes up and down", own(4) + x * 3, sizes, [0, 1, 2, 5])
    add("sizes up and down and a longer file", own(4) + x * 4, sizes, [0, 1, 2, 4, 5])
    add("cut to the smaller one", own(4) + x, sizes, [2, 5])
    add("cut and grown by zeros", own(4) + x + zeros * 2, sizes, [2, 5])
    add("zeros under a page of its own", own(4) + x + zeros + x, sizes, [0, 1, 2, 5])
    # A log that doesn't name its growth: what is known doesn't stay known.
    unnamed = log_with([(1, 1, first_page(1)), (1, 2, one), (2, 2, a)])
    add("known and then not", own(1) + a, unnamed, [0, 1, 3])
    add("a page of zeros copied", own(2) + zeros, log_with([(1, 2, one), (2, 2, zeros)]), [2])
    # Without a valid count the database at 0 is as long as the file was.
    uncounted = put_all(own(2), [(92, words(9))])
    add("by its length", uncounted + x, log_with([(1, 3, first_page(3)), (3, 3, b)]), [0, 1, 2])
    add("by a length that a cut may have made", uncounted + x, log_with([(1, 2, one), (2, 2, a)]), [1, 2])
    add("by a length of zeros", uncounted + zeros, log_with([(1, 3, first_page(3)), (3, 3, b)]), [1, 2])


@part
def odd_files(folder):
    """By name: which commits are known, and what is made of these."""
    several, wanted = Several(folder), {}

    def add(name, file, log, known):
        past = several.add(name, file, log)
        path = list(several.pasts)[-1]
        wanted[path] = known
        check(f"{name}: known", [commit for commit in several.commits(path) if past.is_known(commit)], known)

    odd_files_in(add)
    several.judge()
    for path, known in wanted.items():
        several.made(path, known[0])


@part
def one_page_again_and_again(folder):
    """A log of forty thousand frames that all name page 2."""
    count = 40_000
    log = log_with((2, 2 if number % 2 else 0, bytes([number % 251]) * PAGE) for number in range(count))
    path, out = os.path.join(folder, "a.db"), os.path.join(folder, "out.db")
    put(path, own(2) + bytes([249]) * PAGE)
    put(path + "-wal", log)
    found = run("recover", path, "--at", 0, "--to", out)
    holds("at 0: refused", is_refused(found), found)
    for at in 2, count // 2, count:
        found = run("recover", path, "--at", at, "--to", out)
        check(f"at {at}: status", found[0], 0)
        check(f"at {at}: page 2", content(out)[PAGE:], bytes([(at - 1) % 251]) * PAGE)
        os.path.exists(out) and os.remove(out)
