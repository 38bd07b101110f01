"""Which databases a file and its write-ahead log still tell of, by a plain program of its own. A checkpoint copies
pages of the log into the file, and may cut the file after that. So a page of the file may be older than a commit, or
later than it. A commit is known if every file from which checkpoints of this log may have made this one has the same
database there."""
import functools, struct


def sums_over(sums, content, order):
    """The sums of a log, carried on over these bytes."""
    first, second = sums
    for x, y in struct.iter_unpack(order + "II", content):
        first = (first + x + second) & 0xFFFFFFFF
        second = (second + y + first) & 0xFFFFFFFF
    return first, second


@functools.lru_cache(4)
def frames_of(log):
    """The page size of a log, and its frames up to the last commit: page, size, bytes."""
    if len(log) < 32:
        return 0, []
    order = ">" if log[3] & 1 else "<"
    size = int.from_bytes(log[8:12], "big")
    sums = sums_over((0, 0), log[:24], order)
    if struct.unpack(">II", log[24:32]) != sums:
        return size, []
    frames, commit = [], 0
    for at in range(32, len(log) - 23 - size, 24 + size):
        head, content = log[at:at + 24], log[at + 24:at + 24 + size]
        page, end = struct.unpack(">II", head[:8])
        sums = sums_over(sums_over(sums, head[:8], order), content, order)
        if page == 0 or head[8:16] != log[16:24] or struct.unpack(">II", head[16:24]) != sums:
            break
        frames.append((page, end, content))
        commit = len(frames) if end else commit
    return size, frames[:commit]


def counted(first):
    """How many pages a database has by its first page, 0 if that doesn't say so validly."""
    return int.from_bytes(first[28:32], "big") if first[24:28] == first[92:96] else 0


class Past:
    """What a file and its log tell of the commits in the log. A commit is named by its last frame; 0 is the database
    before the first one."""

    def __init__(self, file, log):
        self.size, self.frames = frames_of(log)
        self.front = len(self.frames)
        self.commits = [number for number, (_, end, _) in enumerate(self.frames, 1) if end]
        size = self.size or 512
        self.zeros = bytes(size)
        self.file = [file[at:at + size].ljust(size, b"\0") for at in range(0, len(file), size)]
        self.long = len(self.file)
        self.copies = {}  # page: the contents that frames have for it
        for page, _, content in self.frames:
            self.copies.setdefault(page, set()).add(content)
        self.sizes = [end for _, end, _ in self.frames if end]
        self.most = max([self.long, *self.copies, *self.sizes])  # pages above it are all alike
        self.own = max((page for page in range(1, self.long + 1) if self.is_own(page)), default=0)

    def of_file(self, page):
        """A page of the file, zeros past its end."""
        return self.file[page - 1] if page <= self.long else self.zeros

    def is_copied(self, page):
        """The file has the bytes of a frame there."""
        return page <= self.long and self.file[page - 1] in self.copies.get(page, ())

    def is_own(self, page):
        """No checkpoint wrote what the file has there."""
        return self.file[page - 1] != self.zeros and not self.is_copied(page)

    def is_cut(self, page):
        """A checkpoint may have cut this page away."""
        return (self.of_file(page) == self.zeros and page > self.own
                and any(end < page and end <= self.long for end in self.sizes))

    def last_frames(self, commit):
        """The contents of the frames up to a commit, by page."""
        return {page: content for page, _, content in self.frames[:commit]}

    def count(self, commit):
        """How many pages the database of a commit has, by the file as it is."""
        first = counted(self.last_frames(commit).get(1, self.of_file(1)))
        if commit == 0:
            return first or self.long
        size = self.frames[commit - 1][1]
        return first if 0 < first <= size else size

    def lost_page(self, commit):
        """The first page of which it isn't known what it was at a commit, and why; None if all are known. If even their
        number isn't, that is page 0."""
        if self.front == 0 or commit == self.front:
            return None
        named = self.last_frames(commit)
        for page in range(1, min(self.count(commit), self.most + 1) + 1):
            if page in named:
                continue
            if self.is_copied(page):
                return page, "copied"
            if self.is_cut(page):
                return page, "cut away"
        if commit == 0 and not counted(self.of_file(1)):
            if self.own != self.long or any(end <= self.long for end in self.sizes):
                return 0, "of another length"
        return None

    def is_known(self, commit):
        return self.lost_page(commit) is None

    def pages(self, commit):
        """The pages of the database at a commit that is known. At the front it has as many as the commit says."""
        named = self.last_frames(commit)
        count = self.frames[-1][1] if commit == self.front != 0 else self.count(commit)
        return [named.get(page, self.of_file(page)) for page in range(1, count + 1)]

    def database(self, commit):
        """Its bytes."""
        return b"".join(self.pages(commit))

    def used(self, commit):
        """Its bytes without the pages at the front that the header doesn't count, as SQLite gives them."""
        return self.database(commit)[:self.count(commit) * self.size]
