"""Must-fail edits as their files describe them, and the copies of a crate in which they are tried."""

import os
import re
import resource
import shutil
import signal
import subprocess
import sys
import tempfile
import time
from dataclasses import dataclass, field, replace
from pathlib import Path

from sources import CONSTANT, again, can_double, double, functions_of, homes_of

TOP = Path(__file__).resolve().parent.parent
SECONDS = 1800  # of the processor that a check may take, and
SECONDS_EACH = 60  # for each edit of its copy
WAITING = 10  # times as many seconds by the clock it may take on a busy machine
NO_CODE = re.compile(r"\b(?:requires|ensures|ghost)\b|\bprove!|#!?\[|//[/!]")  # words of clauses and proofs


@dataclass
class Pair:
    """A text of a file, what stands in its place, and what of the same form means what it means."""

    file: str
    inside: str  # the function in whose body it stands once; none: once in the file
    old: str
    new: str
    same: str = None

    def span(self, text, homes, number=0):
        """Where the old text stands, in a double of this number where there is one, or else why it isn't to be had."""
        begin, end, where = 0, len(text), self.file
        if self.inside:
            lines, inside = text.split("\n"), again(self.inside, number)
            found = [it for it in functions_of(self.file, lines, homes) if it.name == inside]
            if len(found) != 1 or found[0].opening < 0:
                return f"{self.file} has no function {inside}"
            begin = sum(len(it) + 1 for it in lines[: found[0].opening + 1])
            end, where = sum(len(it) + 1 for it in lines[: found[0].end]), inside
        times = text.count(self.old, begin, end)
        if times != 1:
            return f"its old text is in {where} {times} times, and not once"
        at = text.index(self.old, begin, end)
        return at, at + len(self.old)

    def apply(self, text, homes, edit):
        """The text with an edit's new one, or with what means the same; None where the old one isn't there."""
        span = self.span(text, homes, edit.number)
        put = self.new if not edit.is_twin else self.old if self.same is None else self.same
        return None if isinstance(span, str) else text[: span[0]] + put + text[span[1] :]


@dataclass
class Edit:
    crate: str
    name: str
    pairs: list
    functions: set = field(default_factory=set)  # those that it changes
    is_inside: bool = True  # whether it changes bodies alone, and no constant
    can_double: bool = False  # whether it can be tried on a double of the function that it changes
    number: int = 0  # of that double in the copy that is made of it
    is_twin: bool = False  # whether it is the twin of an edit
    why: str = ""

    def label(self):
        return f"{self.crate}/{self.name}"

    def has_twin(self):
        return any(it.same is not None for it in self.pairs)

    def twin(self):
        return replace(self, is_twin=True)

    def fits(self, others):
        """Whether it can be tried in one copy with these."""
        beside = [it for it in others if it.functions & self.functions]
        return not beside or self.can_double and all(it.is_inside for it in beside)

    def changed(self):
        """The functions that it changes in the copy that is made of it, by their names outside."""
        return {again(it, self.number): it for it in self.functions}


def pairs_of(text):
    """The pairs of an edit's file, or else what is wrong with it."""
    pairs, file, inside, old = [], "", "", None
    for line in text.removesuffix("\n").split("\n"):
        word, colon, rest = line.partition(":")
        rest = rest.removeprefix(" ")
        if old is not None and (word, colon) != ("new", ":"):
            return "an old text has no new one"
        if not colon or word not in ("file", "in", "old", "new", "same"):
            return f"it has a line of no known kind: {line}"
        if word == "file":
            file, inside = rest.strip(), ""
            if not file.startswith("src/") or ".." in Path(file).parts or not file.endswith(".rt"):
                return f"{file} is no file of src/"
        elif word == "in":
            inside = rest.strip()
        elif word == "old":
            old = rest
            if not file or not old.strip():
                return "an old text is empty, or of no file"
        elif word == "new":
            if old is None:
                return "a new text has no old one"
            pairs.append(Pair(file, inside, old, rest))
            old = None
        elif not pairs or pairs[-1].same is not None:
            return "a text that means the same has no new one"
        else:
            pairs[-1].same = rest
    if old is not None:
        return "an old text has no new one"
    return pairs or "it has no pair of an old and a new text"


def users(folder, homes, line):
    """The functions that name the constant which a line defines."""
    name = CONSTANT.match(line)
    found = set()
    for source in sorted((folder / "src").rglob("*.rt")) if name else ():
        lines = source.read_text().split("\n")
        for it in functions_of(source.relative_to(folder), lines, homes):
            if re.search(rf"\b{name[1]}\b", "\n".join(lines[it.head : it.end + 1])):
                found.add(it.name)
    return found


def changed(folder, homes, pair):
    """The functions that a pair changes, or else why it is no edit of code."""
    source = folder / pair.file
    text = source.read_text() if source.is_file() else ""
    span = pair.span(text, homes)
    if isinstance(span, str):
        return span
    texts = [it for it in (pair.old, pair.new, pair.same) if it is not None]
    if any(NO_CODE.search(it) for it in texts):
        return "it turns a clause, a proof, an attribute or a document"
    if pair.same is not None and "".join(pair.same.split()) in ("".join(pair.old.split()), "".join(pair.new.split())):
        return "what is to mean the same is the old or the new text itself"
    lines, at = text.split("\n"), text.count("\n", 0, span[0])
    inside = [it for it in functions_of(pair.file, lines, homes) if it.has(at)]
    if len(inside) == 1 and inside[0].opening < inside[0].end:
        pair.inside = inside[0].name
    if inside:
        return {it.name for it in inside}
    return users(folder, homes, lines[at]) or "it changes no function's body, and no constant of one"


def read(edit, crate, text):
    """The edit of a file, with the functions that it changes."""
    folder = TOP / "crates" / crate
    pairs = pairs_of(text)
    if isinstance(pairs, str):
        return Edit(crate, edit, [], why=pairs)
    it = Edit(crate, edit, pairs)
    homes = homes_of(folder)
    for pair in pairs:
        names = changed(folder, homes, pair)
        if isinstance(names, str):
            it.why = names
            return it
        it.functions |= names
        it.is_inside &= names == {pair.inside}
    file = pairs[0].file
    it.can_double = it.is_inside and len(it.functions) == 1 and can_double(folder, file, pairs[0].inside, homes)
    return it


class Crate:
    """A crate as crates.txt describes it, over the kit at hand."""

    kit = None
    lines = {}

    def __init__(self, name):
        self.name = name
        self.folder = TOP / "crates" / name
        self.is_program = (self.folder / "src/main.rt").is_file()
        self.is_static = "staticlib" in Crate.lines[name][0]
        self.needs = Crate.lines[name][1]

    def below(self):
        found = []
        for name in self.needs:
            if name in Crate.lines:
                found += [it for it in [*Crate(name).below(), name] if it not in found]
        return found

    def words(self):
        kit = Crate.kit
        words = ["--crate-name", self.name, "src/main.rt" if self.is_program else "src/lib.rt"]
        for name in ["std", *[it for it in self.needs if it not in Crate.lines]]:
            words += ["--extern", f"{name}={kit}/rlibs/{name}.rlib"]
        words += ["-L", f"dependency={kit}/rlibs"]
        for name in self.needs:
            if name in Crate.lines:
                words += ["--extern", f"{name}={TOP}/crates/{name}/out/rlib/{name}.rlib"]
        for name in self.below():
            words += ["-L", f"dependency={TOP}/crates/{name}/out/rlib"]
        words += ["--antt-project", f"{kit}/rattle/logic/antt-project.json", "--logic-built", f"{kit}/logic_built"]
        words += ["--links", f"{self.name}=", "--jobs", "1"]
        return words + (["--crate-type", "staticlib"] if self.is_static else [])

    def lacks(self):
        return [it for it in self.below() if not (TOP / f"crates/{it}/out/rlib/{it}.rlib").is_dir()]


def empty(room, crate, kept):
    """Takes the body and the proof of each plain function of a copy that isn't to be kept, so that its contract is all
    that is known of it."""
    homes = homes_of(room)
    for source in sorted((room / "src").rglob("*.rt")):
        lines = source.read_text().split("\n")
        for it in reversed(functions_of(source.relative_to(room), lines, homes)):
            if not it.is_plain or it.name in kept or it.opening < 0:
                continue
            lines[it.opening + 1 : it.end] = [re.match(" *", lines[it.head])[0] + "    loop {}"]
            tactics = [k for k in range(it.start, it.head) if "#[tactic" in lines[k]]
            for k in reversed(tactics):
                del lines[k]
            hole(room, crate, it.name)
        source.write_text("\n".join(lines))


def hole(room, crate, name):
    folder = room / "proofs" / name.replace("::", "/")
    folder.mkdir(parents=True, exist_ok=True)
    for old in ("Answers.antt", "Invariants.antt"):
        (folder / old).unlink(missing_ok=True)
    spec = name.rpartition("::")[2] + "_spec"
    module = f"Rattle.{crate}.proofs.{name.replace('::', '.')}.Statement"
    lines = [f"use {module}.{{statement}}", f"pub {spec} : {{M : Type 1}} → statement M", f"{spec} = ?", ""]
    (folder / "Proof.antt").write_text("\n".join(lines))


def number(edits):
    """Gives each of some edits of a copy the double that it is tried on, where one before it changes the same."""
    for at, edit in enumerate(edits):
        edit.number = sum(bool(it.functions & edit.functions) for it in edits[:at])


def doubled(room, edits):
    """Puts the doubles into a copy on which edits are tried."""
    number(edits)
    for edit in edits:
        if edit.number:
            double(room, edit.crate, edit.pairs[0].file, edit.pairs[0].inside, edit.number)


def applied(room, edits):
    """Applies edits to a copy, of a twin what means the same, and returns those that fit beside those before them."""
    done, homes = [], homes_of(room)
    for edit in edits:
        texts = {}
        for pair in edit.pairs:
            text = pair.apply(texts.get(pair.file) or (room / pair.file).read_text(), homes, edit)
            if text is None:
                break
            texts[pair.file] = text
        else:
            for file, text in texts.items():
                (room / file).write_text(text)
            done.append(edit)
    return done


class Late(Exception):
    """The time is over."""


def is_late(until):
    return until is not None and time.time() >= until


def run_for(seconds, words, folder, until):
    """Runs a command that may take so many seconds of the processor, and returns its status and what it said; None and
    nothing where it took longer. Late where the time is over before it ends."""
    if is_late(until):
        raise Late
    waiting = WAITING * seconds if until is None else min(WAITING * seconds, until - time.time())
    how = {"stdin": subprocess.DEVNULL, "stdout": subprocess.PIPE, "stderr": subprocess.STDOUT}
    # in a group of its own, by which it is ended, and in the session of this run, which has its share of the processors
    how |= {"process_group": 0} if sys.version_info >= (3, 11) else {"start_new_session": True}
    with subprocess.Popen(words, cwd=folder, errors="replace", **how) as ran:
        try:
            resource.prlimit(ran.pid, resource.RLIMIT_CPU, (seconds, seconds))
            said = ran.communicate(timeout=waiting)[0]
        except subprocess.TimeoutExpired:
            os.killpg(ran.pid, signal.SIGKILL)
            ran.communicate()
            if is_late(until):
                raise Late from None
            return None, ""
    return (ran.returncode, said) if ran.returncode >= 0 else (None, "")


def check(crate, edits, options, is_whole=False):
    """Checks a copy of the crate with these edits. Returns those that were applied, the status and what was said."""
    with tempfile.TemporaryDirectory(prefix="edits-") as name:
        room = Path(name)
        for part in ("src", "specs", "proofs"):
            if (crate.folder / part).is_dir():
                shutil.copytree(crate.folder / part, room / part)
        doubled(room, edits)
        done = edits if options.unedited else applied(room, edits)
        kept = {it for edit in done for it in edit.changed()}
        words = []
        if not is_whole:
            empty(room, crate.name, kept)
            words = ["--allow-holes", *[f"--only={it}" for it in sorted(kept)]]
        words = [f"{Crate.kit}/bin/rattle", "check", *crate.words(), *words]
        status, said = run_for(SECONDS + SECONDS_EACH * len(edits) * (1 + is_whole), words, room, options.until)
    if options.keep:
        kind = "-whole" * is_whole + "-twins" * edits[0].is_twin
        log = Path(options.keep) / f"{crate.name}-{edits[0].name}-{len(edits)}{kind}"
        tried = [f"{it.name}{' (twin)' * it.is_twin}: {', '.join(sorted(it.changed()))}" for it in done]
        log.write_text("\n".join([*tried, f"status {status}", said]))
    return done, status, said.split("\n")
