"""Trials of must-fail edits: how they are grouped in copies, and how each is settled."""

import contextlib
import os
import re
import sys
import threading
import time
from collections import Counter
from dataclasses import replace
from pathlib import Path

from edit_copies import TOP, Crate, Late, check, is_late
from edit_reports import BUILT, NO_WORD, OVER, TOLD, told_beside, told_without_twin, verdict_on, whole

COUNT = TOP / "edits/COUNT"
AT_ONCE = 100  # edits that one copy of a crate has, at most
BESIDE = 3  # copies that are checked at once while `rt ci` works
SPARE = 6 * 10**9  # bytes of memory that are left to `rt ci` where a copy is begun beside it


class Trial:
    """The edits that are to be tried, and what came of them."""

    def __init__(self, options):
        self.options = options
        self.lock = threading.Lock()
        self.passed = 0
        self.failures = []  # the lines of what failed
        self.told = Counter()
        self.left = []  # edits that are tried once more
        self.open = {}  # those that aren't settled, each with what its first try told
        self.is_again = False
        self.undrawn = 0  # those that --draw doesn't try

    def say(self, label, text, is_good):
        with self.lock:
            print(f"{label}: {text}", flush=True)
            self.open.pop(label, None)
            self.passed += is_good
            if not is_good:
                self.failures.append(f"{label}: {text}")

    def settle(self, edit, verdict, told=""):
        """Counts an edit that was refused, and so told, or that wasn't. What a busy machine may have stopped is left
        to be tried once more."""
        if not self.is_again and (verdict is None or isinstance(verdict, dict) and told not in TOLD):
            with self.lock:
                self.left.append(replace(edit, is_twin=False, number=0))
                self.open[edit.label()] = told or NO_WORD
            print(f"{edit.label()}: {told or NO_WORD}; it is tried once more", flush=True)
        elif isinstance(verdict, dict):
            functions = ", ".join(dict.fromkeys(it[0] for it in verdict))
            goals = ", ".join(dict.fromkeys(it[1] for it in verdict))
            with self.lock:
                self.told[told] += 1
            self.say(edit.label(), f"refused in {functions} by {goals}; {told}", told in TOLD)
        else:
            self.say(edit.label(), "NOT REFUSED" if verdict is False else NO_WORD, False)

    def as_it_stands(self, edit, verdict):
        text = "proved as it stands" if verdict is False else "not told of"
        self.say(edit.label(), "refused as it stands" if verdict else text, verdict is False)

    def judge(self, crate, edits, verdicts, said):
        """Settles edits of which a check told, those that have a twin by what is said of that, here or of a further
        copy."""
        twins = {}
        for edit in edits:
            verdict = verdicts[edit.label()]
            if self.options.unedited:
                self.as_it_stands(edit, verdict)
            elif not isinstance(verdict, dict):
                self.settle(edit, verdict)
            elif edit.has_twin():
                twins[edit.label()] = edit
            else:
                self.settle(edit, verdict, told_without_twin(crate, verdict))
        left = [it.twin() for label, it in twins.items() if said.get(label) is None]
        said = said | self.twins(crate, left) if left else said
        for label, edit in twins.items():
            self.settle(edit, verdicts[label], told_beside(verdicts[label], said.get(label)))

    def twins(self, crate, twins):
        """What is said of these twins, all in one copy, or in smaller ones where one can't be read."""
        done, _, lines = check(crate, twins, self.options)
        said = {it.label(): verdict_on(crate, it, lines) for it in done}
        said = {label: it for label, it in said.items() if it is not None}
        left = [it for it in twins if it.label() not in said]
        if left and len(twins) > 1:
            parts = [left] if len(left) < len(twins) else [twins[: len(twins) // 2], twins[len(twins) // 2 :]]
            for part in parts:
                said |= self.twins(crate, part)
        return said

    def in_time(self, crate, edits):
        """Tries edits as long as there is time."""
        with contextlib.suppress(Late):
            self.together(crate, edits)

    def together(self, crate, edits):
        """Tries edits in one copy, on doubles their twins too, and what is left open in smaller ones."""
        has_doubles = not self.options.unedited
        twins = [it.twin() for it in edits if has_doubles and it.has_twin() and it.can_double]
        done, _, lines = check(crate, [*edits, *twins], self.options)
        verdicts = {it.label(): verdict_on(crate, it, lines) for it in done if not it.is_twin}
        said = {it.label(): verdict_on(crate, it, lines) for it in done if it.is_twin}
        left = [it for it in edits if verdicts.get(it.label()) is None]
        self.judge(crate, [it for it in edits if it not in left], verdicts, said)
        if not left:
            return
        if len(left) < len(edits):
            self.together(crate, left)
        elif len(edits) > 1:
            for half in (edits[: len(edits) // 2], edits[len(edits) // 2 :]):
                self.together(crate, half)
        else:
            self.alone(crate, left[0])

    def alone(self, crate, edit):
        _, status, lines = check(crate, [edit], self.options, is_whole=True)
        self.judge(crate, [edit], {edit.label(): whole(crate, edit, status, lines)}, {})

    def once_more(self):
        """Tries what was left, one after another, when nothing else is tried."""
        self.is_again = True
        for edit in self.left:
            self.in_time(Crate(edit.crate), [edit])

    def skipped(self):
        """Says of each edit for which there was no time that it counts as skipped, and returns how many there are."""
        for label, why in self.open.items():
            print(f"{label}: skipped, since the time is over{f', after {why}' if why else ''}", flush=True)
        return len(self.open)

    def counts(self, edits, is_all, skipped):
        """Compares how many edits there are, and of a run of all how many are owed something, with edits/COUNT."""
        said = dict(re.findall(r"^(\w+) (\d+)$", COUNT.read_text() if COUNT.is_file() else "", re.M))
        if said.get("edits") != str(edits):
            self.say("edits/COUNT", f"there are {edits} edits, and it says {said.get('edits', 'nothing')}", False)
        owed = self.told["owed a twin"] + self.told["owed a clause"]
        if is_all and owed > int(said.get("owed", 0)):
            self.say("edits/COUNT", f"{owed} edits are owed a twin or a clause, and it says {said.get('owed')}", False)
        elif is_all and not skipped and owed < int(said.get("owed", 0)):
            print(f"edits/COUNT: only {owed} edits are owed a twin or a clause: lower the number")


def groups(edits):
    """Edits in groups of as equal a size as can be, each of such that one copy can have together; those that change a
    function itself stand before those that are tried on doubles."""
    layers = []
    for edit in sorted(edits, key=lambda it: it.can_double):
        layer = next((it for it in layers if edit.fits(it)), None)
        if layer is None:
            layers.append(layer := [])
        layer.append(edit)
    for layer in layers:
        count = -(-len(layer) // AT_ONCE)
        yield from (layer[k::count] for k in range(count))


class Beside:
    """A run of `rt ci` at work here, by what it has written so far."""

    def __init__(self, log):
        self.log = Path(log)
        os.nice(19)

    def built(self):
        """The crates that it has proved, and whether it has ended."""
        text = self.log.read_text(errors="replace") if self.log.is_file() else ""
        return set(BUILT.findall(text)), OVER.search(text) is not None

    def has_room(self, running):
        """Whether one more copy may be begun beside those that run."""
        free = re.search(r"^MemAvailable: +(\d+) kB", Path("/proc/meminfo").read_text(), re.M)
        return running < BESIDE and (free is None or int(free[1]) * 1024 > SPARE)


def submit_beside(pool, jobs, beside, until):
    """Begins what is to be run as `rt ci` goes on, and all that is left when it has ended, as long as there is time."""
    running, is_over = [], False
    while jobs and not is_late(until):
        built, is_over = beside.built()
        ready = [job for job in jobs if not set(job[1].below()) - built]
        if not ready and is_over:
            names = ", ".join(sorted({it[1].name for it in jobs}))
            sys.exit(f"{names}: not tried, since rt ci didn't prove what is below")
        at_work = sum(not it.done() for it in running)
        if ready and (is_over or beside.has_room(at_work)):
            jobs.remove(ready[0])
            running.append(pool.submit(*ready[0]))
        else:
            time.sleep(1)
    return running
