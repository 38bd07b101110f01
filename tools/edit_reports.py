"""What the prover reports about must-fail edits, and what we conclude from it.

The head of this file has a pattern for each sentence of the prover and of `rt ci` that the trials of edits read."""

import re

from sources import PROOFS

# Lines of a check: a goal that isn't proved, with the reason; after its goals the line of their function.
OPEN_GOAL = re.compile(r"note: src/\S+: it is not proved .*\(`([^`]+)`\)(.*)")
FUNCTION = "fn "
NOT_PROVED = "logic=not-proved"  # begins the line of a check that refuses something
# An error in a written proof: the path of its function, the goal, the reason.
ERROR = re.compile(
    r"(?:\./)?proofs/(?P<place>\S+)/\w+\.antt:\d+:\d+: error: (?:`(?P<goal>[^`]*)`: )?(?P<why>.*)"
)
# What a function's line reports: how it begins if all is proved; what is before the names of goals that aren't; what
# the prover holds against the function; and the part of this that only says that another function isn't proved.
PROVED = ("proved", "no holes", "depends on a hole")
GOALS = "did not prove "
AGAINST = re.compile(r"(?:no proof: |not proved; )(.*)")
OTHERS = re.compile(r"it (?:stands on|calls|passes the block) .*, which (?:antt refuses|(?:is|are) not proved)$")
MEANT = ("returns", "invariant_of")  # begin the name of a goal of a clause or of a type's invariant
# Reasons: the text can't be read, while an edit that only makes a statement false can; there are values at which the
# goal is false; search ended without an answer.
UNREAD = re.compile(
    r"is not in scope|has no field|is no name|that can be named from here|operand is missing|expected the end"
    r"|cannot continue|was not admitted|is not admitted"
)
VALUES = "the facts known there allow values at which this goal is false"
GIVEN_UP = re.compile(r"gave up|stopped at its own limit")
# Lines of `rt ci`: a crate is proved; all has ended.
BUILT = re.compile(r"^rt: (\w+) (?:proved$|is kept: )", re.M)
OVER = re.compile(r"^\d+ passed, \d+ failed$", re.M)

# What the refusal of an edit may tell: the head of tools/edits explains each.
TOLD = ("values", "no proof files", "beside its twin", "owed a twin", "owed a clause")
NO_WORD = "NOT TRIED: nothing is known of it"


def label(crate, function):
    """How the line of a function begins."""
    return f"{FUNCTION}{crate.name}::{function}: "


def told_of(crate, function, lines):
    """What the prover said of a function: None where nothing, else the goals that it refused, each with the reason that
    it gave, {} where it proved it."""
    begin = label(crate, function)
    goals = {}  # that aren't proved, of the function whose line comes next
    said = None
    for line in lines:
        open_goal = OPEN_GOAL.match(line)
        if open_goal:
            goals[open_goal[1]] = open_goal[2]
        elif line.startswith(begin):
            said = line.removeprefix(begin)
            break
        elif line.startswith(FUNCTION):
            goals = {}
    if said is None:
        return None
    if said.startswith(PROVED):
        return {}
    for goal in re.findall(r"`([^`]+)`", said.partition(GOALS)[2].partition(";")[0]):
        goals.setdefault(goal, "")
    for line in lines:
        error = ERROR.match(line)
        if error and error["place"] == function.replace("::", "/") and not UNREAD.search(error["why"]):
            goals.setdefault(error["goal"] or error["why"][:60], error["why"].replace(VALUES, ""))
    return goals or None


def blames_others(crate, function, lines):
    """Whether all that the prover says against a function is that others aren't proved which it calls: it tries each
    goal of a function all the same, and says which it doesn't prove."""
    begin = label(crate, function)
    said = next((line.removeprefix(begin) for line in lines if line.startswith(begin)), "")
    against = AGAINST.match(said)
    own = f"`Rattle.{crate.name}.proofs.{function.replace('::', '.')}."
    return against is not None and own not in said and all(OTHERS.match(it) for it in against[1].split("; "))


def verdict_on(crate, edit, lines):
    """The goals that refuse an edit, each with its function and the reason, False where all that it changes is proved,
    or None. A twin is proved where those that it calls are edited in its copy, and refused."""
    told = {name: told_of(crate, it, lines) for it, name in sorted(edit.changed().items())}
    if edit.is_twin:
        proved = {name for it, name in edit.changed().items() if blames_others(crate, it, lines)}
        told = {name: {} if goals is None and name in proved else goals for name, goals in told.items()}
    refused = {(name, goal): why for name, goals in told.items() for goal, why in (goals or {}).items()}
    return refused or (False if told and all(it == {} for it in told.values()) else None)


def telling(refused):
    """Those of the goals that refuse an edit which speak of what a clause or a type's invariant says, and that search
    didn't only give up on."""
    meant = (it for it in refused if it[1].startswith(MEANT))
    return {it for it in meant if not GIVEN_UP.search(refused[it])}


def whole(crate, edit, status, lines):
    """The verdict on an edit by a check of the whole crate: by a function that it changes, or else by another, which
    tells of no clause."""
    if status == 0:
        return False
    if status != 1 or not any(it.startswith(NOT_PROVED) for it in lines):
        return None
    verdict = verdict_on(crate, edit, lines)
    if verdict:
        return verdict
    matches = [re.match(label(crate, r"(\S+)"), it) for it in lines]
    others = {it[1]: told_of(crate, it[1], lines) for it in matches if it}
    refused = [(name, goal, why) for name, goals in others.items() for goal, why in (goals or {}).items()]
    return {(name, f"another's {goal}"): why for name, goal, why in refused} or None


def has_proof_files(crate, function):
    return any((crate.folder / "proofs" / function.replace("::", "/") / it).is_file() for it in PROOFS)


def told_without_twin(crate, refused):
    """What the refusal of an edit tells that has no twin."""
    tells = telling(refused)
    if not tells:
        return "owed a clause"
    if any(VALUES in refused[it] for it in tells):
        return "values"
    return "owed a twin" if all(has_proof_files(crate, it[0]) for it in tells) else "no proof files"


def told_beside(refused, twin):
    """What the refusal of an edit tells of whose twin this is said."""
    if twin is None:
        return "NOT TRIED: nothing is known of its twin"
    if not telling(refused):
        return "TELLS NOTHING: no clause refuses it"
    return "beside its twin" if telling(refused) - set(twin or ()) else "TELLS NOTHING: the same goals refuse its twin"
