"""The functions of a crate's files as `rt fmt` leaves them, by their names, and doubles of them."""

import re
from dataclasses import dataclass
from functools import lru_cache
from pathlib import Path

FUNCTION = re.compile(
    r"^(?P<indent> *)(?:pub(?:\([^)]*\))? )?(?P<kinds>(?:const |unsafe |ghost |extern \"C\" )*)fn (?P<name>\w+)"
)
IMPL = re.compile(r"^impl(?:<.*?>)? (?P<rest>.*)$")
CONSTANT = re.compile(r"\s*(?:pub(?:\([^)]*\))? )?const (\w+)")
PROOFS = ("Answers.antt", "Invariants.antt", "Proof.antt")


@dataclass
class Function:
    """A function of a file: its lines from the first attribute to the closing brace, and its name below the crate."""

    start: int
    head: int
    opening: int  # the line of the brace before its body; none: -1
    end: int
    name: str
    is_plain: bool

    def has(self, line):
        return self.opening >= 0 and (self.opening < line < self.end or self.opening == line == self.end)


def module_of(file):
    """The path of the module that the file src/.. is, in its parts."""
    parts = Path(file).with_suffix("").parts[1:]
    return [] if parts in (("lib",), ("main",)) else list(parts[:-1] if parts[-1] == "mod" else parts)


def joined(path):
    """A type or a trait as a check prints it within one word: `IoError` of io::Error, `RefSliceU8` of &[u8]."""
    path = re.sub(r"<.*", "", path.replace("&", "Ref::").replace("[", "Slice::").replace("]", ""))
    return "".join(it[0].upper() + it[1:] for it in path.split("::") if it)


def own_type(header):
    """The name of the type of an `impl` block, and that of its trait with what the trait is of, as `FromIoError`."""
    trait, _, kind = IMPL.match(header)["rest"].removesuffix("{").strip().rpartition(" for ")
    name = re.sub(r"<.*", "", trait).rpartition("::")[2]
    of = re.search(r"<([\w:]+)", trait)
    return joined(kind), name + joined(of[1] if of else "")


@lru_cache(maxsize=None)
def homes_of(folder):
    """The module of each struct and enum of the crate in a folder: a type's own functions have its path, wherever they
    stand."""
    homes = {}
    for source in sorted((folder / "src").rglob("*.rt")):
        for name in re.findall(r"^(?:pub(?:\([^)]*\))? )?(?:struct|enum) (\w+)", source.read_text(), re.M):
            homes[name] = module_of(source.relative_to(folder))
    return homes


def end_of(lines, at, indent):
    """The last line of a function: the brace at the indentation of its head, or if it has no body the one before the
    next head."""
    if lines[at].rstrip().endswith(("}", ";")):
        return at
    for k in range(at + 1, len(lines)):
        head = FUNCTION.match(lines[k])
        if head and len(head["indent"]) <= len(indent):
            return k - 1
        if lines[k] == indent + "}" or lines[k].startswith(indent + "} "):
            return k
    return at


def opening_of(lines, at, end, indent):
    """The line of the brace before a function's body: alone behind clauses, else behind the head."""
    if at == end and lines[at].rstrip().endswith("}"):
        return at
    alone = (k for k in range(at, end) if lines[k] == indent + "{")
    behind = (k for k in range(at, end) if lines[k].endswith(" {"))
    return next(alone, next(behind, -1))


def functions_of(file, lines, homes):
    """The functions of a file as `rt fmt` leaves it."""
    found, block = [], ("", "")
    for at, line in enumerate(lines):
        if line.startswith("impl"):
            block = own_type(line)
        elif line == "}" or line.startswith(("trait ", "pub trait ", "pub(crate) trait ")):
            block = ("", "") if line == "}" else ("", "trait")
        head = FUNCTION.match(line)
        if not head:
            continue
        indent = head["indent"]
        end = end_of(lines, at, indent)
        start = at
        while start and re.match(r" *(#\[|\)\])", lines[start - 1]):
            start -= 1
        kind, trait = block if indent else ("", "")
        owner = [kind + trait] if indent else []
        home = module_of(file) if trait else homes.get(kind, module_of(file))
        attributes = " ".join(lines[start:at])
        has_body = end > at and lines[end].startswith(indent + "}")
        is_plain = has_body and not head["kinds"] and not trait and not re.search(r"cycle|test|unsafe", attributes)
        opening = opening_of(lines, at, end, indent)
        found.append(Function(start, at, opening, end, "::".join([*home, *owner, head["name"]]), is_plain))
    return found


def again(name, number):
    """The name in a copy of a function's double of this number, counted from 1; with 0 the function's own."""
    return f"{name}_again{number}" if number else name


def function_in(folder, file, name, homes):
    """The function of a file with this name, or None where there isn't just one."""
    source = folder / file
    found = functions_of(file, source.read_text().split("\n"), homes) if source.is_file() else []
    named = [it for it in found if it.name == name]
    return named[0] if len(named) == 1 else None


def can_double(folder, file, name, homes):
    """Whether a function can stand in its file once more under another name, and be proved there as it is: it calls
    itself nowhere, and what is written of its proof is goals alone."""
    it = function_in(folder, file, name, homes)
    if it is None or not it.is_plain or not 0 <= it.opening < it.end:
        return False
    body = "\n".join((folder / file).read_text().split("\n")[it.opening + 1 : it.end])
    has_proof = (folder / "proofs" / name.replace("::", "/") / "Proof.antt").is_file()
    simple = name.rpartition("::")[2]
    return not has_proof and not re.search(rf"(?<![.\w]){simple}\(|\bself\.{simple}\(|::{simple}\b", body)


def double(room, crate, file, name, number):
    """Puts a function of a copy into its file once more, below itself, and its written proof beside its own."""
    it = function_in(room, file, name, homes_of(room))
    lines = (room / file).read_text().split("\n")
    simple, put = name.rpartition("::")[2], again(name, number)
    twice = lines[it.start : it.end + 1]
    at = it.head - it.start
    twice[at] = re.sub(rf"\bfn {simple}\b", f"fn {again(simple, number)}", twice[at], count=1)
    lines[it.end + 1 : it.end + 1] = ["", *twice]
    (room / file).write_text("\n".join(lines))
    own, to = room / "proofs" / name.replace("::", "/"), room / "proofs" / put.replace("::", "/")
    for proof in PROOFS:
        if (own / proof).is_file():
            to.mkdir(parents=True, exist_ok=True)
            path = f"Rattle.{crate}.proofs.{name.replace('::', '.')}"
            text = re.sub(rf"{re.escape(path)}\b", f"{again(path, number)}", (own / proof).read_text())
            (to / proof).write_text(text)
