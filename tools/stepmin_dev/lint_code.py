"""Measures the code: docstrings, comments, clauses, contracts, parameters, bodies, files and names.

Each measure has a limit. Code that is over it has a limit of its own in lint_limits.json, which may only fall.
"""
import collections
import functools
import os
import re

from .believed import Believed, place
from .sources import CRATES, ROOT, braces, crates, files_below, items_of, lines_of, relative

COLUMNS = 100
WRITTEN_FOR_PROVER = ("Answers.antt", "Invariants.antt")  # they may be of any length
DOCUMENTED = ("fn", "struct", "enum", "trait", "const", "type")

# Each kind of measure: the limit, and what is said of a number over it.
KINDS = {
    "items without a docstring": (0, "is public and has no docstring"),
    "comments that begin with dots": (0, "comments that begin with `..`: {number}, at most {most}"),
    "wide clause lines": (0, f"clause lines over {COLUMNS} columns: {{number}}, at most {{most}}"),
    "characters of a contract": (600, "has a contract of {number} characters, at most {most}"),
    "parameters": (6, "has {number} parameters, at most {most}"),
    "lines of a body": (40, "has a body of {number} lines, at most {most}"),
    "lines of a file": (800, "{number} lines, at most {most}"),
    "modules with one name": (1, "is defined by {number} modules behind the program's run, at most {most}"),
}
Measure = collections.namedtuple("Measure", "kind key number place")  # place: FILE:LINE


def measures():
    """Returns the numbers of the code that aren't 0, largest first for each key."""
    found = {}
    for it in [*measured_files(), *measured_names()]:
        if it.number and it.number > found.get((it.kind, it.key), it._replace(number=0)).number:
            found[it.kind, it.key] = it
    return found


def measured_files():
    for path in files_below(CRATES, ".rt", ".antt"):
        kind = os.path.relpath(path, CRATES).split(os.sep)[1]
        if kind not in ("src", "specs", "proofs"):
            continue
        name, lines = relative(path), lines_of(path)
        if os.path.basename(path) not in WRITTEN_FOR_PROVER:
            yield Measure("lines of a file", name, len(lines) - 1, f"{name}:1")
        if kind != "proofs":
            dotted = [i for i, line in enumerate(lines, 1) if re.match(r"\s*(//[/!]?|--) ?\.\.", line)]
            yield Measure("comments that begin with dots", name, len(dotted), f"{name}:{dotted[0] if dotted else 1}")
        if kind == "src":
            yield from measured_source(path, name, lines)
    for folder in ("tools", "bench", "tests"):
        for path in files_below(os.path.join(ROOT, folder), ".py"):
            yield Measure("lines of a file", relative(path), len(lines_of(path)) - 1, f"{relative(path)}:1")


def measured_source(path, name, lines):
    wide = wide_lines(lines)
    yield Measure("wide clause lines", name, len(wide), f"{name}:{wide[0] if wide else 1}")
    for item in items_of(path):
        key, at = f"{name} {item.called}", f"{name}:{item.number}"
        if item.public and item.kind in DOCUMENTED and not item.doc:
            yield Measure("items without a docstring", key, 1, at)
        if item.kind == "fn":
            yield Measure("characters of a contract", key, len(item.contract), at)
            yield Measure("parameters", key, len(item.parameters), at)
            yield Measure("lines of a body", key, len(item.body), at)


def wide_lines(lines):
    """Returns the numbers of the lines in clauses and ghost items that are over the limit of columns."""
    found, inside, depth = [], False, 0
    for number, line in enumerate(lines, 1):
        if not inside and re.match(r"\s*(requires|ensures|(pub )?ghost (?!use))\b", line):
            inside, depth = True, 0
        if inside:
            depth += braces(line)
            inside = depth > 0
            if len(line) > COLUMNS:
                found.append(number)
    return found


@functools.lru_cache(maxsize=None)
def definitions():
    return Believed()


def measured_names():
    """Returns, for each name behind the program's run, the number of modules that define it.

    A name may stand once in the definitions of exchange files, once in those of schemas and once in the theory of both.
    """
    modules = collections.defaultdict(set)
    for crate, module, name in definitions().behind_program():
        modules[name].add((crate, module))
    for name, where in modules.items():
        languages = [re.match(r"step_|express_|parsing$|", it[0])[0] for it in where]
        if "" in languages or len(set(languages)) < len(languages):
            first = sorted(where)[0]
            yield Measure("modules with one name", name, len(where), place(definitions().files[first], name))


def refiners():
    """Returns what `verifying` stands on and shouldn't: crates with a function `refine`."""
    below, left, stands_on = set(), ["verifying"], crates()
    while left:
        for crate in stands_on.get(left.pop(), []):
            if crate not in below:
                below.add(crate)
                left.append(crate)
    for crate in sorted(below & set(stands_on)):
        for path in files_below(os.path.join(CRATES, crate, "src"), ".rt"):
            for item in items_of(path):
                if item.kind == "fn" and item.name == "refine":
                    yield f"{relative(path)}:{item.number}: `verifying` stands on `{crate}`, which refines"
