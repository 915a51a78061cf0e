"""Lists the functions that number the lifetimes of a schema out of step, which makes their calls dear to prove.

A function's lifetimes are numbered in the order in which its parameters name them.
A type that reaches a schema is handed on for nothing if caller and callee give its lifetimes the same numbers.
Those are 1, 2 and so on, after the 0 of a reference.
Prints how many functions of each crate give it others; for one CRATE each function, with the type and the numbers.
docs/PROVING.md says what they cost, and what to do.
"""
import collections
import glob
import os
import re

from .options import parser_of
from .repository import CRATES

TREE = "SchemaTree"
DEFINED = re.compile(r"^(?:pub(?:\(crate\))? )?(?:struct|enum) (\w+)(?:<[^{;]*>)?\s*\{(.*?)^\}", re.MULTILINE | re.DOTALL)
IMPLS = re.compile(r"^impl(?:<[^{]*?>)?\s+(?:[\w:<>', ]+\s+for\s+)?([A-Z]\w*(?:<[^{]*>)?)[^{]*\{", re.MULTILINE)
TYPES = re.compile(r"\b([A-Z]\w*)<((?:\s*'[#\w]+\s*,?)+)>")


def closing(text, at, pair):
    """Where the bracket that opens at a place is closed."""
    depth = 0
    for place in range(at, len(text)):
        if text[place] == pair[1] and text[place - 1] != "-":
            depth -= 1
        elif text[place] == pair[0]:
            depth += 1
        if depth == 0:
            return place
    return len(text) - 1


def parted(text):
    """The parts of a list between its commas."""
    parts, depth, begin = [], 0, 0
    for place, letter in enumerate(text):
        depth += (letter in "<([{") - (letter in ")]}" or letter == ">" and text[place - 1] != "-")
        if letter == "," and depth == 0:
            parts.append(text[begin:place])
            begin = place + 1
    return [part.strip() for part in [*parts, text[begin:]] if part.strip()]


def large(texts):
    """The types that reach a schema, or are part of one."""
    bodies = collections.defaultdict(str)
    for text in texts:
        for name, body in DEFINED.findall(text):
            bodies[name] += body
    named = {name: set(re.findall(r"\b([A-Z]\w*)<'", body)) for name, body in bodies.items()}
    parts, left = set(), [TREE]
    while left:
        name = left.pop()
        if name not in parts:
            parts.add(name)
            left += named.get(name, ())
    found, more = set(), {name for name in parts if re.search(r"\b(Vec|Box)<", bodies[name])}
    while more:
        found |= more
        more = {name for name, names in named.items() if names & found and (name in parts or TREE in found)} - found
    return found


def functions(text):
    """Each function's name, parameters, and the type whose method it is."""
    impls = [(it.start(), closing(text, it.end() - 1, "{}"), it.group(1)) for it in IMPLS.finditer(text)]
    for it in re.finditer(r"\bfn (\w+)\s*", text):
        at = it.end()
        if text[at] == "<":
            at = closing(text, at, "<>") + 1
        if text[at] == "(":
            own = next((name for begin, end, name in impls if begin < it.start() < end), "Self")
            yield it.group(1), parted(text[at + 1:closing(text, at, "()")]), own


def numbered(parameters, own):
    """The types of parameters, and the lifetimes in them in the order in which they are named."""
    types = []
    for parameter in parameters:
        if re.fullmatch(r"(&\s*('\w+\s+)?)?(mut\s+)?self", parameter):
            parameter = "self: " + parameter.replace("mut ", "").replace("self", own)
        types.append(parameter.partition(":")[2])
    fresh = iter(range(10**6))
    joined = re.sub(r"&\s*('\w+)?", lambda it: f"&{it.group(1) or f'{chr(39)}#{next(fresh)}'} ", "\n".join(types))
    joined = re.sub(r"'_(?!\w)", lambda it: f"'#{next(fresh)}", joined)
    return joined, [it for it in dict.fromkeys(re.findall(r"'[#\w]+", joined)) if it != "'static"]


def out_of_step(text, names):
    """The functions of a text that give a large type other numbers."""
    for function, parameters, own in functions(text):
        types, order = numbered(parameters, own)
        for name, lifetimes in TYPES.findall(types):
            numbers = [order.index(it) for it in re.findall(r"'[#\w]+", lifetimes) if it in order]
            if name in names and numbers != list(range(1, len(numbers) + 1)):
                yield function, name, numbers


def main(arguments):
    parser = parser_of("cost lifetimes", __doc__)
    parser.add_argument("crate", metavar="CRATE", nargs="?", help="a crate whose functions are listed")
    asked = parser.parse_args(arguments).crate
    texts = collections.defaultdict(dict)
    for path in sorted(glob.glob(f"{CRATES}/*/src/**/*.rt", recursive=True)):
        with open(path, encoding="utf-8") as file:
            texts[path[len(CRATES) + 1:].split("/")[0]][path] = file.read()
    names = large([text for files in texts.values() for text in files.values()])
    for crate, files in texts.items():
        found = {path: list(out_of_step(text, names)) for path, text in files.items()}
        if asked == crate:
            for path, rows in found.items():
                for function, name, numbers in rows:
                    print(f"{os.path.basename(path)}: {function}: {name} has {numbers}")
        elif not asked and any(found.values()):
            print(f"{crate:24} {len({(path, row[0]) for path, rows in found.items() for row in rows})}")
    return 0
