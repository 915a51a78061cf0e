"""Reads the sources of the crates: heads of files, and items with their docstrings, contracts, parameters and bodies.

The sources are laid out by `rt fmt`, so lines and indentation say where an item ends.
"""
import functools
import os
import re

ROOT = os.path.dirname(os.path.dirname(os.path.dirname(os.path.abspath(__file__))))
CRATES = os.path.join(ROOT, "crates")
ITEM = re.compile(r"( *)(pub(?:\([a-z]+\))? )?(?:const )?(fn|struct|enum|trait|const|type) (\w+)")
OWNER = re.compile(r"( *)(?:pub(?:\([a-z]+\))? )?(?:impl(?:<.*?>)? (?:.*? for )?|trait )(\w+)")


@functools.lru_cache(maxsize=None)
def text_of(path):
    with open(path, encoding="utf-8") as file:
        return file.read()


def lines_of(path):
    return text_of(path).split("\n")


def relative(path):
    return os.path.relpath(path, ROOT)


def files_below(folder, *suffixes):
    """Returns the files below a folder with one of these suffixes, in order, except those in `out`."""
    found = []
    for at, folders, names in os.walk(folder):
        folders[:] = sorted(it for it in folders if it not in ("out", "__pycache__"))
        found += [os.path.join(at, it) for it in sorted(names) if it.endswith(suffixes)]
    return found


def floors():
    """Returns the floors of crates.txt, each with its sentence and its crates in order."""
    found, said = [], ""
    for line in lines_of(os.path.join(ROOT, "crates.txt")):
        begun = re.match(r"# ([A-Z]+)\. (.*)", line)
        if begun:
            found.append((begun[1].capitalize(), begun[2], []))
        elif re.match(r"\w+:", line):
            found[-1][2].append(line.split(":")[0])
    return found


def crates():
    """Returns the crates in the order of crates.txt, each with the crates that it stands on."""
    rows = [it.split(":") for it in lines_of(os.path.join(ROOT, "crates.txt")) if re.match(r"\w+:", it)]
    return {name: below.split() for name, below in rows}


def head_of(path):
    """Returns the comment at the top of a source (`//!` or `//`) or of a file of definitions (`--`), as lines."""
    mark, lines = r"//!?" if path.endswith(".rt") else "--", []
    for line in lines_of(path):
        begun = re.match(mark, line)
        if not begun:
            break
        lines.append(line[begun.end() :].strip())
    return lines


def first_sentence(lines):
    """Returns the first sentence of a comment."""
    text = " ".join(lines[: lines.index("")] if "" in lines else lines)
    end = re.search(r"[.](?= [A-Z`(]|$)", text)
    return (text[: end.end()] if end else text).strip()


class Item:
    """An item of a source: a function, type, trait or constant."""

    def __init__(self, path, number, kind, name, public, owner, doc):
        self.path, self.number, self.kind, self.name = path, number, kind, name
        self.public, self.owner, self.doc = public, owner, doc
        self.signature, self.clauses, self.body = [], [], []  # lines

    @property
    def called(self):
        """The name, after the type or trait to which a function belongs."""
        return f"{self.owner}::{self.name}" if self.owner else self.name

    @property
    def contract(self):
        """The contract in one line, without comments and layout."""
        return " ".join(" ".join(it for it in map(str.strip, self.clauses) if not it.startswith("//")).split())

    @property
    def parameters(self):
        """The parameters of a function, as written."""
        text = " ".join(map(str.strip, self.signature))
        start = depth = 0
        parts, begun = [], re.search(rf"\bfn {self.name}", text).end()
        if text[begun] == "<":  # generic parameters stand between the name and the parenthesis
            while True:
                depth += {"<": 1, ">": -1}.get(text[begun], 0) if text[begun - 1] != "-" else 0
                begun += 1
                if not depth:
                    break
        for i in range(begun, len(text)):
            mark = text[i]
            if mark in "([{<":
                depth += 1
                start = i + 1 if depth == 1 else start
            elif mark in ")]}" or mark == ">" and text[i - 1] != "-":
                depth -= 1
            if mark == "," and depth == 1 or not depth:
                parts.append(text[start:i].strip())
                start = i + 1
            if not depth:
                break
        return [it for it in parts if it]


def depth_of(line):
    return len(line) - len(line.lstrip())


def doc_before(lines, number):
    """Returns the docstring that stands before a line, without its marks."""
    doc, i = [], number - 2
    while i >= 0 and re.match(r" *(#\[|//(?!!)|\)\]$)", lines[i]):
        if lines[i].strip() == ")]":  # the last line of an attribute of several lines
            while not re.match(r" *#\[", lines[i]):
                i -= 1
        found = re.match(r" *///(.*)", lines[i])
        if found:
            doc.insert(0, found[1].strip())
        i -= 1
    return doc


def items_of(path):
    """Returns the items of a source in order. Functions of traits are public if their trait is."""
    lines, found, owner = lines_of(path), [], None  # owner: (indentation, name, trait that is public)
    i = 0
    while i < len(lines):
        line = lines[i]
        i += 1
        if owner and line == " " * owner[0] + "}":
            owner = None
        heads = OWNER.match(line)
        if heads and not line.rstrip().endswith((";", "{}")) and (re.match(r" *(pub(\([a-z]+\))? )?trait ", line) or " fn " not in line):
            owner = (len(heads[1]), heads[2], line.lstrip().startswith("pub trait "))
        begun = ITEM.match(line)
        if not begun:
            continue
        inside = owner if owner and owner[0] < len(begun[1]) else None
        public = begun[2] == "pub " or bool(inside and inside[2])
        item = Item(path, i, begun[3], begun[4], public, inside and inside[1], doc_before(lines, i))
        item.signature.append(line)
        found.append(item)
        if item.kind == "fn":
            i = read_function(item, lines, i)
    return found


def read_function(item, lines, i):
    """Reads signature, clauses and body of a function that begins before line `i`, and returns the line after it."""
    depth = depth_of(item.signature[0])
    if re.search(r"(;|\{.*\})$", item.signature[0]):
        return i
    signed = item.signature[0].endswith("{")
    while not signed:
        line = lines[i]
        if depth_of(line) == depth and line.lstrip().startswith("{"):
            if line.endswith("}"):
                return i + 1
            break
        i += 1
        bare = line.strip()
        if item.clauses or re.match(r"(requires|ensures)\b|//", bare) and depth_of(line) == depth + 4:
            item.clauses.append(line)
        else:
            item.signature.append(line)
            signed = line.endswith("{") and depth_of(line) == depth
        if bare.endswith(";") and (not item.clauses or sum(map(braces, item.clauses)) == 0):
            return i
        if not item.clauses and re.search(r"\{.*\}$", bare) and depth_of(line) == depth:
            return i
    if not signed:
        i += 1
    while lines[i] != " " * depth + "}":
        item.body.append(lines[i])
        i += 1
    return i


def braces(line):
    return line.count("{") - line.count("}")
