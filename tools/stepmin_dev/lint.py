"""Checks pages and sources in a few seconds, without a proof.

    tools/dev lint [--lower]

It fails over

- pages: too many words, lines of more than 60 words, names of crates, files and functions that don't exist, links that lead
  nowhere;
- comments: public items without a docstring, comments that begin with `..`;
- contracts: clause lines of more than 100 columns, contracts of more than 600 characters;
- functions of more than six parameters or 40 lines, files of more than 800 lines;
- names: one that several modules behind the program's run define, except for a definition of exchange files, its twin for
  schemas, and the theory of both;
- crates: `verifying` must not stand on a crate that has a function `refine`.

Each fault is one line, FILE:LINE: what. Code that is over a limit has a limit of its own in lint_limits.json. That table may
only fall: the command also fails if the code needs less than the table allows. --lower then lowers the table, or makes one
if there is none.
"""
import argparse
import json
import os
import re
import sys

from . import lint_code, lint_pages
from .sources import lines_of, relative

TABLE = os.path.join(os.path.dirname(os.path.abspath(__file__)), "lint_limits.json")


def table():
    """Returns the limits of single functions, files and names, by kind; `None` if there is no table."""
    if not os.path.exists(TABLE):
        return None
    with open(TABLE, encoding="utf-8") as file:
        return json.load(file)


def code_faults(measures, limits):
    """Returns what is over its limit, and what is below its limit in the table."""
    found = []
    for (kind, key), it in measures.items():
        general, said = lint_code.KINDS[kind]
        most = max(general, limits.get(kind, {}).get(key, 0))
        if it.number > most:
            name = key.split(" ")[-1]
            of = "" if name.startswith(it.place.split(":")[0]) else f"`{name}` "
            found.append((it.place.split(":")[0], int(it.place.split(":")[1]), f"{it.place}: {of}{said.format(number=it.number, most=most)}"))
    found = [it[-1] for it in sorted(found)]
    return found + table_faults(measures) if limits else found


def table_faults(measures):
    """Returns the entries of the table that are higher than the code needs."""
    found, kind = [], ""
    for number, line in enumerate(lines_of(TABLE), 1):
        entry = re.match(r'( +)("(?:[^"\\]|\\.)*"): (\{|(\d+))', line)
        if not entry:
            continue
        name = json.loads(entry[2])
        if entry[3] == "{":
            kind = name
        elif needed(measures, kind, name) < int(entry[4]):
            today = needed(measures, kind, name)
            found.append(f"{relative(TABLE)}:{number}: lower the limit: {name} needs {today or 'none'}, not {entry[4]} ({kind})")
    return found


def needed(measures, kind, key):
    """Returns the entry of the table that the code needs; 0 if it is within the general limit."""
    it = measures.get((kind, key))
    return it.number if it and it.number > lint_code.KINDS[kind][0] else 0


def lowered(measures, limits):
    """Returns the table with each entry as low as the code allows; all that is over a limit if there is no table."""
    if limits is None:
        limits = {}
        for kind, key in measures:
            limits.setdefault(kind, {})[key] = needed(measures, kind, key)
    found = {}
    for kind in lint_code.KINDS:
        entries = {key: min(number, needed(measures, kind, key)) for key, number in limits.get(kind, {}).items()}
        found[kind] = {key: number for key, number in sorted(entries.items()) if number}
    return found


def main(arguments):
    parser = argparse.ArgumentParser(prog="tools/dev lint", description=__doc__, formatter_class=argparse.RawDescriptionHelpFormatter)
    parser.add_argument("--lower", action="store_true", help="lower the limits of the table to what the code needs")
    options = parser.parse_args(arguments)
    measures, limits = lint_code.measures(), table()
    if options.lower:
        limits = lowered(measures, limits)
        with open(TABLE, "w", encoding="utf-8") as file:
            file.write(json.dumps(limits, indent=1, ensure_ascii=False) + "\n")
    found = lint_pages.faults() + code_faults(measures, limits or {}) + list(lint_code.refiners())
    for line in found:
        print(line)
    return 1 if found else 0


if __name__ == "__main__":
    sys.exit(main(sys.argv[1:]))
