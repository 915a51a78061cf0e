"""Times `stepmin shrink` on large files, beside `stepmin check` on the same files.

Prints the time as a multiple of that of `check`, the memory as a multiple of the file, and how many instances are kept.

The files: `points` and `parts` of the bench `check`, with all entities chosen; `points` also by the schemas with rules
of the population and with domain rules, and twice as large.
`parts` also with points, directions and placements chosen, as users do.
`plates` is the plate of examples/ over and over, by its schema, with the same choice.
`numbers`, `references`, `referrers` and `words` are those of the bench `check`.
Nodes that refer to each other: a `cycle`, whose nodes become one; a `chain` that is parted one node a round, from its
end; and a `reversed chain`, whose nodes come in the other order.
"""
import os
import re
import subprocess

from .. import bench
from ..repository import ROOT
from .files import (ALL, DOMAIN_RULES, FILES, LINKED, NODES, RULED_FILES, RULES, SCHEMA, USUAL, plates, replaced, write,
                    write_text)
from .timing import compared

SIZE, RUNS = 20, 5
SCHEMAS = {"": SCHEMA, "rules of the population": replaced(SCHEMA, RULES), "domain rules": replaced(SCHEMA, DOMAIN_RULES),
           "nodes": NODES}


def rows(asked, folder):
    path, out, certificate = (os.path.join(folder, it) for it in ("file.stp", "out.stp", "cert.txt"))
    paths = {what: write_text(os.path.join(folder, f"schema{k}.exp"), text) for k, (what, text) in enumerate(SCHEMAS.items())}
    size = asked.size * 10**6

    def measured(texts, schema, chosen=ALL, name="BENCH"):
        write(path, texts, name)
        words = [asked.program, "shrink", schema, path, out, certificate, "--merge", chosen]
        seconds, figures = compared(words, "check", [asked.program, "check", schema, path], [path], asked.runs)
        said = subprocess.run(words, stdout=subprocess.PIPE, text=True, check=True).stdout
        return seconds, {**figures, "kept": int(re.search(r"^kept (\d+)$", said, re.M)[1])}

    points, figures = measured(FILES["points"](size), paths[""])
    yield "points", figures
    twice, figures = measured(FILES["points"](2 * size), paths[""])
    yield "points", {**figures, "times as long for twice the size": twice / points}
    for what in ("rules of the population", "domain rules"):
        yield f"points with {what}", measured(FILES["points"](size), paths[what])[1]
    yield "parts", measured(FILES["parts"](size // 2), paths[""])[1]
    yield "parts, the usual choice", measured(FILES["parts"](size // 2), paths[""], USUAL)[1]
    yield "plates", measured(plates(size // 2), os.path.join(ROOT, "examples", "geo.exp"), USUAL, "GEO")[1]
    for name in ("numbers", "references"):
        yield name, measured(FILES[name](size), paths[""])[1]
    for name in ("referrers", "words"):
        yield name, measured(RULED_FILES[name](size), paths["rules of the population"])[1]
    for name, make in LINKED.items():
        seconds, figures = measured(make(size), paths["nodes"], "NODE")
        yield name, {**figures, "times as long as points": seconds / points}


def main(arguments):
    return bench.main(["shrink", *arguments])
