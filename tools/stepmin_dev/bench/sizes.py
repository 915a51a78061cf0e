"""Times `stepmin plain`, `check`, `shrink` and `verify` on files of growing size, for a plot of time by size.

The file is `parts` of the bench `check`, with points, directions and placements chosen.
It is made five times: each is twice as large as the one before, and the last one has SIZE MB.
With --write docs/sizes.svg is drawn, too.
"""
import os

from .. import bench
from . import plot
from .files import FILES, SCHEMA, USUAL, write, write_text
from .timing import run

SIZE, RUNS = 32, 3
FILE_COUNT = 5
COMMANDS = ("plain", "check", "shrink", "verify")


def rows(asked, folder):
    path, out, certificate = (os.path.join(folder, it) for it in ("file.stp", "out.stp", "cert.txt"))
    schema = write_text(os.path.join(folder, "bench.exp"), SCHEMA)
    merge = [schema, path, out, certificate, "--merge", USUAL]
    arguments = {"plain": [path], "check": [schema, path], "shrink": merge, "verify": merge}
    for halvings in reversed(range(FILE_COUNT)):
        write(path, FILES["parts"](asked.size * 10**6 >> halvings))
        seconds = {f"s of {it}": run([asked.program, it, *arguments[it]], asked.runs).seconds for it in COMMANDS}
        yield "parts", {"MB": os.path.getsize(path) / 1e6, **seconds}


def drawn(measured):
    """The plot of what `rows` has measured, as SVG."""
    lines = {it: [(figures["MB"], figures[f"s of {it}"]) for _, figures in measured] for it in COMMANDS}
    return plot.drawn("Time by size of the file, both logarithmic", "MB", "seconds", lines)


def main(arguments):
    return bench.main(["sizes", *arguments])
