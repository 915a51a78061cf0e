"""Times the pins of a population, beside what comes before them.

Builds bench/pins/main.rt.in.
Makes the files `points`, `parts` and `referrers` of the bench `check`, with its schema that has a uniqueness rule and an
inverse attribute.
Prints how long it takes to read each, to make its population and the index of its inverse attributes, and to find its
pins; then the same for `points` twice as large.
"""
import os
import subprocess
import sys

from .. import bench
from .building import build
from .files import FILES, RULED_FILES, RULES, SCHEMA, replaced, write, write_text

SIZE, RUNS = 60, 5
DEPENDENCIES = ["population_pins", "merge_choices", "population_inverses", "population_reader", "typed_populations",
                "step_exchange", "schema_resolution", "schema_types", "schema_names", "express_reader",
                "express_syntax", "anyhow"]


def figures(program, folder, runs):
    """The least of each figure that the program prints, of some runs."""
    best = {}
    for _ in range(runs):
        text = subprocess.run([program], cwd=folder, stdout=subprocess.PIPE, text=True, check=True).stdout
        for line in text.splitlines():
            word, number = line.split()
            best[word] = min(best.get(word, int(number)), int(number))
    if "pins" not in best:
        sys.exit(f"the file has findings: {best}")
    return best


def rows(asked, folder):
    program, size = build(asked, folder, "pins", DEPENDENCIES), asked.size * 10**6
    write_text(os.path.join(folder, "schema.exp"), replaced(SCHEMA, RULES))
    points, parts, referrers = FILES["points"], FILES["parts"], RULED_FILES["referrers"]
    for name, texts in (("points", points(size)), ("points, twice", points(2 * size)), ("parts", parts(size // 6)),
                        ("referrers", referrers(size))):
        path = write(os.path.join(folder, "file.stp"), texts)
        best = figures(program, folder, asked.runs)
        yield name, {"MB": os.path.getsize(path) / 1e6, "instances": best["instances"], "pinned": best["pinned"],
                     "ms for reading": best["reading"], "ms for the population": best["population"],
                     "ms for inverse attributes": best["extents"], "ms for pins": best["pins"]}


def main(arguments):
    return bench.main(["pins", *arguments])
