"""Measures how much memory the rows of a population take.

Builds bench/rows/main.rt.in, which makes the rows of a file and frees everything except the texts of file and schema.
The file has points, directions and placements without names by examples/geo.exp, some 35 bytes an instance.
Prints the bytes that a row takes, beyond what the same program holds for a file without instances.
"""
import os
import shutil
import subprocess

from .. import bench
from ..repository import ROOT
from .building import build
from .files import instances, write

SIZE, RUNS = 20, 1
DEPENDENCIES = ["value_equality", "population_reader", "typed_populations", "step_exchange", "schema_resolution",
                "schema_types", "express_reader", "express_syntax", "anyhow"]


def placed(name, seed):
    """A point, a direction and a placement."""
    return [f"POINT(({seed % 977 * 0.125:.3f},{seed % 613 * -1.5:.1f},{seed % 89 * 0.25:.2f}));", "DIRECTION((0.,0.,1.));",
            f"PLACEMENT(#{name},#{name + 1});"]


def held(program, texts):
    """The number of rows of a file with these texts, and the bytes that are held for it."""
    write("file.stp", texts, "GEO")
    if not os.path.exists("wait"):
        os.mkfifo("wait")
    with subprocess.Popen([program], stdout=subprocess.PIPE, text=True) as process:
        rows = int(process.stdout.readline().split()[1])
        with open(f"/proc/{process.pid}/status", encoding="ascii") as status:
            kilobytes = next(int(line.split()[1]) for line in status if line.startswith("VmRSS:"))
        with open("wait", "wb"):
            pass
    return rows, kilobytes * 1024 - os.path.getsize("file.stp")


def rows(asked, folder):
    program = build(asked, folder, "rows", DEPENDENCIES)
    # The program reads schema.exp and file.stp of the current folder.
    os.chdir(folder)
    shutil.copy(os.path.join(ROOT, "examples", "geo.exp"), "schema.exp")
    _, before = held(program, [])
    count, bytes_held = held(program, instances(placed)(asked.size * 10**6))
    yield "points, directions, placements", {"rows": count, "bytes a row": (bytes_held - before) / count}


def main(arguments):
    return bench.main(["rows", *arguments])
