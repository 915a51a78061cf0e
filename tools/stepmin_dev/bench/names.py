"""Times `stepmin plain` on names that are chosen to be slow to find, beside as many others.

Builds bench/names/main.rt.in, which finds names that a hash with a fixed seed puts into one place of a table.
That is the hash of the toolchain's maps if no hasher is named.
Makes one file with these names, and one with others from the same range; the names fall, so each is looked up.
The ratio is near 1 if the author of a file can't know how names are hashed.
"""
import os
import random
import subprocess

from .. import bench
from .building import build
from .files import write, write_text
from .timing import run

SIZE, RUNS = 4, 3
BYTES = 14


def rows(asked, folder):
    program, count = build(asked, folder, "names", []), asked.size * 10**6 // BYTES
    write_text(os.path.join(folder, "count.txt"), f"{count}\n")
    output = subprocess.run([program], cwd=folder, capture_output=True, text=True, check=True).stdout
    chosen, before = [int(line) for line in output.splitlines()], None
    others = random.Random(asked.seed).sample(range(min(chosen), max(chosen)), count)
    for kind, some in (("others", others), ("chosen", chosen)):
        path = write(os.path.join(folder, "file.stp"), (f"#{name}=A();\n" for name in sorted(some, reverse=True)), "GEO")
        seconds = run([asked.program, "plain", path], asked.runs).seconds
        yield kind, {"s": seconds, "instances": count, **({"times the others": seconds / before} if before else {})}
        before = seconds


def main(arguments):
    return bench.main(["names", *arguments])
