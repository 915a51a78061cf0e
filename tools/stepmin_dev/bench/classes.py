"""Times `refine` on large populations, beside a sort of as many pairs of numbers of 64 bits.

Builds bench/classes/main.rt.in over crates/merge_classes.
Runs it on populations of each shape, of half as many rows and of all.
Prints how many sorts `refine` takes, and how many times as long it takes for twice the rows.
By valgrind it also prints how many bytes of memory `refine` takes for each row, beside the rows.

The shapes: `real`, 1.3 million points, directions and placements.
`chain` and `reversed`, 10^6 rows that refer to the row before, and to the row after.
`random`, 10^6 rows with two drawn references each; `wide`, a chain with one more row that refers to all.
"""
import os
import re
import subprocess

from .. import bench
from .building import build

SIZE, RUNS = None, 5
STANDS_ON = ["merge_classes", "value_equality", "step_values", "step_literals", "anyhow"]
SHAPES = {"real": 1_300_000, "chain": 1_000_000, "reversed": 1_000_000, "random": 1_000_000, "wide": 1_000_000}


def run(program, folder, task):
    """The nanoseconds that the program prints, by what took them."""
    with open(os.path.join(folder, "task.txt"), "w", encoding="ascii") as file:
        file.write(task)
    said = subprocess.run([program], cwd=folder, stdout=subprocess.PIPE, text=True, check=True).stdout
    return {line.split()[0]: int(line.split()[1]) for line in said.splitlines()}


def best(program, folder, task, count):
    """The nanoseconds of each kind at the best of `count` runs."""
    runs = [run(program, folder, task) for _ in range(count)]
    return {kind: min(it[kind] for it in runs) for kind in runs[0]}


def memory(program, folder, task):
    """The peak of bytes that `refine` takes, beyond those before it."""
    with open(os.path.join(folder, "task.txt"), "w", encoding="ascii") as file:
        file.write(task)
    words = ["--tool=massif", "--massif-out-file=massif.txt", "--detailed-freq=1", "--max-snapshots=200"]
    subprocess.run(["valgrind", "-q", *words, program], cwd=folder, stdout=subprocess.DEVNULL, check=True)
    with open(os.path.join(folder, "massif.txt"), encoding="ascii") as file:
        parts = file.read().split("\nsnapshot=")[1:]
    held = [(int(re.search(r"mem_heap_B=(\d+)", part)[1]), "time_refine" in part) for part in parts]
    first = next(at for at, (_, refines) in enumerate(held) if refines)
    return max(size for size, refines in held if refines) - held[first - 1][0]


def rows(asked, folder):
    program, real = build(asked, folder, "classes", STANDS_ON), None
    for shape, count in SHAPES.items():
        half, whole = (best(program, folder, f"{shape} {it}", asked.runs) for it in (count // 2, count))
        real = real or whole["refine"]
        yield shape, {"rows": count, "s": whole["refine"] / 1e9, "sorts": whole["refine"] / whole["sort"],
                      "times as long as real": whole["refine"] / real,
                      "times as long for twice the rows": whole["refine"] / half["refine"],
                      "bytes a row": memory(program, folder, f"{shape} {count}") / count}


def main(arguments):
    return bench.main(["classes", *arguments])
