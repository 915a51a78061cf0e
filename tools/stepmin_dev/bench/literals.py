"""Times equality, order and hash of literals by value, beside a plain comparison of their bytes.

Builds bench/literals/main.rt.in over crates/step_literals, and runs it on literals shaped like those of real files.
Each literal comes in two spellings, so half of the neighbours are equal. Prints nanoseconds a literal.
"""
import os
import random
import subprocess

from .. import bench
from .building import build
from .files import write_text

SIZE, RUNS = None, 1
COUNT = 20000


def words(rng):
    for _ in range(COUNT):
        name = rng.choice(["CARTESIAN_POINT", "DIRECTION", "AXIS2_PLACEMENT_3D", "ORIENTED_EDGE"])
        yield name
        yield name.lower()


def numbers(rng):
    for _ in range(COUNT):
        value = rng.uniform(-500, 500)
        yield f"{value:.6f}"
        yield f"{value:.6f}0E0"


def long_numbers(rng):
    for _ in range(COUNT // 20):
        digits = "".join(rng.choice("0123456789") for _ in range(390))
        yield f"{digits}.E-999999"
        yield f"{digits}0.E-9999"


def strings(rng):
    for k in range(COUNT):
        yield f"'part no. {k}, made in {rng.choice(['Paris', 'Bern', 'Oslo'])}'"
        yield f"'caf\\X2\\00E9\\X0\\ {k}'"
        yield f"'caf\\X\\E9 {k}'"


def binaries(rng):
    for _ in range(COUNT):
        digits = "".join(rng.choice("0123456789ABCDEF") for _ in range(16))
        yield f'"0{digits}"'
        yield f'"0{digits.lower()}"'


def measure(program, folder, lines):
    """The nanoseconds of each kind of literal: kind, bytes, equality, order, hash."""
    write_text(os.path.join(folder, "literals.txt"), "\n".join(lines) + "\n")
    output = subprocess.run([program], cwd=folder, capture_output=True, text=True, check=True).stdout
    return [line.split() for line in output.splitlines()]


def rows(asked, folder):
    rng, program = random.Random(asked.seed), build(asked, folder, "literals", ["step_literals"])
    found = measure(program, folder, [*words(rng), *numbers(rng), *strings(rng), *binaries(rng)])
    found += [["long numbers", *row[1:]] for row in measure(program, folder, long_numbers(rng)) if row[0] == "numbers"]
    for kind, *times in found:
        yield kind, {label: float(time) for label, time in zip(("ns for bytes", "ns for ==", "ns for cmp", "ns for hash"), times)}


def main(arguments):
    return bench.main(["literals", *arguments])
