"""Times `Plain::from_rows` and `is_image` on large populations, beside an IndexSet of the same names.

Builds bench/images/main.rt.in over crates/value_equality.
Runs it on populations of points, placements and small bags, half of which are mapped to an equal one.
Prints nanoseconds a row, their ratio to those of an IndexSet that is filled with the names and asked for each, and how
many times as long ten times the rows take.
The last population is points and one pinned bag of all their names; --only rows leaves it out.
"""
import os
import random
import subprocess
import sys
import tempfile

from .. import bench
from .building import build

SIZE, RUNS = None, 5
STANDS_ON = ["value_equality", "step_values", "parsing", "step_literals", "indexmap", "anyhow"]
SHAPES = {"rows": ("tens", 1_000_000), "one bag of all": ("one_bag", 100_000)}


class Scene:
    """Two populations, with the map from the first to the second and the pinned names."""

    def __init__(self):
        self.p, self.q, self.map, self.pins = [], [], [], []

    def keep(self, name, text, image):
        """Adds a row to both, with its references mapped in the second."""
        self.p.append(f"{name} {text}")
        self.q.append(f"{name} {image}")
        self.map.append(f"{name} {name}")

    def merge(self, name, text, other):
        """Adds a row to the first alone, mapped to an equal one."""
        self.p.append(f"{name} {text}")
        self.map.append(f"{name} {other}")

    def write(self, folder):
        for file_name, lines in vars(self).items():
            with open(os.path.join(folder, f"{file_name}.txt"), "w", encoding="ascii") as file:
                file.writelines(line + "\n" for line in lines)


def points(scene, rng, name):
    """A point, and after it an equal one, spelled otherwise."""
    numbers = [f"{rng.uniform(-500, 500):.6f}" for _ in range(3)]
    text = "POINT ( " + " ".join(numbers)
    scene.keep(name, text, text)
    scene.merge(name + 1, "point ( " + " ".join(number + "0E0" for number in numbers), name)


def bag(names):
    return "BUNDLE { " + " ".join(f"#{name}" for name in names)


def ten(scene, rng, name, pinned):
    """Two pairs of points, a placement at each, and two equal bags, kept apart if the first is pinned."""
    points(scene, rng, name)
    points(scene, rng, name + 2)
    for k in (0, 2):
        placement = f"PLACEMENT = #{name + k}"
        scene.keep(name + 4 + k, placement, placement)
        scene.merge(name + 5 + k, f"PLACEMENT = #{name + k + 1}", name + 4 + k)
    image = bag([name + 2, name, name + 2, name])
    scene.keep(name + 8, bag([name, name + 1, name + 2, name + 3]), image)
    other = bag([name + 3, name + 1, name, name + 2])
    if pinned:
        scene.pins.append(f"{name + 8}")
        scene.keep(name + 9, other, image)
    else:
        scene.merge(name + 9, other, name + 8)


def tens(rows, seed):
    scene, rng = Scene(), random.Random(seed)
    for k in range(rows // 10):
        ten(scene, rng, 10 * k + 1, k % 10 == 0)
    return scene


def one_bag(count, seed):
    scene, rng = Scene(), random.Random(seed)
    for k in range(0, count, 2):
        points(scene, rng, k + 1)
    names = list(range(1, count + 1))
    leads = [name - (name + 1) % 2 for name in names]
    rng.shuffle(names)
    rng.shuffle(leads)
    scene.keep(count + 1, bag(names), bag(leads))
    scene.pins.append(f"{count + 1}")
    return scene


def place(folder, scene):
    """A folder with the scene's files, and the number of rows of its first population."""
    own = tempfile.mkdtemp(dir=folder)
    scene.write(own)
    return own, len(scene.p)


def run(program, folder):
    """The nanoseconds of each kind, in one run."""
    output = subprocess.run([program], cwd=folder, capture_output=True, text=True, check=True).stdout
    lines = [line.split() for line in output.splitlines()]
    if lines[-1] != ["is_image", lines[-1][1], "true"]:
        sys.exit("the map is an image, and the program says that it is none")
    return {kind: int(nanoseconds) for kind, nanoseconds, _ in lines}


def best(runs):
    return {kind: min(run[kind] for run in runs) for kind in runs[0]}


def rows(asked, folder):
    program = build(asked, folder, "images", STANDS_ON)
    for title, (make, most) in SHAPES.items():
        if asked.only not in title:
            continue
        places = [place(folder, globals()[make](count, asked.seed)) for count in (most // 10, most)]
        # Both sizes run in turn, so that other work on the machine slows both.
        rounds = [[run(program, own) for own, _ in places] for _ in range(asked.runs)]
        few, many = (best(runs) for runs in zip(*rounds))
        for (_, count), time in zip(places, (few, many)):
            figures = {"rows": count, **{f"ns a row, {kind}": time[kind] / count for kind in ("names", "from_rows", "is_image")}}
            figures |= {f"times names, {kind}": time[kind] / time["names"] for kind in ("from_rows", "is_image")}
            if time is many:
                figures |= {f"times as long, {kind}": many[kind] / few[kind] for kind in ("names", "from_rows", "is_image")}
            yield title, figures


def main(arguments):
    return bench.main(["images", *arguments])
