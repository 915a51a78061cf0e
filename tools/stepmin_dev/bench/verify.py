"""Times `stepmin verify` beside `stepmin shrink`, and on certificates that are made to be slow.

Shrinks files of the bench `shrink`, and verifies what was written.
Prints the time as a multiple of that of `shrink`, and the memory as a multiple of FILE and OUT.
Then four certificates for points of 40 bytes, which all differ, each beside the one that `shrink` wrote.
One names 2^32 - 1 rounds; one parts a point off a class at each round.
In one each class is the parent of the next; one parts each class in two halves at each round.
"""
import os

from .. import bench
from .files import ALL, FILES, LINKED, NODES, SCHEMA, write, write_text
from .timing import compared, run

SIZE, RUNS = 20, 5


def points(count):
    return [f"#{name}=POINT('',({name}.,0.));\n" for name in range(1, count + 1)]


def table(rounds, classes, members):
    return [f"rounds {rounds}\n", *classes, *(f"#{name + 1}=C{number}\n" for name, number in enumerate(members))]


def certificate(lines):
    return ["STEPCERT 2\n", "table 1\n", *lines, "table 2\n", *lines, "end\n"]


def hostile(count):
    """Maps names to certificates that hold for `count` points that all differ."""
    late = [f"C{c}=C0@4294967295\n" for c in range(1, count)]
    one_off = [f"C{c}=C0@{c}\n" for c in range(1, count)]
    parents = [f"C{c}=C{c - 1}@{c}\n" for c in range(1, count)]
    halves = [f"C{c}=C{c - (1 << c.bit_length() - 1)}@{c.bit_length()}\n" for c in range(1, count)]
    first = ["C0\n"]
    return {
        "2^32 - 1 rounds": certificate(table(2**32 - 1, first + late, range(count))),
        "one off at each round": certificate(table(count - 1, first + one_off, range(count))),
        "a chain of parents": certificate(table(count - 1, first + parents, range(count))),
        "halves at each round": certificate(table(count.bit_length(), first + halves, range(count))),
    }


def rows(asked, folder):
    path, out, own = (os.path.join(folder, it) for it in ("file.stp", "out.stp", "cert.txt"))
    schema, nodes = (write_text(os.path.join(folder, name), text) for name, text in (("bench.exp", SCHEMA), ("nodes.exp", NODES)))
    size = asked.size * 10**6

    def measured(texts, by, chosen):
        write(path, texts)
        words = [by, path, out, own, "--merge", chosen]
        return compared([asked.program, "verify", *words], "shrink", [asked.program, "shrink", *words], [path, out], asked.runs)

    plain, figures = measured(FILES["points"](size), schema, ALL)
    yield "points", figures
    yield "parts", measured(FILES["parts"](size // 2), schema, ALL)[1]
    yield "references", measured(FILES["references"](size), schema, ALL)[1]
    for name, make in LINKED.items():
        seconds, figures = measured(make(size), nodes, "NODE")
        yield name, {**figures, "times as long as points": seconds / plain}
    count = size // 40
    plain, _ = measured(points(count), schema, "POINT")
    for name, lines in hostile(count).items():
        claimed = write_text(os.path.join(folder, "claimed.txt"), "".join(lines))
        seconds = run([asked.program, "verify", schema, path, out, claimed, "--merge", "POINT"], asked.runs).seconds
        yield name, {"s": seconds, "times the own certificate": seconds / plain,
                     "times as long a certificate": os.path.getsize(claimed) / os.path.getsize(own)}


def main(arguments):
    return bench.main(["verify", *arguments])
