"""Times `resolve` on large schemas, beside `read_schema` on the same files.

Builds bench/resolving/main.rt.in and bench/schemas/main.rt.in.
Makes a schema and one twice as large, of entities with supertypes 12 deep, and runs both programs on each.
Prints what resolving takes beyond reading, as a multiple of reading.
"""
import os
import sys

from .. import bench
from .building import build
from .schemas import declarations
from .timing import run

SIZE, RUNS = 2, 5
DEPTH = 12
REMARK = "(* " + "An entity of a schema for the bench. " * 8 + "*)\n"


def entity(number):
    """An entity with a defined type; with SELF\\ and an inverse attribute if it has a supertype."""
    place = number % DEPTH
    above = number - 1
    subtype = f"\n  SUBTYPE OF (item_{above})" if place else ""
    redeclared = f"  SELF\\item_{above}.size_{above} : size_{number};\n" if place else ""
    inverse = f"INVERSE\n  users_{number} : SET [0:?] OF item_{number} FOR next_{above};\n" if place else ""
    attributes = "".join(f"  value_{number}_{i} : LIST [1:3] OF size_{number};\n" for i in range(8))
    return f"""{REMARK}TYPE size_{number} = REAL;
END_TYPE;

ENTITY item_{number}{subtype};
{redeclared}  size_{number} : size_{number};
  next_{number} : OPTIONAL item_{number};
{attributes}DERIVE
  half_{number} : REAL := 0.5 * size_{number};
{inverse}WHERE
  wr1 : half_{number} > 0.0;
END_ENTITY;

"""


def make(path, size):
    with open(path, "w", encoding="ascii") as file:
        file.write("SCHEMA bench;\n\n")
        written, number = 0, 0
        while written < size:
            text = entity(number)
            file.write(text)
            written += len(text)
            number += 1
        file.write("END_SCHEMA;\n")
    return 2 * number


def rows(asked, folder):
    reads = build(asked, folder, "schemas", ["express_reader", "anyhow"])
    resolves = build(asked, folder, "resolving", ["schema_resolution", "express_reader", "anyhow"])
    # The programs read schema.exp of the current folder.
    os.chdir(folder)
    before = None
    for factor in (1, 2):
        count = make("schema.exp", factor * asked.size * 10**6)
        found = declarations(resolves, folder)
        if found != str(count):
            sys.exit(f"{count} declarations are resolved as {found}")
        length = os.path.getsize("schema.exp")
        read, both = run([reads], asked.runs).seconds, run([resolves], asked.runs)
        taken = both.seconds - read
        yield f"{count:,} declarations", {
            "MB": length / 1e6, "ms": taken * 1000, "times read_schema": taken / read, "ms of read_schema": read * 1000,
            "times the file in memory": both.memory / length,
            **({"times as long for twice the size": taken / before} if before else {})}
        before = taken


def main(arguments):
    return bench.main(["resolving", *arguments])
