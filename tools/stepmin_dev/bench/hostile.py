"""Times the commands on schemas and files that are made to be slow.

Makes each shape in a size, twice that and four times that, and runs `check`, `shrink` and `verify`.
Two runs of `shrink` choose entities by `--merge`: one all of the schema, one only the first.
`verify` takes what `shrink` wrote with all chosen.
Prints the seconds of processor time, how many times as long twice the size takes, and the memory as a multiple of
schema and file.
Twice the size should take at most 2.5 times as long, and 4.5 times if all supertypes of each instance are listed.
If it takes longer, the aim is printed too.
Less than 20 ms isn't distinguished from the start of the program, so no ratio is printed.
What takes ten seconds runs once, and isn't tried twice as large. --only WORD takes the shapes with WORD in their names.

Shapes of schemas:
chains of types with a rule each, and as many types without a chain;
chains of subtypes with an instance each, also declared backwards, with a UNIQUE rule each, with derived attributes, and
with many instances whose rule asks the last;
instances of two chains of subtypes at once;
chains of derived redeclarations, and an instance of the last;
an enumeration and a value for each item; a UNIQUE rule of many attributes; many inverse attributes of one entity;
types of types; SELECTs of SELECTs; instances of many combinations of types;
derived attributes that use the one before twice, and a rule that asks many that use others.

Shapes of files, under a UNIQUE rule:
numbers that differ by multiples of 2^64; strings of codes that can be cut into two in many ways.
"""
import os
import random
import re

from .. import bench
from .files import write, write_text
from .timing import run

SIZE, RUNS = None, 3
TOO_SHORT, TOO_LONG = 0.02, 10


def schema(body):
    return "SCHEMA bench;\n" + body + "END_SCHEMA;\n"


def lines(count, line):
    return "".join(line(k) for k in range(count))


def instances(count, line):
    return "".join(f"#{k + 1}={line(k)};\n" for k in range(count))


def chain_of_types(n):
    rule = "WHERE w : SELF > 0; END_TYPE;\n"
    body = lines(n, lambda k: f"TYPE t{k} = {f't{k - 1}' if k else 'INTEGER'}; {rule}")
    return schema(body + f"ENTITY e; a : t{n - 1}; END_ENTITY;\n"), instances(1, lambda _: "E(1)")


def flat_types(n):
    body = lines(n, lambda k: f"TYPE t{k} = INTEGER; WHERE w : SELF > 0; END_TYPE;\n")
    return schema(body + "ENTITY e; a : t0; END_ENTITY;\n"), instances(1, lambda _: "E(1)")


def chain_of_subtypes(n):
    body = lines(n, lambda k: f"ENTITY e{k}{f' SUBTYPE OF (e{k - 1})' if k else ''}; END_ENTITY;\n")
    return schema(body), instances(n, lambda k: f"E{k}()")


def backward_chain(n):
    """A chain of subtypes, each declared before its supertype, with an instance each."""
    body = lines(n, lambda k: f"ENTITY e{k}{f' SUBTYPE OF (e{k + 1})' if k + 1 < n else ''}; END_ENTITY;\n")
    return schema(body), instances(n, lambda k: f"E{k}()")


def unique_rules(n):
    """A chain of subtypes with an attribute, a UNIQUE rule and an instance each."""
    top = "ENTITY e0; a0 : INTEGER; UNIQUE u : a0; END_ENTITY;\n"
    body = lines(n, lambda k: f"ENTITY e{k + 1} SUBTYPE OF (e{k}); a{k + 1} : INTEGER; UNIQUE u : a{k + 1}; END_ENTITY;\n")
    return schema(top + body), instances(n, lambda k: f"E{k}({','.join([str(k + 1)] * (k + 1))})")


def two_chains(n):
    """Twenty instances that have all types of two chains of subtypes."""
    chain = [lines(n, lambda k, letter=letter: f"ENTITY {letter}{k} SUBTYPE OF ({f'{letter}{k - 1}' if k else 'e'}); END_ENTITY;\n")
             for letter in "fg"]
    names = sorted(f"{letter}{k}" for k in range(n) for letter in "FG")
    return schema("ENTITY e; END_ENTITY;\n" + "".join(chain)), instances(20, lambda _: "(E()" + "".join(f"{it}()" for it in names) + ")")


def redeclarations(n):
    top = "ENTITY e0; a : INTEGER; END_ENTITY;\n"
    body = lines(n, lambda k: f"ENTITY e{k + 1} SUBTYPE OF (e{k}); DERIVE SELF\\e{k}.a : INTEGER := 1; END_ENTITY;\n")
    return schema(top + body), instances(1, lambda _: "E0(1)")


def instance_of_redeclarations(n):
    """A chain of derived redeclarations, with a rule and an instance of the last entity."""
    top = "ENTITY e0; a : NUMBER; WHERE w : a > 0; END_ENTITY;\n"
    body = lines(n, lambda k: f"ENTITY e{k + 1} SUBTYPE OF (e{k}); DERIVE SELF\\e{k}.a : NUMBER := {k + 1}; END_ENTITY;\n")
    return schema(top + body), instances(1, lambda _: f"E{n}(*)")


def chain_of_derived(n):
    """A chain of subtypes with a derived attribute and an instance each, and a rule at the top."""
    top = "ENTITY e0; a : INTEGER; DERIVE d0 : INTEGER := a; WHERE w : a > 0; END_ENTITY;\n"
    body = lines(n, lambda k: f"ENTITY e{k + 1} SUBTYPE OF (e{k}); DERIVE d{k + 1} : INTEGER := a; END_ENTITY;\n")
    return schema(top + body), instances(n, lambda k: f"E{k}(1)")


def asked_often(n):
    """A chain of subtypes, and one instance of the last that the rule of each other instance asks."""
    top = f"ENTITY e0; a : INTEGER; DERIVE {lines(200, lambda k: f'd{k} : INTEGER := a; ')}END_ENTITY;\n"
    body = lines(n, lambda k: f"ENTITY e{k + 1} SUBTYPE OF (e{k}); END_ENTITY;\n")
    asking = "ENTITY r; p : e0; WHERE w : p.a > 0; END_ENTITY;\n"
    return schema(top + body + asking), instances(10 * n, lambda k: "R(#1)" if k else f"E{n}(1)")


def enumeration(n):
    items = ", ".join(f"item{k}" for k in range(n))
    body = f"TYPE t = ENUMERATION OF ({items}); END_TYPE;\nENTITY e; a : t; END_ENTITY;\n"
    return schema(body), instances(n, lambda k: f"E(.ITEM{k}.)")


def unique_of_many(n):
    body = lines(n, lambda k: f"a{k} : INTEGER; ")
    rule = ", ".join(f"a{k}" for k in range(n))
    values = ",".join("1" for _ in range(n))
    return schema(f"ENTITY e; {body}UNIQUE u : {rule}; END_ENTITY;\n"), instances(1, lambda _: f"E({values})")


def inverses(n):
    body = lines(n, lambda k: f"i{k} : SET [0:?] OF f FOR a{k}; ")
    attributes = lines(n, lambda k: f"a{k} : e; ")
    return schema(f"ENTITY e; INVERSE {body}END_ENTITY;\nENTITY f; {attributes}END_ENTITY;\n"), instances(1, lambda _: "E()")


def types_of_types(n):
    body = lines(n, lambda k: f"TYPE t{k} = {f't{k - 1}' if k else 'INTEGER'}; END_TYPE;\n")
    return schema(body + lines(n, lambda k: f"ENTITY e{k}; a : t{k}; END_ENTITY;\n")), instances(n, lambda k: f"E{k}(1)")


def selects(n):
    top = "ENTITY e; END_ENTITY;\n"
    body = lines(n, lambda k: f"TYPE t{k} = SELECT ({f't{k - 1}' if k else 'e'}); END_TYPE;\n")
    return schema(top + body + f"ENTITY f; a : t{n - 1}; END_ENTITY;\n"), "#1=E();\n#2=F(#1);\n"


def combinations(n):
    """Instances of half of 150 entities each, drawn, with five attributes in each record."""
    drawn = random.Random(1)
    attributes = [" ".join(f"a{k}_{i} : INTEGER;" for i in range(5)) for k in range(150)]
    body = "ENTITY e; END_ENTITY;\n"
    body += lines(150, lambda k: f"ENTITY s{k} SUBTYPE OF (e); {attributes[k]} END_ENTITY;\n")

    def records(_):
        names = sorted(f"S{k}" for k in drawn.sample(range(150), 75))
        return "(E()" + "".join(f"{name}(1,2,3,4,5)" for name in names) + ")"

    return schema(body), instances(n, records)


def derived_twice(n):
    body = lines(n, lambda k: f"d{k + 1} : LOGICAL := d{k} AND d{k};\n")
    whole = f"ENTITY e; a : LOGICAL; DERIVE d0 : LOGICAL := a;\n{body}WHERE w : d{n}; END_ENTITY;\n"
    return schema(whole), instances(1, lambda _: "E(.T.)")


def derived_beside(n):
    """Of n derived attributes each uses another one, six deep, and a rule asks all of them."""
    chain = [lambda k: f"c{k}_0 : LOGICAL := a;\n"]
    chain += [lambda k, rank=rank: f"c{k}_{rank} : LOGICAL := c{k}_{rank - 1};\n" for rank in range(1, 6)]
    body = lines(n, lambda k: "".join(line(k) for line in chain))
    rule = " AND ".join(f"c{k}_5" for k in range(n))
    return schema(f"ENTITY e; a : LOGICAL; DERIVE\n{body}WHERE w : {rule}; END_ENTITY;\n"), instances(1, lambda _: "E(.T.)")


def numbers(n):
    body = "ENTITY e; a : REAL; UNIQUE u : a; END_ENTITY;\nENTITY p; a : REAL; END_ENTITY;\n"
    return schema(body), instances(n, lambda k: f"{'EP'[k % 2]}({k * 2 ** 64}.)")


def strings(n):
    """Lists of eight strings, which together have the same codes, cut at other places."""
    body = "ENTITY e; a : LIST OF STRING; UNIQUE u : a; END_ENTITY;\nENTITY p; a : LIST OF STRING; END_ENTITY;\n"

    def cut(k):
        parts = []
        for _ in range(7):
            parts.append(k % 7)
            k //= 7
        parts.append(42 - sum(parts))
        return ",".join("'" + (f"\\X4\\{'03FF03FF' * part}\\X0\\" if part else "") + "'" for part in parts)

    return schema(body), instances(n, lambda k: f"{'EP'[k % 2]}(({cut(k // 2)}))")


LINEAR, LISTING = 2.5, 4.5
# Maps names of shapes to their makers, sizes, and how many times as long twice the size may take.
SHAPES = {
    "chain of types with rules": (chain_of_types, 250, LINEAR),
    "types with rules": (flat_types, 2500, LINEAR),
    "chain of subtypes": (chain_of_subtypes, 1000, LISTING),
    "chain declared backwards": (backward_chain, 1000, LISTING),
    "chain with UNIQUE rules": (unique_rules, 100, LISTING),
    "two chains at once": (two_chains, 250, LISTING),
    "chain of redeclarations": (redeclarations, 250, LISTING),
    "instance of redeclarations": (instance_of_redeclarations, 250, LISTING),
    "chain of derived attributes": (chain_of_derived, 250, LISTING),
    "last of a chain, asked often": (asked_often, 500, LISTING),
    "enumeration": (enumeration, 25000, LINEAR),
    "UNIQUE of many attributes": (unique_of_many, 5000, LINEAR),
    "inverse attributes": (inverses, 2500, LINEAR),
    "types of types": (types_of_types, 2500, LINEAR),
    "SELECTs of SELECTs": (selects, 2500, LINEAR),
    "combinations of types": (combinations, 250, LINEAR),
    "derived twice": (derived_twice, 1000, LINEAR),
    "derived side by side": (derived_beside, 250, LINEAR),
    "numbers apart by 2^64": (numbers, 25000, LINEAR),
    "strings cut in many ways": (strings, 10000, LINEAR),
}
COMMANDS = ("check", "shrink, all chosen", "shrink, one chosen", "verify")


def words_of(program, command, paths, entities):
    """The words that run a command on schema and file, and on what `shrink` writes."""
    if command == "check":
        return [program, command, *paths[:2]]
    chosen = entities[:1] if command == "shrink, one chosen" else entities
    return [program, command.partition(",")[0], *paths, "--merge", ",".join(chosen)]


def timed(asked, paths, command, shape):
    """Writes schema and file, and runs a command."""
    text, data = shape
    write_text(paths[0], text)
    write(paths[1], [data])
    entities = re.findall(r"^ENTITY (\w+)", text, re.M)
    if command == "verify":
        run(words_of(asked.program, COMMANDS[1], paths, entities), 1)
    return run(words_of(asked.program, command, paths, entities), asked.runs, enough=TOO_LONG)


def rows_of(asked, paths, name, command):
    """The figures of a shape under a command, size by size."""
    make, size, aim = SHAPES[name]
    before = None
    for count in (size, 2 * size, 4 * size):
        found = timed(asked, paths, command, make(count))
        figures = {"s": found.processor}
        if before and before > TOO_SHORT:
            figures["times as long for twice the size"] = found.processor / before
            if found.processor > aim * before:
                figures["times aimed at"] = aim
        figures["times both texts in memory"] = found.memory / sum(map(os.path.getsize, paths[:2]))
        yield f"{name}, {command}, {count:,}", figures
        before = found.processor
        if before > TOO_LONG:
            break


def rows(asked, folder):
    paths = [os.path.join(folder, it) for it in ("schema.exp", "file.stp", "out.stp", "cert.txt")]
    for name in SHAPES:
        for command in COMMANDS if asked.only in name else ():
            yield from rows_of(asked, paths, name, command)


def main(arguments):
    return bench.main(["hostile", *arguments])
