"""Draws populations, and compares what `stepmin shrink` and `stepmin verify` say of them with the definition.

Draws small files that conform to a schema with SETs, LISTs OF UNIQUE, a uniqueness rule and an inverse attribute,
and which entities are merged, with `--in-sets` or without.
OUT and CERT of `shrink` have to be those that a few lines of Python find by comparing all pairs in every round.
`verify` has to accept them.
Then a table of the certificate, or the output, is changed at random.
`verify` has to accept or refuse as the definition does, and name the first fault.
Prints how often each answer was given.

Status: 0 if all is as the definition says; otherwise 1, with the files of the first that isn't.
"""
import collections
import os
import random
import subprocess
import tempfile

from ..options import parser_of, program_of

SCHEMA = """SCHEMA drawn;
ENTITY node; size : REAL; one : OPTIONAL node; two : OPTIONAL node; INVERSE marks : SET OF mark FOR at; END_ENTITY;
ENTITY knot SUBTYPE OF (node); END_ENTITY;
ENTITY bundle; members : SET OF node; END_ENTITY;
ENTITY ring; corners : LIST OF UNIQUE node; END_ENTITY;
ENTITY mark; at : node; END_ENTITY;
ENTITY label; at : node; UNIQUE only : at; END_ENTITY;
END_SCHEMA;
"""
HEADER = """ISO-10303-21;
HEADER;
FILE_DESCRIPTION((''),'2;1');
FILE_NAME('','',(''),(''),'','','');
FILE_SCHEMA(('DRAWN'));
ENDSEC;
DATA;
"""
FOOTER = "ENDSEC;\nEND-ISO-10303-21;\n"
SIZES = {"1.": 1, "1.0": 1, "0.1E1": 1, "2.": 2, "20.E-1": 2}

# A row has its entity and its values: the spelling of a number, if any, names, and a list of names.
Row = collections.namedtuple("Row", "entity size links members")
# A choice has the entities that are merged, and whether what stands alone in a SET may be merged.
Choice = collections.namedtuple("Choice", "entities in_sets")
# A table has its last round, for each class its parent and round, if any, and the class of each name.
Table = collections.namedtuple("Table", "rounds origins members")


def drawn(rng):
    """Rows by name."""
    names = sorted(rng.sample(range(1, 40), rng.randint(1, 9)))
    sizes = rng.sample(sorted(SIZES), rng.choice([1, 1, 2, 3, 5]))
    rows = {name: Row(rng.choice(["NODE", "NODE", "KNOT"]), rng.choice(sizes),
                      [rng.choice([None, None, rng.choice(names)]) for _ in range(2)], [])
            for name in names}
    for name in rng.sample(range(40, 50), rng.choice([0, 1, 2, 3])):
        members = rng.sample(names, min(rng.choice([0, 1, 1, 1, 2, 3, 4]), len(names)))
        rows[name] = Row(rng.choice(["BUNDLE", "RING"]), None, [], members)
    for name in rng.sample(range(50, 55), rng.choice([0, 0, 0, 1, 2])):
        rows[name] = Row("MARK", None, [rng.choice(names)], [])
    for name, it in zip(range(55, 60), rng.sample(names, min(len(names), rng.choice([0, 0, 0, 1, 2])))):
        rows[name] = Row("LABEL", None, [it], [])
    order = list(rows.items())
    rng.shuffle(order)
    return dict(order)


def text(rows):
    def link(name):
        return "$" if name is None else f"#{name}"

    def line(name, row):
        listed = ["(" + ",".join(map(link, row.members)) + ")"] if row.entity in ("BUNDLE", "RING") else []
        values = [*filter(None, [row.size]), *map(link, row.links), *listed]
        return f"#{name}={row.entity}({','.join(values)});\n"

    return HEADER + "".join(line(name, row) for name, row in rows.items()) + FOOTER


def choice_drawn(rng):
    return Choice(["NODE", "KNOT", *rng.choice([[], ["BUNDLE"]])], rng.random() < 0.5)


def weak_pins(rows, choice):
    spared = 1 if choice.in_sets else 0
    held = {it for row in rows.values() if row.entity == "BUNDLE" and len(row.members) > spared for it in row.members}
    held |= {it for row in rows.values() if row.entity in ("MARK", "LABEL") for it in row.links}
    return held | {name for name, row in rows.items() if row.entity not in choice.entities}


def gentle_pins(rows, weak, table):
    def equals(row):
        classes = [table.members.get(it) for it in row.members]
        return {it for it in row.members if classes.count(table.members.get(it)) > 1}

    return weak.union(*(equals(row) for row in rows.values() if row.entity == "RING"))


def kind(rows, pins, name):
    return rows[name].entity, name in pins and name


def signature(rows, pins, classes, name):
    """A key that two rows share if and only if their values agree under these classes."""
    def stands_for(it):
        return it is not None and ((True, it) if it in pins else (False, classes[it]))

    row = rows[name]
    is_crowd = row.entity == "BUNDLE" and len(row.members) > 1
    members = sorted(row.members) if is_crowd else map(stands_for, row.members)
    return SIZES.get(row.size), tuple(map(stands_for, row.links)), row.entity == "BUNDLE", tuple(members)


def refined(rows, pins):
    """The standard table."""
    kinds = {}
    classes = {name: kinds.setdefault(kind(rows, pins, name), len(kinds)) for name in rows}
    origins = [None] * len(kinds)
    for rounds in range(len(rows) + 1):
        parts, after = {}, {}
        for name, c in classes.items():
            part = c, signature(rows, pins, classes, name)
            if part not in parts and any(other == c for other, _ in parts):
                parts[part] = len(origins)
                origins.append((c, rounds + 1))
            after[name] = parts.setdefault(part, c)
        if after == classes:
            return Table(rounds, origins, classes)
        classes = after
    raise AssertionError("no round is the last")


def certificate(tables):
    def lines(number, table):
        yield f"table {number}\nrounds {table.rounds}\n"
        for c, origin in enumerate(table.origins):
            yield f"C{c}\n" if origin is None else f"C{c}=C{origin[0]}@{origin[1]}\n"
        for name, c in table.members.items():
            yield f"#{name}=C{c}\n"

    both = [line for number, table in enumerate(tables) for line in lines(number + 1, table)]
    return "STEPCERT 2\n" + "".join(both) + "end\n"


def quotient(rows, table):
    """The first row of each class, with each reference mapped to the first of its class."""
    first = {}
    for name, c in table.members.items():
        first.setdefault(c, name)
    led = {name: first[c] for name, c in table.members.items()}
    return {name: row._replace(links=[led.get(it) for it in row.links], members=[led[it] for it in row.members])
            for name, row in rows.items() if led[name] == name}


def is_text(table):
    """Whether a certificate can hold a table."""
    def begun(c):
        return table.origins[c][1] if table.origins[c] else 0

    fine = all(origin is None or (origin[0] < c and begun(origin[0]) < origin[1] <= table.rounds)
               for c, origin in enumerate(table.origins))
    return fine and all(c < len(table.origins) for c in table.members.values())


def at_round(table, number):
    def up(c):
        while table.origins[c] and table.origins[c][1] > number:
            c = table.origins[c][0]
        return c

    return {name: up(c) for name, c in table.members.items()}


def fault(rows, pins, table):
    """The first fault of a table, or `None`."""
    if list(table.members) != list(rows):
        return "C2 WrongNames"
    pairs = [(x, z) for x in rows for z in rows if x < z]
    classes = at_round(table, 0)
    if any(classes[x] != classes[z] and kind(rows, pins, x) == kind(rows, pins, z) for x, z in pairs):
        return "C3 GroundlessSplit"
    for number in range(table.rounds):
        after = at_round(table, number + 1)
        signed = {name: signature(rows, pins, classes, name) for name in rows}
        if any(classes[x] == classes[z] and signed[x] == signed[z] and after[x] != after[z] for x, z in pairs):
            return "C3 GroundlessSplit"
        classes = after
    signed = {name: signature(rows, pins, classes, name) for name in rows}
    if any(classes[x] == classes[z] and (kind(rows, pins, x), signed[x]) != (kind(rows, pins, z), signed[z])
           for x, z in pairs):
        return "C4 Unstable"
    return None


def same(rows, others):
    """Whether two populations are equal in any order."""
    def values(population):
        return {name: (row.entity, SIZES.get(row.size), row.links,
                       sorted(row.members) if row.entity == "BUNDLE" else row.members)
                for name, row in population.items()}

    return values(rows) == values(others)


def conforms(rows):
    def is_node(it):
        return it is None or rows[it].size is not None

    return all(len(set(row.members)) == len(row.members) and all(map(is_node, row.links + row.members))
               for row in rows.values())


def verdict(rows, choice, output, tables):
    """The answer that `verify` has to give."""
    if not conforms(output):
        return "output"
    if not all(map(is_text, tables)):
        return "C1 BadText"
    weak = weak_pins(rows, choice)
    wrong = fault(rows, weak, tables[0])
    wrong = wrong or fault(rows, gentle_pins(rows, weak, tables[0]), tables[1])
    if wrong or not same(quotient(rows, tables[1]), output):
        return wrong or "C5 NotTheImage"
    return "holds"


def halved(rng, table):
    """A table in which half of each class is split off at each of some rounds."""
    rounds = rng.randint(1, 3)
    origins = [None] + [(c - (1 << c.bit_length() - 1), c.bit_length()) for c in range(1, 1 << rounds)]
    return Table(rounds, origins, {name: rng.randrange(len(origins)) for name in table.members})


def changed(rng, table):
    """A table with one thing changed, not always a wrong one."""
    rounds, origins, members = table.rounds, list(table.origins), dict(table.members)
    name, c = rng.choice(list(members)), rng.randrange(len(origins))
    what = rng.randrange(8)
    if what == 0:
        members[name] = c
    elif what == 1:
        rounds += rng.choice([1, 2])
        origins.append((members[name], rng.randint(1, rounds)))
        members[name] = len(origins) - 1
    elif what == 2 and origins[c]:
        origins[c] = (origins[c][0], max(1, origins[c][1] + rng.choice([-1, 1])))
        rounds = max([rounds] + [it[1] for it in origins if it])
    elif what == 3 and origins[c]:
        origins[c] = (rng.randrange(max(c, 1)), origins[c][1])
    elif what == 4 and origins[-1]:
        members = {it: origins[-1][0] if d == len(origins) - 1 else d for it, d in members.items()}
        origins.pop()
    elif what == 5 and len(origins) > 1:
        d = rng.randrange(len(origins))
        there = {c: d, d: c}
        origins[c], origins[d] = origins[d], origins[c]
        origins = [it and (there.get(it[0], it[0]), it[1]) for it in origins]
        members = {it: there.get(e, e) for it, e in members.items()}
    elif what == 6:
        if rng.random() < 0.5 and len(members) > 1:
            del members[name]
        else:
            members = dict(sorted(members.items(), key=lambda _: rng.random()))
    else:
        rounds = max(0, rounds + rng.choice([-1, 1, 2]))
    return Table(rounds, origins, members)


def altered(rng, rows):
    """An output with one thing changed, sometimes to the same."""
    order = list(rows.items())
    name, row = order.pop(rng.randrange(len(order)))
    if row.size and rng.random() < 0.5:
        row = row._replace(size=rng.choice(sorted(SIZES)))
    elif row.size and rng.random() < 0.5:
        row = row._replace(entity=rng.choice(["NODE", "KNOT"]))
    else:
        row = row._replace(links=row.links[::-1], members=row.members[rng.randint(0, 1):])
    used = any(name in it.links + it.members for _, it in order)
    if used or rng.random() < 0.8:
        order.insert(rng.randint(0, len(order)), (name, row))
    if rng.random() < 0.1:
        order.append((60, Row("NODE", "1.", [None, None], [])))
    return dict(order)


def wrong_proof(rng, rows, choice, output, tables):
    """An output and tables that differ from those of `shrink`."""
    while True:
        other, others = proof_drawn(rng, rows, choice, output, tables)
        if others != tables or not same(other, output) or list(other) != list(output):
            return other, others


def proof_drawn(rng, rows, choice, output, tables):
    if rng.random() < 0.2:
        return altered(rng, output), tables
    if rng.random() < 0.2:
        weak = weak_pins(rows, choice)
        other = weak_pins(rows, choice._replace(in_sets=not choice.in_sets))
        pins = rng.choice([set(), set(rows), other, weak, weak - set(rng.sample(sorted(weak), min(1, len(weak))))])
        tables = [refined(rows, pins)] * 2 if rng.random() < 0.5 else [tables[0], refined(rows, pins)]
    else:
        both, second = tables
        for _ in range(rng.choice([1, 1, 2, 3])):
            both, second = changed(rng, both), changed(rng, second)
        if rng.random() < 0.1:
            both = halved(rng, both)
        tables = rng.choice([[both, both], [both, tables[1]], [tables[0], second]])
    if is_text(tables[1]) and set(tables[1].members) == set(rows) and rng.random() < 0.8:
        output = quotient(rows, tables[1])
    return output, tables


class Trial:
    """The program, and a folder for its files."""

    def __init__(self, program, folder):
        self.program = program
        self.paths = [os.path.join(folder, it) for it in ("drawn.exp", "file.stp", "out.stp", "cert.txt")]

    def write(self, place, it):
        with open(self.paths[place], "w", encoding="ascii") as file:
            file.write(it)

    def read(self, place):
        if not os.path.exists(self.paths[place]):
            return ""
        with open(self.paths[place], encoding="ascii") as file:
            return file.read()

    def clear(self):
        """Removes output and certificate."""
        for path in self.paths[2:]:
            if os.path.exists(path):
                os.remove(path)

    def run(self, command, choice):
        words = [self.program, command, *self.paths, "--merge", ",".join(choice.entities)]
        words += ["--in-sets"] if choice.in_sets else []
        ran = subprocess.run(words, capture_output=True, text=True, timeout=60, check=False)
        return ran.returncode, ran.stdout, ran.stderr

    def said(self, choice):
        """The answer of `verify`, in the words of `verdict`."""
        status, printed, faults = self.run("verify", choice)
        if status == 0 and printed.endswith("certificate holds\n"):
            return "holds"
        if status == 1 and faults.startswith("output: "):
            return "output"
        if status == 6 and faults.startswith("certificate: "):
            return " ".join(faults.split("\n")[0].split(" ")[1:3])
        return f"status {status}: {printed}{faults}"


def is_right(trial, rng, told):
    rows, choice = drawn(rng), choice_drawn(rng)
    weak = weak_pins(rows, choice)
    first = refined(rows, weak)
    tables = [first, refined(rows, gentle_pins(rows, weak, first))]
    output = quotient(rows, tables[1])
    trial.clear()
    trial.write(1, text(rows))
    status, printed, faults = trial.run("shrink", choice)
    if (status, trial.read(2), trial.read(3)) != (0, text(output), certificate(tables)):
        print(f"shrink, {choice}: status {status}\n{printed}{faults}")
        return False
    for output, tables in [(output, tables), wrong_proof(rng, rows, choice, output, tables)]:
        trial.write(2, text(output))
        trial.write(3, certificate(tables))
        wanted, said = verdict(rows, choice, output, tables), trial.said(choice)
        if said != wanted:
            print(f"verify, {choice}: {said}, not {wanted}")
            return False
        told[said] += 1
    return True


def main(arguments):
    parser = parser_of("test drawn", __doc__, program="the program that is tested",
                       runs=(10_000, "how many populations are drawn"), seed=(1, "the seed of the drawing"))
    asked = parser.parse_args(arguments)
    told = collections.Counter()
    with tempfile.TemporaryDirectory() as folder:
        trial = Trial(program_of(asked.program), folder)
        trial.write(0, SCHEMA)
        for number in range(asked.runs):
            if not is_right(trial, random.Random(f"{asked.seed} {number}"), told):
                print(f"population {number}:\n" + "\n".join(map(trial.read, range(1, 4))))
                return 1
    print(f"{asked.runs} populations: " + ", ".join(f"{said} {count}" for said, count in told.most_common()))
    return 0
