"""Runs each command on schemas and files of full size, since contracts let a run report at any size that memory ran out.

A shape is a schema and a file, most of a million instances, many with names above 2^53. On each the suite runs

- `plain`, which has to print the file as it is;
- `check` and `shrink`, which have to print the shape's numbers and findings;
- `verify`, which has to accept what `shrink` wrote;
- `shrink` once more, on OUT, which has to write the same OUT.

OUT has to have as many instances as are kept, and CERT each instance of the file twice.
On a shape with findings `shrink` has to write nothing, and `verify` has to print the findings.
Some certificates are written by the suite. The wanted numbers are those of the shape, never those of the program.
Each run has a stack of 1 MiB and 3 GiB of memory. The files of a shape are removed before those of the next.
--size FACTOR makes the shapes smaller, down to 5,000 instances. Each fault is a line; the last line counts the runs.

Status: 0 if each run ends as it has to; 1 if one doesn't; 2 if the arguments are wrong.
"""
import argparse
import filecmp
import itertools
import json
import os
import resource
import subprocess
import tempfile
from typing import Iterable, NamedTuple, Sequence

from ..bench import resolving
from ..bench.files import (ALL, LINKED, NODES, RULES, SCHEMA, different_words, keys, numbers, part, point, referrers,
                           replaced, write, write_text)
from ..bench.verify import hostile, points
from ..options import parser_of, program_of

LEAST, MOST = 5_000, 1_000_000
STACK, MEMORY, SECONDS = 1 << 20, 3 << 30, 600
LARGE = 2**53
RULED = replaced(SCHEMA, RULES)


class Shape(NamedTuple):
    """A schema, the instances of a file in normal text, and what the runs on them have to print."""

    schema: str
    texts: Iterable[str]
    chosen: str
    instances: int
    kept: int = 0
    rounds: int = 0
    unknown: int = 0
    unknown_kept: int = 0
    unchecked: Sequence[str] = ()
    findings: Sequence[str] = ()
    certificates: Sequence[list] = ()


def first_name(place, width):
    """Returns the first of `width` names that no other place has: a small name, or one above 2^53, or one up to 2^64 - 1."""
    return (width * place + 1, LARGE + width * place, 2**64 - width * (place + 1))[place % 3]


def rising_name(place, width):
    """Returns the first of `width` names that no other place has: names above 2^63, which rise with `place`."""
    return 2**63 + 1 + width * place


def instances(rows, first):
    """Returns the lines of instances with names from `first` on."""
    return "".join(f"#{name}={row}\n" for name, row in enumerate(rows, first))


def equal_points(count):
    """Points, directions and placements of which each fifth group differs; all groups have one direction."""
    groups = count // 4
    different = groups // 5
    texts = (instances(point(first, k % different), first) for k, first in ((k, first_name(k, 4)) for k in range(groups)))
    return Shape(SCHEMA, texts, ALL, 4 * groups, kept=3 * different + 1, rounds=2)


def sections(count):
    """Parts in five data sections. Nothing is merged across sections, and each loop stands in a SET."""
    groups = count // 50
    different = groups // 20

    def texts():
        for section in range(5):
            if section:
                yield f"ENDSEC;\nDATA('section {section}',('BENCH'));\n"
            for k in range(groups):
                first = (5 - section) * 2**61 - 10 * (groups - k)
                yield instances(part(first, k % different), first)

    return Shape(SCHEMA, texts(), ALL, 50 * groups, kept=5 * (7 * different + 2 * groups + 1), rounds=2)


PINNED = """SCHEMA bench;
ENTITY point; x : REAL; END_ENTITY;
ENTITY other; x : REAL; END_ENTITY;
ENTITY group; members : SET OF point; END_ENTITY;
ENTITY sack; members : BAG OF point; END_ENTITY;
ENTITY key; at : point; UNIQUE only : at; END_ENTITY;
ENTITY place; x : REAL; INVERSE notes : SET OF note FOR subject; END_ENTITY;
ENTITY note; subject : place; END_ENTITY;
ENTITY loop; corners : LIST OF UNIQUE point; END_ENTITY;
ENTITY net; rows : LIST OF UNIQUE LIST OF point; END_ENTITY;
END_SCHEMA;
"""


def pinned_group(first):
    """Twenty instances: fifteen that are pinned or refer to pinned ones, and five that have equal ones in each group."""
    name = [f"#{first + k}" for k in range(20)]
    rows = ["POINT(0.);", "POINT(0.);", "POINT(0.);", f"GROUP(({name[1]},{name[2]}));"]
    rows += ["POINT(0.);", f"SACK(({name[4]}));", "POINT(0.);", f"KEY({name[6]});"]
    rows += ["PLACE(0.);", f"NOTE({name[8]});", "PLACE(0.);"]
    rows += ["POINT(0.);", "POINT(0.);", f"LOOP(({name[11]},{name[12]}));"]
    rows += ["POINT(1.);", "POINT(2.);", f"LOOP(({name[14]},{name[15]}));"]
    return rows + ["POINT(0.);", f"NET((({name[17]})));", "OTHER(0.);"]


def pins(count):
    """Instances that are equal except for their pins, by every rule for pins."""
    groups = count // 20
    texts = (instances(pinned_group(first), first) for first in (first_name(k, 20) for k in range(groups)))
    return Shape(PINNED, texts, "POINT,GROUP,SACK,KEY,PLACE,NOTE,LOOP,NET", 20 * groups, kept=15 * groups + 5, rounds=1)


def one_set(count):
    """Half a million equal points, all of which are members of one SET."""
    count //= 2
    names = range(LARGE, LARGE + count)
    listed = itertools.chain(["#1=POINTS(("], (f",#{name}" if name > LARGE else f"#{name}" for name in names), ["));\n"])
    texts = itertools.chain((f"#{name}=POINT('',(0.,0.));\n" for name in names), listed)
    return Shape(SCHEMA, texts, ALL, count + 1, kept=count + 1)


def one_subject(count):
    """Half a million equal placements at one point, which has an inverse attribute of them all."""
    count //= 2
    return Shape(RULED, itertools.islice(referrers(0), count), ALL, count, kept=count)


def unique_words(count):
    """A tenth of a million instances with a UNIQUE value, all different."""
    count //= 10
    return Shape(RULED, itertools.islice(different_words(0), count), "KEY", count, kept=count)


def one_list(_):
    """A SET of 100,000 numbers."""
    return Shape(SCHEMA, numbers(0), "NUMBERS", 1, kept=1)


MARKED = """SCHEMA bench;
ENTITY node; mark : BOOLEAN; next : node; END_ENTITY;
END_SCHEMA;
"""


def ring(first, length, marked):
    """A ring of nodes, of which each `marked`th has a mark."""
    return [f"NODE(.{'F' if k % marked else 'T'}.,#{first + (k + 1) % length});" for k in range(length)]


def rings(count):
    """Rings of 100 nodes with one mark, and of 200 with two, which are all equal; a round tells one node of a ring apart."""
    groups = count // 300
    texts = (instances(ring(first, 100, 100) + ring(first + 100, 200, 100), first)
             for first in (first_name(k, 300) for k in range(groups)))
    return Shape(MARKED, texts, "NODE", 300 * groups, kept=100, rounds=99)


def one_ring(count):
    """One ring of half a million equal nodes."""
    count //= 2
    return Shape(NODES, LINKED["cycle"](22 * count), "NODE", count, kept=1)


def chain(count):
    """A chain of half a million nodes that ends in a pinned one; each round tells one node apart."""
    count //= 2
    return Shape(NODES, LINKED["chain"](22 * count), "NODE", count + 1, kept=count + 1, rounds=count - 2)


DERIVED = """SCHEMA bench;
ENTITY step; size : REAL; next : OPTIONAL step;
DERIVE d1 : REAL := size; d2 : REAL := next.d1; d3 : REAL := next.d2; d4 : REAL := next.d3; d5 : REAL := next.d4;
WHERE w : d5 > 0.0; END_ENTITY;
END_SCHEMA;
"""


def derived(count):
    """Chains of ten steps, of a hundred sizes. A rule asks the fifth step from each, which the last four don't have."""
    groups = count // 10

    def steps(k):
        first = rising_name(k, 10)
        rows = [f"STEP({1 + k % 100}.,{f'#{first + place}' if place < 10 else '$'});" for place in range(1, 11)]
        return instances(rows, first)

    return Shape(DERIVED, map(steps, range(groups)), "STEP", 10 * groups, kept=1_000, rounds=9, unknown=4 * groups,
                 unknown_kept=400)


def declarations(count):
    """A schema of types and entities, 20,000 for a million, and two equal instances of each entity without a supertype."""
    entities = count // 100
    schema = "SCHEMA bench;\n" + "".join(map(resolving.entity, range(entities))) + "END_SCHEMA;\n"
    tops = range(0, entities, resolving.DEPTH)
    unchecked = [f"unchecked {kind} ITEM_{k}.{name}"
                 for k in range(entities) for kind, name in (("DERIVE", f"HALF_{k} Profile"), ("WHERE", "WR1 Leads"))]
    row = "(1.,$," + ",".join(["(0.)"] * 8) + ");"
    texts = (instances([f"ITEM_{k}{row}"] * 2, rising_name(k, 2)) for k in tops)
    return Shape(schema, texts, ",".join(f"ITEM_{k}" for k in tops), 2 * len(tops), kept=len(tops), unchecked=unchecked)


FAULTY = [("POINT();", "F5 ParameterCount", 0), ("POINT('',('a'));", "F6 WrongKind", 2), ("POINT($,(0.));", "F7 MissingValue", 1),
          ("PLACEMENT('',#2,$);", "F9 DanglingReference", 2), ("PLACEMENT('',#1,#1);", "F10 WrongEntity", 3)]


def faulty(count):
    """A tenth of a million instances, a tenth of which have findings."""
    groups = count // 500
    texts = ["#1=POINT('',(0.));\n"]
    findings = []
    for k in range(groups):
        first = first_name(k, 50) + 2
        texts.append(instances([row for row, _, _ in FAULTY] + ["POINT('',(0.));"] * 45, first))
        findings += [f"{finding} #{name} {place}" for name, (_, finding, place) in enumerate(FAULTY, first)]
    return Shape(SCHEMA, texts, ALL, 50 * groups + 1, findings=findings)


def one_key(count):
    """A tenth of a million instances of one UNIQUE value, a finding each except for the first."""
    count //= 10
    findings = [f"F17 UniqueBroken #{name} KEY.?1" for name in range(2, count + 1)]
    return Shape(RULED, itertools.islice(keys(0), count), ALL, count, findings=findings)


def certificates(count):
    """Half a million different points, and two right certificates that differ from that of `shrink`."""
    count //= 2
    made = hostile(count)
    others = [made["a chain of parents"], made["halves at each round"]]
    return Shape(SCHEMA, points(count), "POINT", count, kept=count, rounds=1, certificates=others)


SHAPES = {
    "points": equal_points, "sections": sections, "pins": pins, "one SET": one_set, "INVERSE": one_subject,
    "UNIQUE": unique_words, "numbers": one_list, "rings": rings, "one ring": one_ring, "chain": chain, "derived": derived,
    "declarations": declarations, "findings": faulty, "one key": one_key, "certificates": certificates,
}


def limit():
    """Limits stack and memory of a process."""
    resource.setrlimit(resource.RLIMIT_STACK, (STACK, STACK))
    resource.setrlimit(resource.RLIMIT_AS, (MEMORY, MEMORY))


def difference(found, wanted):
    """Returns where two different texts differ."""
    pairs = itertools.zip_longest(found.splitlines(), wanted.splitlines(), fillvalue="missing")
    place, (one, other) = next(((k, pair) for k, pair in enumerate(pairs, 1) if pair[0] != pair[1]), (0, ("ended", "not so")))
    return f"line {place} is {one[:80]!r}, expected {other[:80]!r}"


def text_of(path):
    """Returns the text of a file."""
    with open(path, encoding="utf-8", errors="replace") as file:
        return file.read()


class Trial:
    """Runs of the program on the files of a shape: what is wrong with them, and how many passed and failed."""

    def __init__(self, program, folder, shape):
        self.program, self.folder, self.shape = program, folder, shape
        self.faults, self.passed, self.failed = [], 0, 0

    def path(self, name):
        return os.path.join(self.folder, name)

    def run(self, words, status, wanted, err=""):
        """Runs the program, and returns whether its status and outputs are the wanted ones. `wanted` compares the output."""
        with open(self.path("stdout"), "wb") as printed:
            try:
                done = subprocess.run([self.program, *words], cwd=self.folder, stdin=subprocess.DEVNULL, stdout=printed,
                                      stderr=subprocess.PIPE, preexec_fn=limit, timeout=SECONDS, check=False)
                ended, said = done.returncode, done.stderr.decode("utf-8", "replace")
            except subprocess.TimeoutExpired:
                ended, said = f"missing after {SECONDS} s", err
        faults = [] if ended == status else [f"the status is {ended}, expected {status}"]
        faults += [] if said == err else [f"standard error: {difference(said, err)}"]
        faults += wanted() if not faults else []
        self.faults += [f"{' '.join(words)[:80]}: {fault}" for fault in faults]
        self.passed, self.failed = self.passed + (not faults), self.failed + bool(faults)
        return not faults

    def printed(self, text, *others):
        """Returns a function that returns what is wrong with the standard output and in other ways."""

        def faults():
            found = text_of(self.path("stdout"))
            own = [] if found == text else [f"standard output: {difference(found, text)}"]
            return own + [fault for other in others for fault in other()]

        return faults

    def same(self, one, other):
        """Returns a function that returns a fault if two files differ."""
        return lambda: [] if filecmp.cmp(self.path(one), self.path(other), shallow=False) else [f"{one} isn't {other}"]

    def named(self, name, count):
        """Returns a function that returns a fault if another number of lines of a file begin with a name."""

        def faults():
            with open(self.path(name), "rb") as file:
                found = sum(line.startswith(b"#") for line in file)
            return [] if found == count else [f"{name} has {found} lines of instances, expected {count}"]

        return faults

    def unwritten(self):
        """Returns the files that `shrink` should not have written, a fault each."""
        return [f"{name} is written" for name in ("out.stp", "out.cert") if os.path.exists(self.path(name))]

    def try_all(self):
        """Writes the files and runs all commands."""
        write_text(self.path("schema.exp"), self.shape.schema)
        write(self.path("file.stp"), self.shape.texts)
        self.run(["plain", "file.stp"], 0, self.same("stdout", "file.stp"))
        words = ["schema.exp", "file.stp", "out.stp", "out.cert", "--merge", self.shape.chosen]
        if self.shape.findings:
            self.try_findings(words)
        else:
            self.try_merge(words)

    def try_findings(self, words):
        """Runs the commands on a file with findings."""
        report = self.report(self.shape.instances, 0)
        self.run(["check", *words[:2]], 1, self.printed(report))
        self.run(["shrink", *words], 1, self.printed(report, self.unwritten))
        for name in ("out.stp", "out.cert"):
            write_text(self.path(name), "")
        faults = "".join(f"file: {finding}\n" for finding in self.shape.findings)
        self.run(["verify", *words], 1, self.printed(""), faults)

    def try_merge(self, words):
        """Runs the commands on a file without findings."""
        shape = self.shape
        report = self.report(shape.instances, shape.unknown)
        merged = f"kept {shape.kept}\nrounds {shape.rounds}\n"
        self.run(["check", *words[:2]], 0, self.printed(report))
        wanted = self.printed(report + merged, self.named("out.stp", shape.kept), self.named("out.cert", 2 * shape.instances))
        if not self.run(["shrink", *words], 0, wanted):
            return
        self.run(["verify", *words], 0, self.printed(self.proof(shape.rounds)))
        os.remove(self.path("out.cert"))
        wanted = self.printed(self.report(shape.kept, shape.unknown_kept) + merged, self.same("again.stp", "out.stp"))
        self.run(["shrink", "schema.exp", "out.stp", "again.stp", "again.cert", *words[4:]], 0, wanted)
        for lines in shape.certificates:
            write_text(self.path("out.cert"), "".join(lines))
            rounds = next(line for line in lines if line.startswith("rounds")).split()[1]
            self.run(["verify", *words], 0, self.printed(self.proof(rounds)))

    def report(self, count, unknown):
        """Returns what `check` has to print."""
        lines = [*self.shape.unchecked, *self.shape.findings]
        lines += [f"instances {count}", f"unknown {unknown}", f"findings {len(self.shape.findings)}"]
        return "".join(f"{line}\n" for line in lines)

    def proof(self, rounds):
        """Returns what `verify` has to print."""
        return f"instances {self.shape.instances}\nkept {self.shape.kept}\nrounds {rounds}\ncertificate holds\n"


def factor(text):
    """Returns a number above 0 and at most 1."""
    number = float(text)
    if not 0 < number <= 1:
        raise argparse.ArgumentTypeError("it must be above 0 and at most 1")
    return number


def main(arguments):
    parser = parser_of("test size", __doc__, program="the program that is tested", json="print the result as JSON")
    parser.add_argument("--size", metavar="FACTOR", type=factor, default=1.0, help="how large the shapes are, up to 1 (1)")
    parser.add_argument("--only", metavar="WORD", default="", help="only the shapes with WORD in their names")
    asked = parser.parse_args(arguments)
    program, count = program_of(asked.program), max(LEAST, int(MOST * asked.size))
    chosen = {name: make for name, make in SHAPES.items() if asked.only in name}
    if not chosen:
        parser.error(f"no shape has {asked.only} in its name: the shapes are {', '.join(SHAPES)}")
    faults, passed, failed = [], 0, 0
    for name, make in chosen.items():
        with tempfile.TemporaryDirectory(prefix="size-") as folder:
            trial = Trial(program, folder, make(count))
            trial.try_all()
        faults += [f"{name}: {fault}" for fault in trial.faults]
        passed, failed = passed + trial.passed, failed + trial.failed
    if asked.json:
        print(json.dumps({"suite": "size", "passed": passed, "failed": failed, "faults": faults}))
    else:
        print(*faults, f"{passed} runs passed, {failed} failed", sep="\n")
    return 1 if faults else 0
