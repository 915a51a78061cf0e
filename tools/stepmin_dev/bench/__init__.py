"""Measures time and memory: the benches NAME, or without one those that need only the program.

    plain      `plain` beside md5sum
    check      `check` beside `plain`
    shrink     `shrink` beside `check`
    verify     `verify` beside `shrink`, and on certificates made to be slow
    sizes      all four on files of growing size
    hostile    `check`, `shrink` and `verify` on schemas and files made to be slow

These prove and build a program of bench/ first:

    names      `plain` on names that collide under a hash with a fixed seed
    classes    the search for equal instances, beside a sort
    images     the check of an image, beside an IndexSet of the same names
    literals   equality, order and hash of literals, beside their bytes
    pins       what may not be merged, beside what is done before
    resolving  the names of a schema, beside reading it
    rows       the memory of a population
    schemas    reading a schema, beside md5sum

`tools/dev bench NAME --help` says what a bench makes and prints.
Each bench makes its input in a temporary folder and prints a line for each measurement.
With --write the figures also become a table in docs/SPEED.md, between two marks, with commit and machine.
`sizes` then also becomes a plot, docs/sizes.svg, which the page shows above the table.
"""
import importlib
import json
import os
import re
import subprocess
import tempfile

from ..options import parser_of, positive, program_of
from ..repository import ROOT

OF_PROGRAM = ("plain", "check", "shrink", "verify", "sizes", "hostile")
WITH_OWN = ("names", "classes", "images", "literals", "pins", "resolving", "rows", "schemas")
NEEDS_PROGRAM = (*OF_PROGRAM, "names")
PAGE = os.path.join(ROOT, "docs", "SPEED.md")
MARKS = "<!--bench-->\n", "<!--/bench-->\n"


def parser_of_benches():
    parser = parser_of("bench", __doc__, program="the program that is measured", json="print a JSON object a line",
                       seed=(1, "the seed of what is drawn"))
    parser.add_argument("names", metavar="NAME", nargs="*", help="a bench")
    parser.add_argument("--size", metavar="MB", type=positive, help="megabytes of a file (by bench)")
    parser.add_argument("--runs", metavar="N", type=positive, help="runs, of which the best counts (by bench)")
    parser.add_argument("--beside", metavar="PATH", help="`plain`: another build of the program, run on the same files")
    parser.add_argument("--only", metavar="WORD", default="", help="`hostile`, `images`: only what has WORD in its name")
    parser.add_argument("--unproved", action="store_true", help="build a program of bench/ before its proof")
    parser.add_argument("--write", action="store_true", help="write tables and plots into docs/SPEED.md")
    return parser


def module_of(name):
    return importlib.import_module(f"{__package__}.{name}")


def shown(number):
    """A number with some three digits."""
    if isinstance(number, int):
        return f"{number:,}"
    return f"{number:.2f}" if number < 10 else f"{number:.1f}" if number < 100 else f"{number:,.0f}"


def table_of(rows):
    """A Markdown table of rows, each a name and figures by label."""
    labels = list(dict.fromkeys(label for _, figures in rows for label in figures))
    lines = ["| | " + " | ".join(labels) + " |", "|---" * (len(labels) + 1) + "|"]
    for of, figures in rows:
        cells = [shown(figures[label]) if label in figures else "" for label in labels]
        lines.append(f"| {of} | " + " | ".join(cells) + " |")
    return "\n".join(lines)


def origin():
    """A sentence that names the commit and the machine."""
    described = subprocess.run(["git", "describe", "--always", "--dirty"], cwd=ROOT, capture_output=True, text=True, check=False)
    with open("/proc/cpuinfo", encoding="utf-8") as file:
        model = re.search(r"model name\s*: (.*)", file.read())
    return (f"Measured at commit {described.stdout.strip() or 'unknown'} on {model[1] if model else 'an unknown processor'}, "
            f"{len(os.sched_getaffinity(0))} cores.")


def picture_of(name, rows):
    """Writes the plot of a bench into docs, and returns the lines that show it; empty if the bench has no plot."""
    module = module_of(name)
    if not hasattr(module, "drawn"):
        return ""
    with open(os.path.join(os.path.dirname(PAGE), f"{name}.svg"), "w", encoding="ascii") as file:
        file.write(module.drawn(rows))
    return f"![Bench {name}]({name}.svg)\n\n"


def write(name, rows):
    """Puts the table of a bench, and its plot, between the marks in docs/SPEED.md, in the place of its earlier one."""
    with open(PAGE, encoding="utf-8") as file:
        text = file.read()
    before, _, rest = text.partition(MARKS[0])
    inside, _, after = rest.partition(MARKS[1])
    sections = dict(re.findall(r"^## Bench `(\w+)`\n\n(.*?)(?=^## Bench |\Z)", inside, re.M | re.S))
    sections[name] = f"{origin()}\n\n{picture_of(name, rows)}{table_of(rows)}\n\n"
    inside = "".join(f"## Bench `{it}`\n\n{sections[it]}" for it in OF_PROGRAM + WITH_OWN if it in sections)
    with open(PAGE, "w", encoding="utf-8") as file:
        file.write(f"{before}{MARKS[0]}{inside}{MARKS[1]}{after}")


def has_marks():
    with open(PAGE, encoding="utf-8") as file:
        text = file.read()
    return all(text.count(mark) == 1 for mark in MARKS)


def run(name, asked):
    """Runs a bench, prints its figures, and returns them."""
    module, rows, before = module_of(name), [], os.getcwd()
    asked = type(asked)(**{**vars(asked), "size": asked.size or module.SIZE, "runs": asked.runs or module.RUNS})
    with tempfile.TemporaryDirectory(prefix="bench-") as folder:
        try:
            for of, figures in module.rows(asked, folder):
                rows.append((of, figures))
                told = ", ".join(f"{shown(it)} {label}" for label, it in figures.items())
                print(json.dumps({"bench": name, "of": of, **figures}) if asked.json else f"{name}, {of}: {told}", flush=True)
        finally:
            os.chdir(before)
    return rows


def main(arguments):
    helped = [it for it in arguments if it in OF_PROGRAM + WITH_OWN]
    if helped and {"-h", "--help"} & set(arguments):
        print(*(module_of(name).__doc__.strip() for name in helped), sep="\n\n")
        print("\n`tools/dev bench --help` lists the options.")
        return 0
    parser = parser_of_benches()
    asked = parser.parse_intermixed_args(arguments)
    names = asked.names or OF_PROGRAM
    for name in names:
        if name not in OF_PROGRAM + WITH_OWN:
            parser.error(f"there is no bench {name}: the benches are {', '.join(OF_PROGRAM + WITH_OWN)}")
    if asked.write and not has_marks():
        parser.error(f"docs/SPEED.md has no lines {' and '.join(map(str.strip, MARKS))}")
    if set(names) & set(NEEDS_PROGRAM):
        asked.program = program_of(asked.program)
    asked.beside = asked.beside and program_of(asked.beside)
    for name in names:
        rows = run(name, asked)
        if asked.write:
            write(name, rows)
    return 0
