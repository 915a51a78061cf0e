"""The options that commands share, each with one spelling, and the program that they run."""
import argparse
import os
import sys

from .repository import ROOT

PROGRAM = os.path.join(ROOT, "out", "stepmin")


def positive(text):
    """A number above 0."""
    number = int(text)
    if number < 1:
        raise argparse.ArgumentTypeError("it must be above 0")
    return number


def parser_of(command, doc, program=None, size=None, runs=None, seed=None, json=None):
    """A parser for `tools/dev COMMAND` with the docstring as help.

    `program` and `json` are help texts; `size`, `runs` and `seed` are pairs of a default and a help text. An option
    without its parameter isn't added.
    """
    parser = argparse.ArgumentParser(prog=f"tools/dev {command}", description=doc.strip(),
                                     formatter_class=argparse.RawDescriptionHelpFormatter)
    if program:
        parser.add_argument("--program", metavar="PATH", default=PROGRAM, help=f"{program} (out/stepmin)")
    for name, metavar, given in (("--size", "MB", size), ("--runs", "N", runs), ("--seed", "N", seed)):
        if given:
            default, text = given
            kind = int if name == "--seed" else positive
            parser.add_argument(name, metavar=metavar, type=kind, default=default, help=f"{text} ({default:,})")
    if json:
        parser.add_argument("--json", action="store_true", help=json)
    return parser


def program_of(path):
    """The absolute path of a program that exists; otherwise ends with status 2."""
    if not os.path.isfile(path) or not os.access(path, os.X_OK):
        print(f"there is no program {os.path.relpath(path)}: build it (tools/dev build), or give --program PATH", file=sys.stderr)
        sys.exit(2)
    return os.path.abspath(path)
