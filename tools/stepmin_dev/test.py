"""Tests the built program: the suite SUITE, or without one cases, statuses and pages.

    cases     the folders of tests/cases: arguments, files, and what has to come of them
    statuses  full and closed outputs, too little memory, wrong arguments, schemas that are cut off
    pages     the commands that pages show, and what they print
    size      schemas and files of full size, about a million instances each
    failing   memory that is refused, and system calls that fail, each in turn
    killed    runs of `shrink` that are killed at many moments
    files     runs of `shrink` where a file of a user could be lost
    drawn     drawn populations, compared with another implementation
    real      files of your own, by a schema of your own, compared with another count

`tools/dev test SUITE --help` explains a suite and its options.
The program is out/stepmin, or the one that --program names.

Status: 0 if everything passes; 1 if something fails; 2 if the arguments are wrong.
"""
import sys

from .commands import is_there, run
from .options import parser_of, program_of

SUITES = ("cases", "statuses", "pages", "size", "failing", "killed", "files", "drawn", "real")
USUAL = ("cases", "statuses", "pages")


def main(arguments):
    if arguments and arguments[0] in SUITES:
        return run(f"tests.{arguments[0]}", arguments[1:])
    parser = parser_of("test", __doc__, program="the program that is tested")
    parser.usage = "tools/dev test [-h] [SUITE] [--program PATH] .."
    asked, others = parser.parse_known_args(arguments)
    if others:
        parser.error(f"there is no suite or option {others[0]}")
    program, status = program_of(asked.program), 0
    for suite in USUAL:
        if is_there(f"tests.{suite}"):
            print(f"{suite}:", flush=True)
            status = max(status, run(f"tests.{suite}", ["--program", program]))
        else:
            print(f"{suite}: left out, since tools/stepmin_dev/tests/{suite}.py doesn't exist", file=sys.stderr)
    return status
