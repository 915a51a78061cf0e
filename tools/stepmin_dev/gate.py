"""Proves, tries and tests everything: runs `.ci/run`.

That is `rt ci` (every proof, every edit of must-fail, every test and program), then the suites statuses, cases, pages
and size of the program that `rt ci` has built, then `tools/dev lint`. What passed before, from the same sources, isn't proved again.
If all of it passes, out/gate.note records it, so that `tools/dev install` knows that the program is proved.

Status: that of `.ci/run`, which is 0 if all of it passes.
"""
import os
import subprocess

from .build import GATE_PROGRAM, GATE_NOTE, sum_of_sources, write_note
from .options import parser_of
from .repository import ROOT


def main(arguments):
    parser_of("gate", __doc__).parse_args(arguments)
    if os.path.exists(GATE_NOTE):
        os.remove(GATE_NOTE)
    before = sum_of_sources()
    status = subprocess.run([os.path.join(ROOT, ".ci", "run")], check=False).returncode
    if status == 0 and before and before == sum_of_sources():
        write_note(GATE_NOTE, "proved", before, GATE_PROGRAM)
    return status
