"""Runs `rt` of the toolchain with less work for the same answers, in the current folder.

All arguments go to `rt`: `tools/dev rt ci`, `tools/dev rt must-fail graphs`, `tools/dev rt fmt`.
The head of tools/rt.py says what is saved; `rt --help` lists the commands of `rt`.
"""
import shutil
import subprocess
import sys

from .repository import RT


def main(arguments):
    if arguments[:1] in (["-h"], ["--help"]):
        print(f"usage: tools/dev rt ARGUMENTS\n\n{__doc__.strip()}")
        return 0
    if not shutil.which("rt"):
        print("Rattle's toolchain isn't there: `rt` isn't found", file=sys.stderr)
        return 1
    return subprocess.run([sys.executable, RT, *arguments], check=False).returncode
