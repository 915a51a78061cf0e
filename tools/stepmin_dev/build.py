"""Builds stepmin as out/stepmin, and runs it with ARGS, if any.

Without --proved the program is built before any proof, in some four minutes.
With --proved each crate that it stands on is proved first, side by side as the gate does it.
That takes an hour or more on four cores, and a minute or two if the gate has passed on this machine.
A program that is built already from the same sources isn't built again.
Needs Rattle's toolchain: `rt` has to be found.

Status: that of the program with ARGS; without ARGS 0 if it is built, otherwise 1.
"""
import glob
import hashlib
import os
import re
import shutil
import subprocess
import sys
import tempfile
import threading
import time

from . import unproved
from .options import parser_of
from .repository import CRATES, ROOT, copy_crates, proved

GATE_PROGRAM = os.path.join(CRATES, "stepmin", "out", "stepmin")
GATE_NOTE = os.path.join(ROOT, "out", "gate.note")
ENDED = re.compile(r"rt: (\w+) (?:proved$|is kept)")


class Progress:
    """A line on standard error that shows progress; on a terminal it is renewed each second."""

    def __init__(self, text):
        self.text, self.began, self.is_over = text, time.time(), threading.Event()
        self.is_shown = sys.stderr.isatty()

    def show(self):
        while not self.is_over.wait(1):
            print(f"\r{self.text} {time.time() - self.began:.0f} s ", end="", file=sys.stderr, flush=True)

    def __enter__(self):
        if self.is_shown:
            threading.Thread(target=self.show, daemon=True).start()
        else:
            print(self.text, file=sys.stderr, flush=True)
        return self

    def __exit__(self, *_):
        self.is_over.set()
        if self.is_shown:
            print(file=sys.stderr)


def sum_of_file(path):
    """The SHA-256 of a file, in hexadecimal digits."""
    with open(path, "rb") as file:
        return hashlib.sha256(file.read()).hexdigest()


def sum_of_sources():
    """A sum of the toolchain and of all sources of crates; empty without a toolchain."""
    if not shutil.which("rt"):
        return ""
    found = hashlib.sha256(subprocess.run(["rt", "version"], capture_output=True, check=True).stdout)
    paths = [path for part in ("src", "specs", "proofs") for path in glob.glob(f"{CRATES}/*/{part}/**/*.*", recursive=True)]
    for path in sorted([os.path.join(ROOT, "crates.txt"), *paths]):
        found.update(f"{os.path.relpath(path, ROOT)} {sum_of_file(path)}\n".encode())
    return found.hexdigest()


def write_note(note, how, sources, program):
    """Records how a program was built (`proved` or `unproved`), from which sources, and its sum."""
    os.makedirs(os.path.dirname(note), exist_ok=True)
    with open(note, "w", encoding="ascii") as file:
        file.write(f"{how} {sources} {sum_of_file(program)}\n")


def how_built(note, sources, program):
    """How a program was built, if it was built from these sources and hasn't changed; otherwise empty."""
    try:
        with open(note, encoding="ascii") as file:
            how, noted, found = file.read().split()
        return how if sources and noted == sources and found == sum_of_file(program) else ""
    except (OSError, ValueError):
        return ""


def build_proved(program):
    """Proves and builds the program in a copy of the repository."""
    with tempfile.TemporaryDirectory(prefix="stepmin-") as folder:
        count, done = len(copy_crates(folder, ["stepmin"])), set()
        text = f"proving {os.path.relpath(program)}: {{}} of {count} crates,"
        with Progress(text.format(0)) as progress:

            def told(line):
                ended = ENDED.match(line)
                if ended:
                    done.add(ended[1])
                    progress.text = text.format(len(done))

            shutil.copy2(proved(folder, "stepmin", told), program)


def build(program, wants_proof):
    """Builds the program, and removes what stood there before."""
    os.makedirs(os.path.dirname(program), exist_ok=True)
    for path in (f"{program}.note", program):
        if os.path.exists(path):
            os.remove(path)
    if wants_proof:
        build_proved(program)
    else:
        with Progress(f"building {os.path.relpath(program)} before any proof, some four minutes:"):
            unproved.build(program)


def main(arguments):
    cut = arguments.index("--") if "--" in arguments else len(arguments)
    parser = parser_of("build", __doc__, program="where the program is built")
    parser.usage = "tools/dev build [-h] [--proved] [--program PATH] [-- ARGS]"
    parser.add_argument("--proved", action="store_true", help="prove the program first")
    asked, given = parser.parse_args(arguments[:cut]), arguments[cut + 1:]
    program = os.path.abspath(asked.program)
    sources = sum_of_sources()
    if not sources:
        print("Rattle's toolchain isn't there: `rt` isn't found", file=sys.stderr)
        return 1
    if how_built(f"{program}.note", sources, program) not in (("proved",) if asked.proved else ("proved", "unproved")):
        build(program, asked.proved)
        write_note(f"{program}.note", "proved" if asked.proved else "unproved", sources, program)
        how = "is built and proved" if asked.proved else "is built; nothing of it was proved here"
        print(f"{os.path.relpath(program)} {how}", file=sys.stderr)
    return subprocess.run([program, *given], check=False).returncode if given else 0
