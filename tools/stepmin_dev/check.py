"""Checks a crate, or some functions of it, without proving the crates below it.

Each FN is a path crate::module::function. Functions are checked one by one, and holes may be left.
An empty FN ('') checks syntax, names and types alone. Without FN the whole crate is checked.
Crates below are taken as libraries if they are built here, or in FOLDER with the same text.
FOLDER is another clone, in which `tools/dev gate` runs or ran.
The others are read as sources, and nothing of them is proved.
With sixty sources a function takes one or two minutes, with libraries some seconds.
Prints what the prover says, except about what is proved. The verdict is that of the gate.

Status: 0 if all that was asked is proved, or has no holes; 1 if something isn't.
"""
import os
import re
import subprocess
import time

from .options import parser_of, positive
from .repository import ROOT, manifest

PROVED = re.compile(r"(fn|struct|impl|enum|trait) \S+: (proved|no holes)$|statements |logic /|by-macro")


def crates_below(crates, name):
    """The crates of the repository below one, lowest first."""
    order = []

    def visit(crate):
        for below in crates.get(crate, []):
            if below in crates and below not in order:
                visit(below)
                order.append(below)

    visit(name)
    return order


def texts(root, crate):
    """All that a crate is made of, by path."""
    found = {}
    for part in ("src", "specs", "proofs"):
        for folder, _, names in os.walk(os.path.join(root, "crates", crate, part)):
            for name in names:
                path = os.path.join(folder, name)
                with open(path, "rb") as file:
                    found[os.path.relpath(path, root)] = file.read()
    return found


def library(crate, gate):
    """The path of the built library of a crate, or `None`."""
    for root in (ROOT, gate):
        path = os.path.join(root, "crates", crate, "out", "rlib", f"{crate}.rlib") if root else ""
        if os.path.isfile(os.path.join(path, "format")) and (root == ROOT or texts(root, crate) == texts(ROOT, crate)):
            return path
    return None


def words_for(name, gate, jobs):
    """The arguments that check a crate."""
    kit = os.path.dirname(subprocess.run(["rt", "doc"], capture_output=True, text=True, check=True).stdout.strip())
    crates = manifest()
    built, sources, ported = {}, [], []
    for crate in crates_below(crates, name):
        path = library(crate, gate) if all(it in built for it in crates[crate] if it in crates) else None
        if path:
            built[crate] = path
        else:
            sources.append(crate)
    for crate in [*built, *sources, name]:
        ported += [it for it in crates[crate] if it not in crates and it not in ported]
    root = "src/lib.rt" if os.path.exists(os.path.join(ROOT, "crates", name, "src", "lib.rt")) else "src/main.rt"
    words = [f"{kit}/bin/rattle", "check", "--crate-name", name, root, "-L", f"dependency={kit}/rlibs"]
    for crate in ["std", *ported]:
        words += ["--extern", f"{crate}={kit}/rlibs/{crate}.rlib"]
    for crate, path in built.items():
        words += ["--extern", f"{crate}={path}"]
    for crate in sources:
        words += ["--lib", f"{crate}:{','.join(['std', *crates[crate]])}={ROOT}/crates/{crate}/src/lib.rt"]
    print(f"{len(built)} libraries, and as sources: {' '.join(sources) or 'none'}", flush=True)
    words += ["--antt-project", f"{kit}/rattle/logic/antt-project.json", "--logic-built", f"{kit}/logic_built"]
    return [*words, "--jobs", str(jobs)]


def main(arguments):
    parser = parser_of("check", __doc__)
    parser.add_argument("crate", metavar="CRATE", help="a crate of crates.txt")
    parser.add_argument("paths", metavar="FN", nargs="*", help="a function, as crate::module::function")
    parser.add_argument("--gate", metavar="FOLDER", default="", help="another clone with built libraries")
    parser.add_argument("--jobs", metavar="N", type=positive, default=2, help="proofs side by side (2)")
    asked = parser.parse_intermixed_args(arguments)
    if asked.crate not in manifest():
        parser.error(f"crates.txt has no crate {asked.crate}")
    words, status = words_for(asked.crate, asked.gate, asked.jobs), 0
    for path in asked.paths or [None]:
        began = time.time()
        only = [] if path is None else ["--allow-holes", f"--only={path}"]
        ran = subprocess.run([*words, *only], cwd=os.path.join(ROOT, "crates", asked.crate), stdout=subprocess.PIPE,
                             stderr=subprocess.STDOUT, text=True, check=False)
        print("\n".join(line for line in ran.stdout.splitlines() if not PROVED.match(line)))
        print(f"{path or asked.crate}: status {ran.returncode}, {time.time() - began:.0f} s", flush=True)
        status = status or ran.returncode
    return status
