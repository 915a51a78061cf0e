"""Takes over the libraries that `rt ci` has built in another clone.

`rt check` builds the libraries below a crate itself, which proves each of them once more.
`rt ci` has proved them already, but leaves no stamp beside what it builds.
This command writes that stamp, for each library of GATE whose text, and that of all below it, is the same in COPY.
GATE may still be running: a library counts as soon as its last file is there.
Nothing that `rt ci` decides rests on this.
"""
import os
import shutil
import subprocess
import sys

from .options import parser_of
from .repository import ROOT, TOOLS

sys.path.insert(0, TOOLS)
from rt import load, prepare


def crates(rt, top):
    """The crates below a folder, by name."""
    os.chdir(top)
    rt.rtlib.Crate = rt.Crate
    return {it.name: it for it in rt.rtlib.crates_below(top)}


def link(one, other):
    try:
        os.link(one, other)
    except OSError:
        shutil.copyfile(one, other)


def take(name, gate, crate, stamp):
    """Links a built library into a crate and writes its stamp. Returns whether the library is whole."""
    built, wanted = f"{gate}/crates/{name}/out/rlib", f"{crate.folder}/out/rlib"
    if not os.path.isfile(f"{built}/{name}.rlib/format"):
        return False
    shutil.rmtree(wanted, ignore_errors=True)
    os.makedirs(os.path.dirname(wanted), exist_ok=True)
    shutil.copytree(built, wanted, copy_function=link)
    with open(f"{wanted}/stamp", "w", encoding="utf-8") as file:
        file.write(stamp)
    return True


def main(arguments):
    parser = parser_of("libraries", __doc__)
    parser.add_argument("gate", metavar="GATE", help="the clone in which `rt ci` runs or ran")
    parser.add_argument("copy", metavar="COPY", nargs="?", default=ROOT, help="the clone that gets the libraries (this one)")
    asked = parser.parse_args(arguments)
    gate, copy = os.path.abspath(asked.gate), os.path.abspath(asked.copy)
    kit = os.path.dirname(subprocess.run(["rt", "doc"], capture_output=True, text=True, check=True).stdout.strip())
    rt = load(f"{kit}/bin/rt")
    prepare(rt.rtlib.Crate)
    there, here = crates(rt, gate), crates(rt, copy)
    stamps = {name: crate.stamp() for name, crate in there.items()}
    for name, crate in here.items():
        if crate.is_program or name not in there:
            continue
        stamp = crate.stamp()
        is_taken = crate.is_built() or (stamps[name] == stamp and take(name, gate, crate, stamp))
        print(f"{name}: {'there' if is_taken else 'not there'}")
    return 0
