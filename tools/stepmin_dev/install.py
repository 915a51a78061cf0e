"""Installs the program, its manual page, and completions for bash, zsh and fish below a prefix.

Without --program it takes a program that is proved, from today's sources: the one that the gate has built, or that
`tools/dev build --proved` has built. If there is none, it takes out/stepmin and says that nothing of it was proved.

    bin/stepmin
    share/man/man1/stepmin.1
    share/bash-completion/completions/stepmin
    share/zsh/site-functions/_stepmin
    share/fish/vendor_completions.d/stepmin.fish

Status: 0 if all is installed; 1 if a file can't be written; 2 if there is no program.
"""
import os
import shutil
import sys

from .build import GATE_NOTE, GATE_PROGRAM, how_built, sum_of_sources
from .options import PROGRAM, parser_of, program_of
from .repository import ROOT

SHARE = os.path.join(ROOT, "share")
PLACES = {
    "share/man/man1/stepmin.1": "man/stepmin.1",
    "share/bash-completion/completions/stepmin": "completions/stepmin.bash",
    "share/zsh/site-functions/_stepmin": "completions/_stepmin",
    "share/fish/vendor_completions.d/stepmin.fish": "completions/stepmin.fish",
}
KNOWN = ((GATE_PROGRAM, GATE_NOTE), (PROGRAM, f"{PROGRAM}.note"))


def chosen(path):
    """The program to install, and how it was built from today's sources: `proved`, `unproved`, or empty if unknown."""
    sources = sum_of_sources()
    if path:
        program = program_of(path)
        found = {how_built(note, sources, program) for note in (GATE_NOTE, f"{PROGRAM}.note", f"{program}.note")}
        return program, next((how for how in ("proved", "unproved") if how in found), "")
    for program, note in KNOWN:
        if os.path.isfile(program) and how_built(note, sources, program) == "proved":
            return program, "proved"
    return program_of(PROGRAM), how_built(f"{PROGRAM}.note", sources, PROGRAM)


def files_of(program):
    """The files to install, each with its place below the prefix, its source and its mode."""
    others = [(place, os.path.join(SHARE, source), 0o644) for place, source in PLACES.items()]
    return [("bin/stepmin", program, 0o755), *others]


def put(source, path, mode):
    """Copies a file beside its place, and renames it, so that a program that runs isn't disturbed."""
    os.makedirs(os.path.dirname(path), exist_ok=True)
    shutil.copyfile(source, f"{path}.new")
    os.chmod(f"{path}.new", mode)
    os.replace(f"{path}.new", path)


def verdict(how):
    """A sentence that says whether the program is proved."""
    return {"proved": "The program is proved.", "unproved": "Nothing of the program was proved."}.get(
        how, "The program isn't known to be built from these sources, and not known to be proved.")


def main(arguments):
    parser = parser_of("install", __doc__)
    parser.add_argument("--prefix", metavar="P", default="/usr/local", help="the folder above bin and share (/usr/local)")
    parser.add_argument("--program", metavar="PATH", help="the program that is installed (see above)")
    asked = parser.parse_args(arguments)
    program, how = chosen(asked.program)
    prefix = os.path.abspath(asked.prefix)
    try:
        for place, source, mode in files_of(program):
            put(source, os.path.join(prefix, place), mode)
            print(os.path.join(prefix, place))
    except OSError as error:
        print(f"{error.strerror}: {error.filename}", file=sys.stderr)
        return 1
    print(verdict(how))
    return 0
