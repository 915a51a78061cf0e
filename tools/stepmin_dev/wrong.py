"""Tries the edits of crates/NAME/wrong, which the gate doesn't try: the prover has to refuse each.

Without CRATE it tries the edits of every crate that has such a folder.
An edit is a file NAME.edit with the lines of a must-fail edit, and a line `why:` that says what the wrong body does.
Each `old` text has to stand once in its file below src/.
The edits are tried by `rt must-fail` on a copy of the repository in a temporary folder, uncommitted changes included.
Libraries that `rt check` has built are taken along; others are built first.

Status: 0 if each edit is refused; 1 if one isn't, or doesn't apply; 2 if a crate has no such folder.
"""
import os
import shutil
import subprocess
import sys
import tempfile

from .options import parser_of
from .repository import ROOT, RT, copy_repository


def main(arguments):
    parser = parser_of("wrong", __doc__)
    parser.add_argument("crates", nargs="*", metavar="CRATE", help="a crate with a folder wrong/ (all of them)")
    asked = parser.parse_args(arguments).crates
    has_edits = lambda name: os.path.isdir(os.path.join(ROOT, "crates", name, "wrong"))
    names = asked or [name for name in sorted(os.listdir(os.path.join(ROOT, "crates"))) if has_edits(name)]
    unknown = [name for name in names if not has_edits(name)]
    if unknown:
        print(*(f"there is no folder crates/{name}/wrong" for name in unknown), sep="\n")
        return 2
    faults = [fault for name in names for fault in faults_of(os.path.join(ROOT, "crates", name))]
    if faults:
        print("no edit was tried, since some don't apply:", *faults, sep="\n")
        return 1
    with tempfile.TemporaryDirectory(prefix="wrong-") as folder:
        return tried(folder, names)


def faults_of(crate):
    """Yields a line for each edit of a crate that doesn't apply."""
    folder = os.path.join(crate, "wrong")
    for name in sorted(os.listdir(folder)):
        if name.endswith(".edit"):
            with open(os.path.join(folder, name), encoding="utf-8") as file:
                fault = fault_of(file.read().split("\n"), crate)
        else:
            fault = None if name.endswith(".md") else "its name doesn't end in .edit"
        if fault:
            yield f"{os.path.relpath(os.path.join(folder, name), ROOT)}: {fault}"


def fault_of(lines, crate):
    """The reason why an edit doesn't apply, or `None`."""
    texts, path, old, pairs = {}, None, None, 0
    for line in lines:
        word, _, rest = line.partition(":")
        rest = rest.removeprefix(" ")
        if word == "file":
            path = rest.strip()
            if path != os.path.normpath(path) or not path.startswith("src/"):
                return "a `file:` line names no file below src/"
            if not os.path.isfile(os.path.join(crate, path)):
                return f"there is no file {path}"
            if path not in texts:
                with open(os.path.join(crate, path), encoding="utf-8") as file:
                    texts[path] = file.read()
        elif word == "old":
            old = rest
        elif word == "new":
            if not path or not old:
                return "a `new:` line has no `file:` or `old:` line before it"
            count = texts[path].count(old)
            if count != 1:
                return f"an `old:` text stands {count} times in {path}, and not once"
            texts[path], old, pairs = texts[path].replace(old, rest), None, pairs + 1
    if not any(line.startswith("why: ") for line in lines):
        return "it has no line `why:`"
    return None if pairs else "it has no `old:` and `new:` lines"


def tried(folder, names):
    """Tries the edits of crates in a copy of the repository, and returns the status."""
    copy, work = os.path.join(folder, "copy"), os.path.join(folder, "work")
    os.mkdir(work)
    copy_repository(copy)
    for name in names:
        crate = os.path.join(copy, "crates", name)
        shutil.rmtree(os.path.join(crate, "must-fail"), ignore_errors=True)
        os.rename(os.path.join(crate, "wrong"), os.path.join(crate, "must-fail"))
    # TMPDIR: what rt makes for each edit is removed with the folder.
    ran = subprocess.Popen([sys.executable, RT, "must-fail", *names], cwd=copy, env={**os.environ, "TMPDIR": work})
    try:
        return 1 if ran.wait() else 0
    finally:
        if ran.poll() is None:
            ran.terminate()
            ran.wait()
