"""Reports which modules of proofs take longest, while a gate runs beside it.

A proof checks one module after the other and writes each into a folder of its own.
So the time between two files is what the second took.
Looks at these folders every four seconds until no proof has run for two minutes, and keeps what it saw in FILE.
Then prints the dearest modules with their seconds and the size of their files, and the sum of each kind of module.
`Lts` is the borrow checker's part of a function; `Proof`, `Tie` and `Answers` are the rest of it.
`carried` is the last step of a crate.
If FILE exists and no proof runs, FILE is printed.
"""
import glob
import json
import os
import tempfile
import time

from .options import parser_of

FOLDERS = os.path.join(tempfile.gettempdir(), "rattle-logic-built-locked-*-0")
QUIET = 120


def kind_of(words, folder):
    return "edit" if "/rt-edit-" in folder else "test" if "--test" in words else "proof"


def crate_of(process):
    """The crate that a process proves, and what of it: its proof, a test or an edit; `None` if it proves nothing."""
    try:
        with open(f"/proc/{process}/cmdline", encoding="utf-8") as file:
            words = file.read().split("\0")
        folder = os.readlink(f"/proc/{process}/cwd")
    except OSError:
        return None
    if "--crate-name" not in words:
        return None
    return f"{words[words.index('--crate-name') + 1]} {kind_of(words, folder)}"


def look(seen):
    """Adds the files that are there now, with their times and sizes. Returns whether there are any."""
    folders = glob.glob(FOLDERS)
    for folder in folders:
        process = folder.split("-")[-2]
        run = seen.setdefault(process, {"crate": None, "files": {}})
        run["crate"] = run["crate"] or crate_of(process)
        try:
            for entry in os.scandir(folder):
                stat = entry.stat()
                run["files"][entry.name] = (stat.st_mtime, stat.st_size)
        except OSError:
            pass
    return bool(folders)


def watch(path):
    seen, last = {}, time.time()
    while time.time() - last < QUIET:
        if look(seen):
            last = time.time()
            with open(path, "w", encoding="utf-8") as file:
                json.dump(seen, file)
        time.sleep(4)


def kind_of_module(name):
    parts = name.split(".")
    kinds = ("Lts", "Proof", "Tie", "Answers", "carried")
    return next((kind for kind in kinds if any(part.startswith(kind) for part in parts)), "other")


def modules(seen):
    """Yields the seconds, size, crate and name of each module."""
    for run in seen.values():
        files = sorted((when, size, name) for name, (when, size) in run["files"].items())
        for (before, _, _), (when, size, name) in zip(files, files[1:]):
            yield when - before, size, run["crate"] or "?", name.removesuffix(".oantt")


def main(arguments):
    parser = parser_of("cost modules", __doc__)
    parser.add_argument("file", metavar="FILE", nargs="?", default=os.path.join(tempfile.gettempdir(), "modules.json"),
                        help="what was seen (modules.json in the temporary folder)")
    parser.add_argument("--count", metavar="N", type=int, default=60, help="how many modules are printed (60)")
    asked = parser.parse_args(arguments)
    path, count = asked.file, asked.count
    if glob.glob(FOLDERS) or not os.path.exists(path):
        watch(path)
    with open(path, encoding="utf-8") as file:
        found = sorted(modules(json.load(file)), reverse=True)
    for seconds, size, crate, name in found[:count]:
        print(f"{seconds:6.1f} s {size / 1e6:6.2f} MB  {crate:32} {name}")
    sums = {}
    for seconds, _, _, name in found:
        sums[kind_of_module(name)] = sums.get(kind_of_module(name), 0) + seconds
    print(", ".join(f"{kind} {seconds:.0f} s" for kind, seconds in sorted(sums.items(), key=lambda it: -it[1])))
    return 0
