"""Kills `shrink` at many moments of its run, and looks at the files then.

Runs `shrink` on a file that it is to replace, with a certificate that exists already.
Half of the moments are spread over the whole run, the other half over its end, when it writes.
At each moment the file has to be the old one or the new one, whole, and so has the certificate.
The new certificate may be there only if the new file is. Permissions have to stay as they were.

Status: 0 if all of it is so; 1 if something isn't; 2 if the arguments are wrong.
"""
import os
import stat
import subprocess
import tempfile
import time

from ..bench.files import ALL, FILES, SCHEMA, write
from ..options import parser_of, program_of

OLD_CERTIFICATE = b"what stood there\n"
MODE = 0o640


def content(folder, name):
    with open(os.path.join(folder, name), "rb") as file:
        return file.read()


def lay(folder, old):
    """Writes the files as they are before a run, and removes what a killed run has left."""
    for name in os.listdir(folder):
        if name.startswith("."):
            os.remove(os.path.join(folder, name))
    for name, text in (("file.stp", old), ("file.cert", OLD_CERTIFICATE)):
        path = os.path.join(folder, name)
        with open(path, "wb") as file:
            file.write(text)
        os.chmod(path, MODE)


def start(program, folder):
    words = ["shrink", "schema.exp", "file.stp", "file.stp", "file.cert", "--merge", ALL]
    return subprocess.Popen([program, *words], cwd=folder, stdout=subprocess.DEVNULL, stderr=subprocess.DEVNULL)


def found(folder, olds, news):
    """For each of the two files whether it is the new one; `None` if one is neither, or has another mode."""
    told = []
    for name, old, new in zip(("file.stp", "file.cert"), olds, news):
        text = content(folder, name)
        mode = stat.S_IMODE(os.stat(os.path.join(folder, name)).st_mode)
        if text not in (old, new) or mode != MODE:
            return None
        told.append(text == new)
    return tuple(told)


def main(arguments):
    asked = parser_of("test killed", __doc__, program="the program that is tested", size=(8, "megabytes of the file"),
                      runs=(200, "how many runs are killed")).parse_args(arguments)
    program, half = program_of(asked.program), (asked.runs + 1) // 2
    with tempfile.TemporaryDirectory() as folder:
        with open(os.path.join(folder, "schema.exp"), "w", encoding="ascii") as file:
            file.write(SCHEMA)
        write(os.path.join(folder, "file.stp"), FILES["points"](asked.size * 10**6))
        olds = content(folder, "file.stp"), OLD_CERTIFICATE
        lay(folder, olds[0])
        began = time.perf_counter()
        if start(program, folder).wait() != 0:
            print("a run that isn't killed fails")
            return 1
        took = time.perf_counter() - began
        news = content(folder, "file.stp"), content(folder, "file.cert")
        seen = {}
        moments = [took * k / half for k in range(half)] + [took * (0.8 + 0.3 * k / half) for k in range(asked.runs - half)]
        for moment in moments:
            lay(folder, olds[0])
            process = start(program, folder)
            time.sleep(moment)
            process.kill()
            process.wait()
            what = found(folder, olds, news)
            if what in (None, (False, True)):
                print(f"killed after {moment:.3f} of {took:.3f} s: a file is wrong")
                return 1
            seen[what] = seen.get(what, 0) + 1
    for what, count in sorted(seen.items()):
        names = ["the new one" if it else "the old one" for it in what]
        print(f"{count} times the file is {names[0]} and the certificate {names[1]}")
    return 0

