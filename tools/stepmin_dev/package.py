"""Packs the program, its manual page and completions as a tar.gz for other machines.

Writes into FOLDER: stepmin-VERSION-MACHINE.tar.gz, its checksum for `sha256sum -c` with .sha256 after the name, and a
line with .txt after the name. The line says from which commit it is and whether the program is proved.
The archive has the files of `tools/dev install`, and this line as BUILD.
The same program at the same commit gives the same archive, byte by byte.

Status: 0 if all is written; 2 if there is no program.
"""
import gzip
import hashlib
import io
import os
import platform
import re
import shutil
import struct
import subprocess
import tarfile

from .install import chosen, files_of
from .options import parser_of
from .repository import ROOT

INTERPRETER = 3


def git(*arguments):
    """What git prints, or nothing if it fails."""
    ran = subprocess.run(["git", *arguments], cwd=ROOT, capture_output=True, text=True, check=False)
    return ran.stdout.strip() if ran.returncode == 0 else ""


def is_static(program):
    """Whether an ELF program of 64 bits names no interpreter, so that it needs no shared libraries."""
    with open(program, "rb") as file:
        text = file.read()
    begin, = struct.unpack_from("<Q", text, 32)
    size, count = struct.unpack_from("<HH", text, 54)
    return all(struct.unpack_from("<I", text, begin + k * size)[0] != INTERPRETER for k in range(count))


def origin(program, how):
    """The line that says from which commit the program is, and whether it is proved."""
    version = subprocess.run([program, "--version"], stdout=subprocess.PIPE, text=True, check=True).stdout.strip()
    commit = git("rev-parse", "--short=12", "HEAD") or "unknown"
    changed = " with uncommitted changes" if git("status", "--porcelain") else ""
    toolchain = subprocess.run(["rt", "version"], capture_output=True, text=True, check=False).stdout if shutil.which("rt") else ""
    logic = re.search(r"logic \w+", toolchain)
    proof = {"proved": f"proved with {logic[0] if logic else 'an unknown toolchain'}", "unproved": "not proved"}.get(
        how, "not known to be built from that commit, and not known to be proved")
    linked = "static" if is_static(program) else "linked with the C library of the system"
    return f"{version}, commit {commit}{changed}, {proof}; for {platform.machine()} {platform.system()}, {linked}"


def pack(path, top, files, time):
    """Writes an archive of files, each with its place, text and mode."""
    with open(path, "wb") as raw, gzip.GzipFile(filename="", mode="wb", fileobj=raw, mtime=time) as packed:
        with tarfile.open(fileobj=packed, mode="w", format=tarfile.USTAR_FORMAT) as archive:
            for place, text, mode in sorted(files):
                it = tarfile.TarInfo(f"{top}/{place}")
                it.size, it.mode, it.mtime = len(text), mode, time
                archive.addfile(it, io.BytesIO(text))


def content(path):
    with open(path, "rb") as file:
        return file.read()


def main(arguments):
    parser = parser_of("package", __doc__)
    parser.add_argument("--to", metavar="FOLDER", default=os.path.join(ROOT, "out", "package"), help="where it is written (out/package)")
    parser.add_argument("--program", metavar="PATH", help="the program that is packed (as for `tools/dev install`)")
    asked = parser.parse_args(arguments)
    program, how = chosen(asked.program)
    line = origin(program, how)
    top = line.split(",")[0].replace(" ", "-")
    name = f"{top}-{platform.machine()}-{platform.system().lower()}.tar.gz"
    path = os.path.join(asked.to, name)
    os.makedirs(asked.to, exist_ok=True)
    files = [(place, content(source), mode) for place, source, mode in files_of(program)]
    pack(path, top, [*files, ("BUILD", f"{line}\n".encode(), 0o644)], int(git("log", "-1", "--format=%ct") or 0))
    for end, text in ((".sha256", f"{hashlib.sha256(content(path)).hexdigest()}  {name}\n"), (".txt", f"{line}\n")):
        with open(path + end, "w", encoding="utf-8") as file:
            file.write(text)
    print(path, f"{path}.sha256", f"{path}.txt", line, sep="\n")
    return 0
