"""The repository: its crates, copies of it, and programs that are proved and built in such a copy."""
import os
import shutil
import subprocess
import sys

TOOLS = os.path.dirname(os.path.dirname(os.path.abspath(__file__)))
ROOT = os.path.dirname(TOOLS)
CRATES = os.path.join(ROOT, "crates")
RT = os.path.join(TOOLS, "rt.py")
READ_BY_PROOFS = ("src", "specs", "proofs")


def manifest():
    """The crates, each with the ones it stands on, in the order of crates.txt."""
    with open(os.path.join(ROOT, "crates.txt"), encoding="ascii") as file:
        rows = [line.split(":") for line in file if not line.startswith("#")]
    return {name: below.split() for name, below in rows}


def needed(crates, names):
    """Crates and those that they stand on, in the order of `crates`."""
    found, left = set(), list(names)
    while left:
        name = left.pop()
        if name in crates and name not in found:
            found.add(name)
            left += crates[name]
    return [name for name in crates if name in found]


def copy_crates(folder, names):
    """Copies crates and those that they stand on: sources, proofs and lines of crates.txt. Returns their names."""
    crates = manifest()
    own = needed(crates, names)
    for name in own:
        for part in READ_BY_PROOFS:
            if os.path.isdir(os.path.join(CRATES, name, part)):
                shutil.copytree(os.path.join(CRATES, name, part), os.path.join(folder, "crates", name, part))
    shutil.copy(os.path.join(ROOT, "HANDLES"), folder)
    write_manifest(folder, {name: crates[name] for name in own})
    return own


def write_manifest(folder, crates):
    """Adds lines to crates.txt of a copy."""
    with open(os.path.join(folder, "crates.txt"), "a", encoding="ascii") as file:
        file.writelines(f"{name}: {' '.join(below)}\n" for name, below in crates.items())


def proved(folder, name, told=lambda line: None):
    """The path of the program of crate `name`, proved and built in a copy of the repository.

    What the gate has proved on this machine isn't proved again. `told` gets each line of the log.
    """
    ran = subprocess.Popen([sys.executable, RT, "ci"], cwd=folder, stdout=subprocess.PIPE, stderr=subprocess.STDOUT,
                           text=True, errors="replace")
    log = []
    for line in ran.stdout:
        log.append(line)
        told(line)
    ran.wait()
    program = os.path.join(folder, "crates", name, "out", name)
    if not os.path.exists(program):
        sys.exit("".join(log[-40:]) + f"{name} isn't proved")
    return program


def copy_repository(folder):
    """Copies the repository with uncommitted changes and the libraries that `rt check` has built."""
    listed = subprocess.run(["git", "ls-files", "-co", "--exclude-standard", "-z"], cwd=ROOT, stdout=subprocess.PIPE,
                            text=True, check=True)
    for path in filter(None, listed.stdout.split("\0")):
        if os.path.isfile(os.path.join(ROOT, path)):
            os.makedirs(os.path.dirname(os.path.join(folder, path)), exist_ok=True)
            shutil.copy2(os.path.join(ROOT, path), os.path.join(folder, path))
    for name in os.listdir(os.path.join(folder, "crates")):
        libraries = os.path.join(CRATES, name, "out", "rlib")
        if os.path.isdir(libraries):
            shutil.copytree(libraries, os.path.join(folder, "crates", name, "out", "rlib"))
