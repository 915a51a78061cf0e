"""Runs `shrink` on the real file system where a file of a user could be lost, and looks at what stays.

- Paths that reach one file by links without a target, a folder that is mounted twice, or where the absolute path can't
  be found: the arguments have to be refused, and nothing is written.
- Files that are replaced: owner, group and permissions stay, or the old file stays and the status is 4.
- Runs side by side with one OUT and one CERT, of which neither exists: each file has to be that of one run.
- Standard streams that are closed, or that go to OUT or CERT.
- Runs that are killed, or that exceed a limit of size: old files stay, and what is left over has a name that tells.

Some rows need the rights of root, and some that a folder may be mounted; they are skipped otherwise, and listed.

Status: 0 if all of it is so; 1 if something isn't; 2 if the arguments are wrong.
"""
import os
import re
import resource
import shutil
import signal
import stat
import subprocess
import tempfile
import time
from typing import NamedTuple, Optional

from ..options import parser_of, program_of
from .statuses import FILES, MERGE, SCHEMA

PAIRS, KILLS = 300, 200
SHOWN = 6  # lines of a row
OWNER, RUNNER, GROUP = 4101, 4102, 4103
OLD = b"what stood there\n"
LEFT_OVER = re.compile(r"\.(out\.stp|out\.cert)\.stepmin-\d+")
CLASH = "error: {} and {} are the same file\n"


class Skipped(Exception):
    """A row that can't be tried here, with the reason."""


class Ended(NamedTuple):
    """The result of a run."""

    status: int
    out: bytes
    err: bytes


class Trial(NamedTuple):
    """The program, and a folder that each user may enter."""

    program: str
    folder: str

    def start(self, words, folder=None, prepare=None, **streams):
        given = {"stdin": subprocess.DEVNULL, "stdout": subprocess.PIPE, "stderr": subprocess.PIPE, **streams}
        command = [self.program, "shrink", *words, *MERGE]
        return subprocess.Popen(command, cwd=folder or self.folder, preexec_fn=prepare, **given)

    def run(self, *words, folder=None, prepare=None, **streams):
        """The result of `shrink` with these arguments; `prepare` is called in the process before it begins."""
        process = self.start(words, folder, prepare, **streams)
        out, err = process.communicate(timeout=60)
        return Ended(process.returncode, out or b"", err or b"")

    def path(self, name):
        return os.path.join(self.folder, name)

    def write(self, name, text=OLD):
        with open(self.path(name), "wb") as file:
            file.write(text)
        return self.path(name)

    def read(self, name):
        """The content of a file; `None` if there is none."""
        try:
            with open(self.path(name), "rb") as file:
                return file.read()
        except FileNotFoundError:
            return None

    def right(self, file="equal.stp"):
        """OUT and CERT as a run writes them to files that don't exist, and its report."""
        ended = self.run("geo.exp", file, "right.stp", "right.cert")
        texts = self.read("right.stp"), self.read("right.cert"), ended.out
        os.remove(self.path("right.stp"))
        os.remove(self.path("right.cert"))
        return texts

    def left_over(self):
        """The names of hidden files, and the faults of those that don't tell where they come from."""
        names = [name for name in os.listdir(self.folder) if name.startswith(".")]
        return names, [f"a file {name} is left over" for name in names if not LEFT_OVER.fullmatch(name)]


def faults_of(ended, status, err):
    """What is wrong with the status and the standard error of a run."""
    wanted = err.encode()
    found = [] if ended.status == status else [f"the status is {ended.status}, not {status}"]
    return found if ended.err == wanted else [*found, f"the standard error is {ended.err[:100]!r}, not {wanted!r}"]


def files_wrong(trial, **wanted):
    """A line for each file that hasn't the wanted content; `None` means that there is none."""
    names = {name.replace("_", "."): text for name, text in wanted.items()}
    return [f"{name} is wrong: {(trial.read(name) or b'')[:40]!r}" for name, text in names.items() if trial.read(name) != text]


def clash_wrong(trial, words, first, second, **how):
    """What is wrong with a run whose arguments have to be refused for two files that are the same."""
    before = {name: trial.read(name) for name in os.listdir(trial.folder) if os.path.isfile(trial.path(name))}
    faults = faults_of(trial.run(*words, **how), 3, CLASH.format(first, second))
    after = {name: trial.read(name) for name in os.listdir(trial.folder) if os.path.isfile(trial.path(name))}
    return faults if before == after else [*faults, f"files were changed: {sorted(set(before.items()) ^ set(after.items()))[:2]}"]


def links_without_target(trial):
    """OUT or CERT is a link to the other one, which doesn't exist."""
    faults = []
    for link, target in (("out.cert", "out.stp"), ("out.stp", "out.cert"), ("out.cert", "./sub/../out.stp")):
        os.makedirs(trial.path("sub"), exist_ok=True)
        os.symlink(target, trial.path(link))
        faults += clash_wrong(trial, ["geo.exp", "equal.stp", "out.stp", "out.cert"], "OUT", "CERT")
        os.remove(trial.path(link))
        clear(trial)
    os.symlink("sub/second", trial.path("out.cert"))
    os.symlink(trial.path("out.stp"), trial.path("sub/second"))
    return faults + clash_wrong(trial, ["geo.exp", "equal.stp", "out.stp", "out.cert"], "OUT", "CERT")


def links_to_new_files(trial):
    """OUT and CERT are links to files that don't exist, which are created there."""
    right = trial.right()
    os.symlink("new.stp", trial.path("out.stp"))
    os.symlink("out.stp.2", trial.path("out.cert"))
    os.symlink("new.cert", trial.path("out.stp.2"))
    faults = faults_of(trial.run("geo.exp", "equal.stp", "out.stp", "out.cert"), 0, "")
    faults += files_wrong(trial, new_stp=right[0], new_cert=right[1])
    return faults if os.path.islink(trial.path("out.stp")) else [*faults, "the link out.stp is replaced"]


def no_absolute_path(trial):
    """CERT is another spelling of FILE, in a folder whose absolute path the user can't find."""
    needs_root()
    inner = trial.path("shut/inner")
    os.makedirs(inner)
    for name in ("geo.exp", "equal.stp"):
        shutil.copy(trial.path(name), inner)
    for path in (inner, *(os.path.join(inner, name) for name in ("geo.exp", "equal.stp"))):
        os.chown(path, RUNNER, RUNNER)
    os.chmod(trial.path("shut"), 0o600)
    words = ["geo.exp", "equal.stp", "out.stp", "./equal.stp"]
    return clash_wrong(Trial(trial.program, inner), words, "FILE", "CERT", prepare=lambda: become(RUNNER))


def long_path(trial):
    """CERT is another spelling of FILE, in a folder whose path is longer than the system takes."""
    faults, above = [], os.open(trial.folder, os.O_RDONLY)
    for _ in range(20):
        os.mkdir("d" * 250, dir_fd=above)
        below = os.open("d" * 250, os.O_RDONLY, dir_fd=above)
        os.close(above)
        above = below
    for name in ("geo.exp", "equal.stp"):
        with os.fdopen(os.open(name, os.O_WRONLY | os.O_CREAT, 0o644, dir_fd=above), "wb") as file:
            file.write(trial.read(name))
    ended = trial.run("geo.exp", "equal.stp", "out.stp", "./equal.stp", prepare=lambda: os.fchdir(above))
    faults = faults_of(ended, 3, CLASH.format("FILE", "CERT"))
    with os.fdopen(os.open("equal.stp", os.O_RDONLY, dir_fd=above), "rb") as file:
        faults += [] if file.read() == trial.read("equal.stp") else ["FILE is lost"]
    os.close(above)
    return faults


def folder_mounted_twice(trial):
    """Two paths of one name, in a folder that is mounted in two places."""
    needs_root()
    for name in ("once", "again"):
        os.mkdir(trial.path(name))
    if subprocess.run(["mount", "--bind", trial.path("once"), trial.path("again")], stderr=subprocess.DEVNULL, check=False).returncode:
        raise Skipped("a folder may not be mounted")
    try:
        shutil.copy(trial.path("equal.stp"), trial.path("once"))
        faults = clash_wrong(trial, ["geo.exp", "equal.stp", "once/out", "again/out"], "OUT", "CERT")
        return faults + clash_wrong(trial, ["geo.exp", "once/equal.stp", "out.stp", "again/equal.stp"], "FILE", "CERT")
    finally:
        subprocess.run(["umount", trial.path("again")], check=True)


def two_file_systems(trial):
    """OUT is replaced on another file system (tmpfs) than CERT."""
    right = trial.right()
    if not os.access("/dev/shm", os.W_OK):
        raise Skipped("/dev/shm may not be written")
    with tempfile.TemporaryDirectory(dir="/dev/shm") as other:
        with open(os.path.join(other, "out.stp"), "wb") as file:
            file.write(OLD)
        trial.write("out.cert")
        faults = faults_of(trial.run("geo.exp", "equal.stp", os.path.join(other, "out.stp"), "out.cert"), 0, "")
        with open(os.path.join(other, "out.stp"), "rb") as file:
            faults += [] if file.read() == right[0] else ["OUT is wrong"]
        return faults + files_wrong(trial, out_cert=right[1])


def hard_links(trial):
    """Two names of one file are told apart, and only the written one is replaced."""
    right = trial.right()
    os.link(trial.write("out.stp"), trial.path("out.cert"))
    faults = faults_of(trial.run("geo.exp", "equal.stp", "out.stp", "out.cert"), 0, "")
    faults += files_wrong(trial, out_stp=right[0], out_cert=right[1])
    os.link(trial.path("geo.exp"), trial.path("again.exp"))
    faults += faults_of(trial.run("geo.exp", "equal.stp", "out.stp", "again.exp"), 0, "")
    faults += files_wrong(trial, geo_exp=SCHEMA.encode(), again_exp=right[1])
    os.link(trial.path("equal.stp"), trial.path("again.stp"))
    return faults + clash_wrong(trial, ["geo.exp", "again.stp", "out.stp", "./again.stp"], "FILE", "CERT")


def long_names(trial):
    """Files that are replaced have names of 255 bytes."""
    right, faults = trial.right(), []
    for name in ("n" * 255, "ä" * 127, "𝄞" * 63):
        trial.write(name)
        faults += faults_of(trial.run("geo.exp", "equal.stp", name, "out.cert"), 0, "")
        faults += [] if trial.read(name) == right[0] else [f"{name[:9]}.. isn't replaced"]
    return faults


def owners_kept(trial):
    """A file of another user is replaced by root: owner, group and permissions stay. Set-id bits may go."""
    needs_root()
    right, faults = trial.right(), []
    for mode in (0o640, 0o604, 0o4750, 0o2750):
        for name in ("out.stp", "out.cert"):
            os.chown(trial.write(name), OWNER, GROUP)
            os.chmod(trial.path(name), mode)
        faults += faults_of(trial.run("geo.exp", "equal.stp", "out.stp", "out.cert"), 0, "")
        for name in ("out.stp", "out.cert"):
            faults += owner_wrong(trial, name, (OWNER, GROUP, mode & 0o777))
        faults += files_wrong(trial, out_stp=right[0], out_cert=right[1])
    return faults


def group_kept(trial):
    """A user replaces a file of another of their groups: the group stays."""
    needs_root()
    right, mine = trial.right(), shared(trial)
    os.chown(mine.write("out.stp"), RUNNER, GROUP)
    os.chmod(mine.path("out.stp"), 0o660)
    words = ["../geo.exp", "../equal.stp", "out.stp", "out.cert"]
    faults = faults_of(mine.run(*words, prepare=lambda: become(RUNNER, GROUP)), 0, "")
    return faults + owner_wrong(mine, "out.stp", (RUNNER, GROUP, 0o660)) + files_wrong(mine, out_stp=right[0])


def owner_not_kept(trial):
    """A user may write a file of another user, and can't give the new one to its owner: the old file stays."""
    needs_root()
    faults, mine = [], shared(trial)
    os.chown(mine.write("out.stp"), OWNER, GROUP)
    os.chmod(mine.path("out.stp"), 0o664)
    words = ["../geo.exp", "../equal.stp", "out.stp", "out.cert"]
    ended = mine.run(*words, prepare=lambda: become(RUNNER, GROUP))
    faults += faults_of(ended, 4, "device: output after 0 bytes\n") + files_wrong(mine, out_stp=OLD, out_cert=None)
    faults += owner_wrong(mine, "out.stp", (OWNER, GROUP, 0o664))
    ended = mine.run("../geo.exp", "../equal.stp", "new.stp", "out.stp", prepare=lambda: become(RUNNER, GROUP))
    faults += faults_of(ended, 4, "device: certificate after 0 bytes\n") + files_wrong(mine, out_stp=OLD)
    return faults + [f"{name} is left over" for name in mine.left_over()[0]]


def runs_side_by_side(trial):
    """Two runs write one OUT and one CERT that don't exist."""
    rights = [trial.right(file) for file in ("equal.stp", "plate.stp")]
    mixed, missed = 0, 0
    for _ in range(PAIRS):
        runs = [trial.start(["geo.exp", file, "out.stp", "out.cert"], stdout=subprocess.DEVNULL, stderr=subprocess.DEVNULL)
                for file in ("equal.stp", "plate.stp")]
        missed += any([process.wait(60) for process in runs])
        mixed += any(trial.read(name) not in [right[k] for right in rights] for k, name in enumerate(("out.stp", "out.cert")))
        clear(trial)
    faults = [f"{mixed} of {PAIRS} pairs of runs mix their files"] if mixed else []
    return [*faults, f"{missed} of {PAIRS} pairs of runs fail"] if missed else faults


def closed_streams(trial):
    """Standard streams are closed: what is written into OUT and CERT is their text alone."""
    right, faults = trial.right(), []
    for numbers in ([0], [1], [2], [0, 1], [0, 2], [1, 2], [0, 1, 2]):
        ended = trial.run("geo.exp", "equal.stp", "out.stp", "out.cert", stdout=subprocess.DEVNULL, stderr=subprocess.DEVNULL,
                          prepare=lambda: [os.close(number) for number in numbers])
        wanted = 4 if 1 in numbers else 0
        found = [] if ended.status == wanted else [f"the status is {ended.status}, not {wanted}"]
        found += files_wrong(trial, out_stp=right[0], out_cert=right[1])
        faults += [f"without {numbers}: {fault}" for fault in found]
        clear(trial)
    ended = trial.run("geo.exp", "/dev/stdin", "out.stp", "out.cert", prepare=lambda: os.close(0))
    return faults + faults_of(ended, 4, "device: file\n")


def streams_as_files(trial):
    """OUT or CERT is the file to which standard output or standard error goes: it keeps what stood in it."""
    faults = []
    for number, stream, names in ((1, "standard output", ["/dev/stdout", "/dev/fd/1", "/proc/self/fd/1", "log"]),
                                  (2, "standard error", ["/dev/stderr", "/dev/fd/2", "log"])):
        for name in names:
            for role, words in (("OUT", [name, "out.cert"]), ("CERT", ["out.stp", name])):
                for how in ("ab", "wb"):
                    trial.write("log")
                    with open(trial.path("log"), how) as log:
                        kept = b"" if how == "wb" else OLD
                        ended = trial.run("geo.exp", "equal.stp", *words, **{"stdout" if number == 1 else "stderr": log})
                    line = CLASH.format(role, stream)
                    found = faults_of(ended, 3, line if number == 1 else "")
                    found += files_wrong(trial, log=kept if number == 1 else kept + line.encode(), out_stp=None, out_cert=None)
                    faults += [f"{role} {name}, opened as {how}: {fault}" for fault in found]
                    clear(trial)
    return faults


def streams_as_pipes(trial):
    """OUT is a pipe or a device, which is written in place."""
    right = trial.right()
    ended = trial.run("geo.exp", "equal.stp", "/dev/stdout", "out.cert")
    faults = faults_of(ended, 0, "") + files_wrong(trial, out_cert=right[1])
    faults += [] if ended.out == right[0] + right[2] else [f"the standard output is {ended.out[-80:]!r}"]
    ended = trial.run("geo.exp", "equal.stp", "/dev/stdout", "/dev/stderr")
    faults += faults_of(ended, 0, right[1].decode())
    ended = trial.run("geo.exp", "equal.stp", "/dev/null", "/dev/./null", stdout=subprocess.DEVNULL)
    faults += faults_of(ended, 0, "")
    os.mkfifo(trial.path("pipe"))
    reader = subprocess.Popen(["cat", trial.path("pipe")], stdout=subprocess.PIPE)
    faults += faults_of(trial.run("geo.exp", "equal.stp", "pipe", "out.cert"), 0, "")
    return faults if reader.communicate()[0] == right[0] else [*faults, "the pipe gets another text"]


def name_left_over(trial):
    """A run is killed while the file that is to replace OUT is there: its name tells that, and the next run passes."""
    right = trial.right()
    trial.write("out.stp")
    os.mkfifo(trial.path("out.cert"))
    process = trial.start(["geo.exp", "equal.stp", "out.stp", "out.cert"])
    await_name(trial)
    process.kill()
    process.communicate()
    names, faults = trial.left_over()
    faults += files_wrong(trial, out_stp=OLD) + ([] if names else ["no file is left over, so nothing is tried"])
    os.remove(trial.path("out.cert"))
    faults += faults_of(trial.run("geo.exp", "equal.stp", "out.stp", "out.cert"), 0, "")
    return faults + files_wrong(trial, out_stp=right[0], out_cert=right[1])


def kills(trial):
    """Runs that replace OUT and CERT are killed at many moments."""
    right, faults = trial.right("plate.stp"), []
    began = time.perf_counter()
    trial.right("plate.stp")
    took = time.perf_counter() - began
    for k in range(KILLS):
        for name in ("out.stp", "out.cert"):
            trial.write(name)
        process = trial.start(["geo.exp", "plate.stp", "out.stp", "out.cert"])
        time.sleep(took * 1.2 * k / KILLS)
        process.kill()
        process.communicate()
        for name, new in (("out.stp", right[0]), ("out.cert", right[1])):
            faults += [] if trial.read(name) in (OLD, new) else [f"{name} is neither the old one nor the new one"]
        faults += trial.left_over()[1]
        faults += ["the certificate is new and OUT is old"] if (trial.read("out.stp"), trial.read("out.cert")) == (OLD, right[1]) else []
        clear(trial)
    return faults


def limit_of_size(trial):
    """A file would exceed the limit of size that the process has: the signal ends the run, and the old file stays."""
    trial.write("out.stp")
    limit = 100, 100
    ended = trial.run("geo.exp", "plate.stp", "out.stp", "out.cert", prepare=lambda: resource.setrlimit(resource.RLIMIT_FSIZE, limit))
    return faults_of(ended, -signal.SIGXFSZ, "") + files_wrong(trial, out_stp=OLD) + trial.left_over()[1]


def needs_root():
    if os.geteuid():
        raise Skipped("it needs the rights of root")


def become(user, *groups):
    """Makes the process that of another user, in further groups."""
    os.setgroups(groups)
    os.setgid(user)
    os.setuid(user)


def shared(trial):
    """A folder in which members of the group may write."""
    os.mkdir(trial.path("shared"))
    os.chown(trial.path("shared"), OWNER, GROUP)
    os.chmod(trial.path("shared"), 0o770)
    return Trial(trial.program, trial.path("shared"))


def owner_wrong(trial, name, wanted):
    found = os.stat(trial.path(name))
    told = found.st_uid, found.st_gid, stat.S_IMODE(found.st_mode) & 0o777
    return [] if told == wanted else [f"{name} has owner, group and mode {told}, not {wanted}"]


def await_name(trial):
    """Waits until a hidden file is there, at most some seconds."""
    for _ in range(500):
        if any(name.startswith(".") for name in os.listdir(trial.folder)):
            return
        time.sleep(0.01)


def clear(trial):
    """Removes what runs have written."""
    for name in os.listdir(trial.folder):
        if name.startswith(".") or name in ("out.stp", "out.cert", "log"):
            os.remove(trial.path(name))


ROWS = [
    links_without_target, links_to_new_files, no_absolute_path, long_path, folder_mounted_twice, two_file_systems,
    hard_links, long_names, owners_kept, group_kept, owner_not_kept, runs_side_by_side, closed_streams, streams_as_files,
    streams_as_pipes, name_left_over, kills, limit_of_size,
]


def faults_in(program, row) -> Optional[list]:
    """What is wrong in a row, which gets a folder of its own; `None` if the row is skipped."""
    with tempfile.TemporaryDirectory(prefix="files-") as folder:
        os.chmod(folder, 0o755)
        trial = Trial(program, folder)
        for name in ("geo.exp", "equal.stp", "plate.stp"):
            trial.write(name, FILES[name].encode())
        try:
            return row(trial)
        except Skipped as reason:
            print(f"{row.__name__} is skipped: {reason}")
            return None


def main(arguments):
    asked = parser_of("test files", __doc__, program="the program that is tested").parse_args(arguments)
    failed = 0
    with tempfile.TemporaryDirectory(prefix="files-") as folder:
        os.chmod(folder, 0o755)
        program = shutil.copy(program_of(asked.program), folder)
        os.chmod(program, 0o755)
        for row in ROWS:
            faults = faults_in(program, row)
            failed += bool(faults)
            for fault in (faults or [])[:SHOWN]:
                print(f"{row.__name__}: {fault}")
    print(f"{len(ROWS) - failed} of {len(ROWS)} rows passed or skipped")
    return 1 if failed else 0
