"""Makes each growth of memory and each system call fail in turn, and looks at what the program says and leaves.

Runs each command on the files of the suite `statuses`, with a small library before the C library, which `cc` builds.
The library refuses the Nth block of memory, or fails the Nth call, for each N.
Calls are those that open, read, write, sync, rename or ask about a file, or ask for random bytes.
Each command also runs once with reads and writes of one byte a call, which has to change nothing.
`shrink` also has each call fail with reads and writes of one byte a call.

- If memory is refused, the program has to print `memory`, end with 5 and have written nothing; or do all that it does
  otherwise, since some blocks are only asked for ahead or made smaller. If the block is for the name of the file beside
  OUT or CERT, it may report that device instead.
- If a call fails, the program has to report the device and end with 4. What it has written has to be a prefix of the
  right text.
- If files existed under OUT and CERT, one failing call replaces OUT alone, the one that renames CERT. None replaces
  CERT alone.

Status: 0 if all of it is so; 1 if something isn't; 2 if the arguments are wrong.
"""
import os
import re
import subprocess
import tempfile
from typing import NamedTuple

from ..options import parser_of, program_of
from .statuses import FILES, FOUR, MERGE, WRITTEN, write_files

LIBRARY = """
#define _GNU_SOURCE
#include <dlfcn.h>
#include <errno.h>
#include <fcntl.h>
#include <stdarg.h>
#include <stdio.h>
#include <stdlib.h>
#include <sys/stat.h>
#include <sys/types.h>
#include <unistd.h>

static long blocks, calls;
static long number(const char *name) { const char *text = getenv(name); return text ? atol(text) : -1; }
static int refused(void) { if (++blocks != number("FAILING_BLOCK")) return 0; errno = ENOMEM; return 1; }
static int failed(void) { if (++calls != number("FAILING_CALL")) return 0; errno = EIO; return 1; }
static size_t part(size_t size) { return size > 1 && number("FAILING_SIZE") == 1 ? 1 : size; }
#define NEXT(name) ((__typeof__(&name))dlsym(RTLD_NEXT, #name))

void *malloc(size_t size) { return refused() ? NULL : NEXT(malloc)(size); }
void *realloc(void *block, size_t size) { return refused() ? NULL : NEXT(realloc)(block, size); }
ssize_t read(int file, void *into, size_t size) { return failed() ? -1 : NEXT(read)(file, into, part(size)); }
ssize_t write(int file, const void *from, size_t size) { return failed() ? -1 : NEXT(write)(file, from, part(size)); }
ssize_t __write(int file, const void *from, size_t size) { return write(file, from, size); }
int getentropy(void *into, size_t size) { return failed() ? -1 : NEXT(getentropy)(into, size); }
int open(const char *path, int flags, ...) {
    va_list rest;
    va_start(rest, flags);
    int mode = va_arg(rest, int);
    va_end(rest);
    return failed() ? -1 : NEXT(open)(path, flags, mode);
}
int fsync(int file) { return failed() ? -1 : NEXT(fsync)(file); }
int fchown(int file, uid_t owner, gid_t group) { return failed() ? -1 : NEXT(fchown)(file, owner, group); }
ssize_t readlink(const char *path, char *into, size_t size) { return failed() ? -1 : NEXT(readlink)(path, into, size); }
int fchmod(int file, mode_t mode) { return failed() ? -1 : NEXT(fchmod)(file, mode); }
int statx(int folder, const char *path, int flags, unsigned mask, struct statx *into) {
    return failed() ? -1 : NEXT(statx)(folder, path, flags, mask, into);
}
int rename(const char *from, const char *to) { return failed() ? -1 : NEXT(rename)(from, to); }
__attribute__((destructor)) static void count(void) {
    const char *path = getenv("FAILING_COUNTS");
    if (!path) return;
    FILE *file = fopen(path, "w");
    if (file) { fprintf(file, "%ld %ld", blocks, calls); fclose(file); }
}
"""

REPLACING = ["shrink", "geo.exp", "self.stp", "self.stp", "bad.cert", *MERGE]
COMMANDS = [
    ["--help"],
    ["plain", "a", "b"],
    ["plain", "spelt.stp"],
    ["check", "geo.exp", "equal.stp"],
    ["check", "geo.exp", "broken.stp"],
    ["shrink", "geo.exp", "equal.stp", *WRITTEN, *MERGE],
    REPLACING,
    ["verify", *FOUR],
]
ROLES = ["output", "certificate"]
SMALL = {name: text for name, text in FILES.items() if name != "large.stp"}


class Answer(NamedTuple):
    """The result of a run, with the files that it changed."""

    status: int
    out: str
    err: str
    made: dict


def changed(folder):
    """The texts of files that are new or changed."""
    texts = {}
    for name in os.listdir(folder):
        with open(os.path.join(folder, name), encoding="ascii") as file:
            texts[name] = file.read()
    return {name: text for name, text in texts.items() if SMALL.get(name) != text}


class Trial(NamedTuple):
    """The program, the library before the C library, and a folder of files."""

    program: str
    library: str
    folder: str

    def run(self, words, **failing):
        write_files(self.folder, SMALL)
        environment = {**os.environ, "LD_PRELOAD": self.library, **{name: str(it) for name, it in failing.items()}}
        done = subprocess.run([self.program, *words], cwd=self.folder, stdin=subprocess.DEVNULL, env=environment,
                              capture_output=True, text=True, timeout=60, check=False)
        return Answer(done.returncode, done.stdout, done.stderr, changed(self.folder))


def is_refused(answer, whole):
    """Whether memory ran out before anything was written, or everything was done, or a file had no name."""
    unmade = answer._replace(made={}) in [Answer(4, "", f"device: {role} after 0 bytes\n", {}) for role in ROLES]
    return answer in (whole, Answer(5, "", "memory\n", {})) or unmade and is_prefix(answer, whole)


def is_prefix(answer, whole):
    """Whether a device failed, and what was written is a prefix of the right text."""
    prefixes = all(whole.made.get(name, "").startswith(text) for name, text in answer.made.items())
    is_text = whole.status == 3 or whole.out.startswith("Checks STEP files")
    said = not answer.err if is_text else answer.err.startswith("device: ") and answer.err.count("\n") == 1
    return answer.status == 4 and said and prefixes and whole.out.startswith(answer.out)


def counts(trial, words, **failing):
    """The numbers of blocks of memory and of calls."""
    path = trial.library + ".counts"
    trial.run(words, FAILING_COUNTS=path, **failing)
    with open(path, encoding="ascii") as file:
        return map(int, file.read().split())


def failures(trial, words, whole, name, count, is_right):
    """How often everything was done though something failed; `None` if a result is wrong."""
    done = 0
    for number in range(1, count + 1):
        answer = trial.run(words, **{name: number})
        if not is_right(answer, whole):
            print(f"{words}, {name} {number}: {answer}")
            return None
        done += answer == whole
    return done


def is_robust(trial, words):
    """Whether a command passes with each failure, and prints how many there were."""
    whole = trial.run(words)
    blocks, calls = counts(trial, words)
    done = failures(trial, words, whole, "FAILING_BLOCK", blocks, is_refused)
    if done is None or failures(trial, words, whole, "FAILING_CALL", calls, is_prefix) is None:
        return False
    print(f"{' '.join(words)}: {blocks} blocks of memory, all is done without each of {done}; {calls} calls", flush=True)
    if trial.run(words, FAILING_SIZE=1) != whole:
        print(f"{words}: one byte a call makes a difference")
        return False
    return True


def is_told_byte_by_byte(trial):
    """Whether `shrink` reports after how many bytes OUT or CERT fails, for each number of bytes."""
    words = ["shrink", "geo.exp", "equal.stp", *WRITTEN, *MERGE]
    whole, told = trial.run(words), set()
    _, calls = counts(trial, words, FAILING_SIZE=1)
    for number in range(1, calls + 1):
        answer = trial.run(words, FAILING_SIZE=1, FAILING_CALL=number)
        said = re.fullmatch(r"device: (output|certificate) after (\d+) bytes\n", answer.err)
        written = [answer.made.get(name, "") for name in WRITTEN]
        if said and answer.made == whole.made:
            said = None  # the report, which goes to the standard output once both files are whole
        if said:
            is_output, count = said[1] == "output", int(said[2])
            wanted = [whole.made[WRITTEN[0]], whole.made[WRITTEN[1]]]
            wanted = [wanted[0][:count], ""] if is_output else [wanted[0], wanted[1][:count]]
            if not is_output and count == 0 and not answer.made:
                wanted = ["", ""]  # CERT's path can't be looked at, which comes before anything is written
            told.add((said[1], count))
        if not is_prefix(answer, whole) or said and written != wanted:
            print(f"{words}, one byte a call, call {number}: {answer}")
            return False
    missing = {(role, k) for role, name in zip(ROLES, WRITTEN) for k in range(len(whole.made[name]))} - told
    print(f"shrink, one byte a call: {calls} calls, {len(told)} numbers of bytes reported, {len(missing)} missing")
    return not missing


def are_replaced_in_turn(trial):
    """Whether each failing call replaces both files or neither, except one call, which replaces OUT."""
    _, calls = counts(trial, REPLACING)
    made = [sorted(trial.run(REPLACING, FAILING_CALL=number).made) for number in range(1, calls + 1)]
    alone = [names for names in made if len(names) == 1]
    if alone != [["self.stp"]]:
        print(f"{REPLACING}: replaced alone by a failing call: {alone}")
    return alone == [["self.stp"]]


def main(arguments):
    asked = parser_of("test failing", __doc__, program="the program that is tested").parse_args(arguments)
    program = program_of(asked.program)
    with tempfile.TemporaryDirectory() as folder, tempfile.TemporaryDirectory() as files:
        library = os.path.join(folder, "failing.so")
        subprocess.run(["cc", "-O1", "-shared", "-fPIC", "-x", "c", "-", "-o", library, "-ldl"], input=LIBRARY, text=True,
                       check=True)
        trial = Trial(program, library, files)
        return 0 if all([*(is_robust(trial, command) for command in COMMANDS), is_told_byte_by_byte(trial),
                         are_replaced_in_turn(trial)]) else 1

