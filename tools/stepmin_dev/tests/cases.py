"""Runs the cases of tests/cases on the built program.

tests/cases/README.md describes a case. The runner copies a case to a temporary folder, runs the program there,
and compares status, standard output, standard error and all files, byte by byte. If `shrink` ends with 0,
`verify` has to accept what it wrote, a second `shrink` has to write the same OUT, and `plain` has to print it.
Each difference is a line; the last line counts the cases.

Status: 0 if each case holds, 1 if one doesn't, 2 if the arguments are wrong.
"""
import argparse
import fnmatch
import json
import os
import resource
import shutil
import subprocess
import sys
import tempfile
from pathlib import Path
from typing import NamedTuple

ROOT = Path(__file__).resolve().parents[3]
CASES = ROOT / "tests" / "cases"
PROGRAM = ROOT / "out" / "stepmin"
PARTS = {"about", "args", "stdin", "stdout", "stderr", "status", "make.py"}
EXPECTED = ".expected"
EXAMPLES = b"examples/"
STACK = 1 << 20
SECONDS = 60


class Wrong(Exception):
    """A case that can't be run, with the reason."""


class Case(NamedTuple):
    """A case: its arguments, its input files by path, and what a run has to end with."""

    arguments: list
    stdin: bytes
    inputs: dict
    status: int
    stdout: bytes
    stderr: bytes
    files: dict


class Outcome(NamedTuple):
    """What a run ended with: its status, what it printed, and all files by path."""

    status: int
    stdout: bytes
    stderr: bytes
    files: dict


def files_in(folder):
    """Returns the content of each file in a folder, by its path there."""
    paths = sorted(path for path in Path(folder).rglob("*") if path.is_file())
    return {path.relative_to(folder).as_posix(): path.read_bytes() for path in paths}


def write_files(folder, files):
    """Writes files by path into a folder."""
    for name, content in files.items():
        path = Path(folder, name)
        path.parent.mkdir(parents=True, exist_ok=True)
        path.write_bytes(content)


def parts_of(folder):
    """Returns the files of a case folder, and those that its `make.py` writes, if it has one."""
    with tempfile.TemporaryDirectory(prefix="case-") as copy:
        shutil.copytree(folder, copy, dirs_exist_ok=True)
        if Path(copy, "make.py").exists():
            made = subprocess.run([sys.executable, "-B", "make.py"], cwd=copy, stderr=subprocess.PIPE, timeout=SECONDS, check=False)
            if made.returncode:
                raise Wrong(f"make.py fails: {made.stderr.decode(errors='replace').strip()[-200:]}")
        return files_in(copy)


def arguments_of(text):
    """Returns the arguments in the text of `args`: one a line."""
    if text and not text.endswith(b"\n"):
        raise Wrong("the last line of args has no end")
    return text.split(b"\n")[:-1]


def examples_in(arguments):
    """Returns the examples that the arguments name, by path."""
    names = [argument.decode() for argument in arguments if argument.startswith(EXAMPLES)]
    return {name: (ROOT / name).read_bytes() for name in names if (ROOT / name).is_file()}


def read_case(folder):
    """Reads a case folder."""
    parts = parts_of(folder)
    for name in ("about", "args"):
        if name not in parts:
            raise Wrong(f"it has no {name}")
    if not parts["about"].strip().endswith(b".") or parts["about"].count(b"\n") != 1:
        raise Wrong("about isn't one sentence on one line")
    arguments = arguments_of(parts["args"])
    inputs = {name: text for name, text in parts.items() if name not in PARTS and not name.endswith(EXPECTED)}
    inputs.update(examples_in(arguments))
    written = {name.removesuffix(EXPECTED): text for name, text in parts.items() if name.endswith(EXPECTED)}
    return Case(arguments, parts.get("stdin", b""), inputs, int(parts.get("status", b"0")),
                parts.get("stdout", b""), parts.get("stderr", b""), {**inputs, **written})


def limit_stack():
    """Limits the stack of a process to 1 MiB."""
    resource.setrlimit(resource.RLIMIT_STACK, (STACK, STACK))


def run(program, arguments, inputs, stdin=b""):
    """Runs the program in a folder of these files."""
    with tempfile.TemporaryDirectory(prefix="case-") as folder:
        write_files(folder, inputs)
        try:
            ended = subprocess.run([program, *arguments], cwd=folder, input=stdin, capture_output=True,
                                   preexec_fn=limit_stack, timeout=SECONDS, check=False)
        except subprocess.TimeoutExpired as late:
            raise Wrong(f"{arguments[0].decode()} doesn't end within {SECONDS} s") from late
        return Outcome(ended.returncode, ended.stdout, ended.stderr, files_in(folder))


def line_that_differs(found, wanted):
    """Returns the first line in which two different texts differ."""
    found, wanted = found.splitlines(keepends=True), wanted.splitlines(keepends=True)
    place = next((i for i, (one, other) in enumerate(zip(found, wanted)) if one != other), min(len(found), len(wanted)))
    shown = [repr(lines[place][:80])[1:] if place < len(lines) else "missing" for lines in (found, wanted)]
    return f"line {place + 1} is {shown[0]}, expected {shown[1]}"


def text_differences(name, found, wanted):
    """Returns how a text differs from the expected one: one line, or none."""
    return [] if found == wanted else [f"{name}: {line_that_differs(found, wanted)}"]


def file_differences(found, wanted):
    """Returns how files differ from the expected ones: a line for each."""
    lines = [f"{name}: missing" for name in wanted if name not in found]
    lines += [f"{name}: not expected" for name in found if name not in wanted]
    for name in sorted({*found} & {*wanted}):
        lines += text_differences(name, found[name], wanted[name])
    return lines


def differences(case, outcome):
    """Returns how a run differs from its case."""
    lines = [] if outcome.status == case.status else [f"status {outcome.status}, expected {case.status}"]
    lines += text_differences("stdout", outcome.stdout, case.stdout)
    lines += text_differences("stderr", outcome.stderr, case.stderr)
    return lines + file_differences(outcome.files, case.files)


def paths_and_choice(arguments):
    """Returns the paths among the arguments of `shrink`, and its options but `--strict`, if any."""
    paths, choice, rest = [], [], list(arguments)
    while rest:
        argument = rest.pop(0)
        if argument == b"--":
            return paths + rest, choice
        if argument in (b"--merge", b"--schema-alias"):
            choice += [argument, rest.pop(0)]
        elif argument.startswith((b"--merge=", b"--schema-alias=")) or argument == b"--in-sets":
            choice.append(argument)
        elif argument != b"--strict":
            paths.append(argument)
    return paths, choice


def verified_text(printed):
    """Returns what `verify` has to print after `shrink` has printed this."""
    kept = [line for line in printed.splitlines(keepends=True) if line.split()[0] in (b"instances", b"kept", b"rounds")]
    return b"".join(kept) + b"certificate holds\n"


def ends_with(outcome, name, printed):
    """Returns how a run differs from one with status 0 that prints this text."""
    if outcome.status:
        return [f"{name}: status {outcome.status}, {outcome.stderr[:80]!r}"]
    return [] if printed is None else text_differences(name, outcome.stdout, printed)


def differences_after(program, case, outcome):
    """Returns what is wrong with the OUT and CERT that `shrink` wrote, if it ended with 0."""
    (schema, file, out, certificate), choice = paths_and_choice(case.arguments[1:])
    first = outcome.files[os.path.normpath(out.decode())]
    files = {**case.inputs, "first-out": first, "first-cert": outcome.files[os.path.normpath(certificate.decode())]}
    ended = run(program, [b"verify", schema, file, b"first-out", b"first-cert", *choice], files, case.stdin)
    lines = ends_with(ended, "verify", verified_text(case.stdout))
    ended = run(program, [b"shrink", schema, b"first-out", b"second-out", b"second-cert", *choice], files, case.stdin)
    lines += ends_with(ended, "shrink of OUT", None)
    lines += text_differences("shrink of OUT", ended.files.get("second-out", b""), first)
    text = first
    for name in ("plain of OUT", "plain of that"):
        ended = run(program, [b"plain", b"text"], {"text": text})
        lines += ends_with(ended, name, first)
        text = ended.stdout
    return lines


def try_case(program, folder):
    """Runs a case, and returns its differences."""
    try:
        case = read_case(folder)
        outcome = run(program, case.arguments, case.inputs, case.stdin)
        lines = differences(case, outcome)
        is_merge = case.arguments[:1] == [b"shrink"] and b"--help" not in case.arguments
        if not lines and case.status == 0 and is_merge:
            lines = differences_after(program, case, outcome)
        return lines
    except Wrong as wrong:
        return [str(wrong)]


def folders_of(pattern):
    """Returns the case folders whose names match a pattern."""
    return sorted(path for path in CASES.iterdir() if path.is_dir() and fnmatch.fnmatchcase(path.name, pattern))


def parser():
    """Returns the parser of the arguments."""
    arguments = argparse.ArgumentParser(prog="tools/dev test cases", description=__doc__.strip(),
                                        formatter_class=argparse.RawDescriptionHelpFormatter)
    arguments.add_argument("--program", metavar="PATH", default=str(PROGRAM), help="the program to run (default: out/stepmin)")
    arguments.add_argument("--only", metavar="NAME", default="*", help="the case to run; NAME may be a pattern, such as 'verify-*'")
    arguments.add_argument("--json", action="store_true", help="print the result as JSON")
    return arguments


def main(arguments):
    """Runs the cases, prints the differences, and returns the status."""
    options = parser().parse_args(arguments)
    program = os.path.abspath(options.program)
    if not os.access(program, os.X_OK) or os.path.isdir(program):
        print(f"there is no program {options.program}: build it (tools/dev build), or give --program PATH", file=sys.stderr)
        return 2
    folders = folders_of(options.only)
    if not folders:
        print(f"there is no case {options.only} in tests/cases", file=sys.stderr)
        return 2
    found = {folder.name: try_case(program, folder) for folder in folders}
    faults = [f"{name}: {line}" for name, lines in found.items() for line in lines]
    failed = sum(map(bool, found.values()))
    if options.json:
        print(json.dumps({"suite": "cases", "passed": len(found) - failed, "failed": failed, "faults": faults}))
    else:
        print(*faults, f"{len(found) - failed} cases passed, {failed} failed", sep="\n")
    return 1 if failed else 0


if __name__ == "__main__":
    sys.exit(main(sys.argv[1:]))
