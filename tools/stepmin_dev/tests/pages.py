"""Runs the commands that pages show, and compares the results with what the pages say.

The pages are README.md, CONTRIBUTING.md and docs/*.md.
Each command of an `sh` block that begins with `out/stepmin` is run, in the order of the page.
A page has a temporary folder, with a copy of examples/ and a link out/stepmin to the program.
Up to the next heading or `sh` block, the page may say of these commands:

- in a block without a language, directly after the `sh` block: what its commands print together;
- in such a block after a line that ends with "prints": what one command prints;
- "ends with status 1": the status, which is otherwise 0;
- "ends with `certificate holds`": the last line that is printed;
- "`plate.out` has 9,022 bytes instead of 20,985": the size of a file, and of the argument before it.

A line names the command: "The second ..", "`shrink` ..", or anything else if the `sh` block has one command.
These are faults, too: another block without a language there, and an `sh` command that is neither run nor in NOT_RUN.

Each `tools/dev` command on a page has to be accepted by its own parser, with crates and functions that exist.
There a word in capitals stands for any argument.

Status: 0 if each page is right; 1 if one isn't; 2 if the arguments are wrong.
"""
import argparse
import contextlib
import glob
import io
import json
import os
import re
import resource
import shlex
import shutil
import subprocess
import tempfile
import textwrap
from typing import NamedTuple, Optional
from unittest import mock

from .. import commands
from ..lint_pages import wrong_name
from ..options import parser_of, program_of
from ..repository import ROOT, manifest
from .cases import line_that_differs

PAGES = ("README.md", "CONTRIBUTING.md", "docs/*.md")
PROGRAM = "out/stepmin"
STACK = 1 << 20
SECONDS = 60
ORDINALS = ("first", "second", "third", "fourth", "fifth")

# What `sh` blocks may have and this suite doesn't run: the first words of a command, and the reason.
NOT_RUN = {
    "git": "it changes a clone or needs a network",
    "make": "it builds the program, and may test or install it",
    "man": "it needs an installed manual page",
    "tools/dev bench": "it takes minutes, and its figures depend on the machine",
    "tools/dev build": "it builds the program",
    "tools/dev check": "it proves",
    "tools/dev gate": "it proves everything",
    "tools/dev install": "it writes into the system",
    "tools/dev test": "it is a suite of its own, or this one",
    "tools/dev wrong": "it proves",
}


class Piece(NamedTuple):
    """A line outside blocks, or a block with its language, which is empty if it has none."""

    number: int
    text: str
    language: Optional[str] = None


class Command(NamedTuple):
    """A command of an `sh` block, and the number of its line."""

    number: int
    text: str


class Claim(NamedTuple):
    """What a line says about commands: `said` is the status, the last line, all that is printed, or a path and sizes."""

    number: int
    about: list
    kind: str
    said: object


class Page(NamedTuple):
    """The commands of `sh` blocks, the claims about them, and the numbers of blocks that belong to no command."""

    commands: list
    claims: list
    unclear: list


class Outcome(NamedTuple):
    """What a run ended with: its status, what it printed, and the sizes of the files among its arguments."""

    status: int
    printed: bytes
    sizes: dict


class Accepted(Exception):
    """A parser accepts its arguments."""


class Refused(Exception):
    """A parser refuses its arguments, with the reason."""


def pieces_of(text):
    """Yields the lines and blocks of a page, without empty lines."""
    block, language, begin = None, "", 0
    for number, line in enumerate(text.splitlines(), 1):
        if not line.lstrip().startswith("```"):
            if block is not None:
                block.append(line)
            elif line.strip():
                yield Piece(number, line.strip())
        elif block is None:
            block, language, begin = [], line.strip("` "), number + 1
        else:
            yield Piece(begin, textwrap.dedent("".join(f"{it}\n" for it in block)), language)
            block = None


def commands_in(block):
    """Returns the commands of a block; a line that ends with a backslash continues on the next one."""
    found, begun = [], ""
    for number, line in enumerate(block.text.splitlines(), block.number):
        begun += line.strip()
        if begun.endswith("\\"):
            begun = begun[:-1]
            continue
        if begun and not begun.startswith("#"):
            found.append(Command(number, begun))
        begun = ""
    return found


def subject_of(line, near):
    """Returns the command among `near` that a line begins with, by number or name, or the only one; otherwise none."""
    number = re.match(rf"The ({'|'.join(ORDINALS)})\b", line)
    if number:
        place = ORDINALS.index(number[1])
        return near[place:place + 1]
    name = re.match(r"`([^`]+)`", line)
    if name:
        return [it for it in near if name[1] in it.text.split()][-1:]
    return near if len(near) == 1 else []


def claims_in(piece, near):
    """Yields what a line says about the commands before it, except for what they print."""
    about = subject_of(piece.text, near)
    for kind, pattern in (("status", r"ends with status (\d+)"), ("last", r"ends with `([^`]+)`")):
        said = re.search(pattern, piece.text)
        if about and said:
            yield Claim(piece.number, about, kind, said[1])
    for path, *sizes in re.findall(r"`(\S+)` has ([\d,]+) bytes(?: instead of ([\d,]+))?", piece.text):
        named = [it for it in near if path in it.text.split()][-1:]
        if named:
            yield Claim(piece.number, named, "sizes", (path, [int(it.replace(",", "")) for it in sizes if it]))


def read_page(text):
    """Reads a page."""
    page, near, last = Page([], [], []), [], Piece(0, "")
    for piece in pieces_of(text):
        if piece.language == "sh":
            near = commands_in(piece)
            page.commands.extend(near)
        elif piece.language is None:
            near = [] if piece.text.startswith("#") else near
            page.claims.extend(claims_in(piece, near))
        elif piece.language == "":
            says_so = last.language is None and re.search(r"\bprints:?$", last.text)
            about = near if last.language == "sh" else subject_of(last.text, near) if says_so else []
            if about:
                page.claims.append(Claim(piece.number, about, "printed", piece.text))
            elif near or says_so:
                page.unclear.append(piece.number)
        last = piece
    return page


def is_run(command):
    """Whether this suite runs a command."""
    return command.text.split()[0] == PROGRAM


def limit_stack():
    """Limits the stack of a process to 1 MiB."""
    resource.setrlimit(resource.RLIMIT_STACK, (STACK, STACK))


def run(folder, command):
    """Runs a command in a folder."""
    try:
        ended = subprocess.run(["sh", "-c", command.text], cwd=folder, stdin=subprocess.DEVNULL, stdout=subprocess.PIPE,
                               stderr=subprocess.STDOUT, preexec_fn=limit_stack, timeout=SECONDS, check=False)
    except subprocess.TimeoutExpired:
        return Outcome(-1, f"doesn't end within {SECONDS} s".encode(), {})
    paths = {it: os.path.join(folder, it) for it in shlex.split(command.text)}
    sizes = {it: os.path.getsize(path) for it, path in paths.items() if os.path.isfile(path)}
    return Outcome(ended.returncode, ended.stdout, sizes)


def outcomes_of(program, page):
    """Runs the commands of a page, and returns their outcomes."""
    with tempfile.TemporaryDirectory(prefix="pages-") as folder:
        shutil.copytree(os.path.join(ROOT, "examples"), os.path.join(folder, "examples"))
        os.makedirs(os.path.join(folder, os.path.dirname(PROGRAM)))
        os.symlink(program, os.path.join(folder, PROGRAM))
        return {it: run(folder, it) for it in page.commands if is_run(it)}


def fault_of_status(outcome, wanted):
    """Returns what is wrong with a status; `None` if nothing is."""
    if outcome.status == wanted:
        return None
    return f"status {outcome.status}, expected {wanted}; it prints {outcome.printed[-200:]!r}"


def fault_of_sizes(command, outcome, path, sizes):
    """Returns what is wrong with the size of a file, and of the argument before it; `None` if nothing is."""
    words = shlex.split(command.text)
    for name, wanted in zip((path, words[words.index(path) - 1]), sizes):
        if outcome.sizes.get(name) != wanted:
            return f"{name} has {outcome.sizes.get(name, 'no')} bytes, expected {wanted}"
    return None


def fault_of_claim(claim, outcomes):
    """Returns what is wrong with a claim about commands that were run; `None` if nothing is."""
    first = outcomes[claim.about[0]]
    if claim.kind == "status":
        return fault_of_status(first, int(claim.said))
    if claim.kind == "sizes":
        return fault_of_sizes(claim.about[0], first, *claim.said)
    if claim.kind == "last":
        found, wanted = first.printed.splitlines(keepends=True)[-1:], [f"{claim.said}\n".encode()]
        return None if found == wanted else f"the last line is {found}, expected {wanted}"
    found, wanted = b"".join(outcomes[it].printed for it in claim.about), claim.said.encode()
    return None if found == wanted else line_that_differs(found, wanted)


def checks_of_runs(program, page):
    """Yields the number of a line and its fault, if any: for each command of `sh` blocks and each claim about them."""
    outcomes = outcomes_of(program, page)
    with_status = [it for claim in page.claims if claim.kind == "status" for it in claim.about]
    for it in page.commands:
        if it not in outcomes:
            is_listed = any(f"{it.text} ".startswith(f"{words} ") for words in NOT_RUN)
            yield it.number, None if is_listed else f"`{it.text}` is neither run nor listed in NOT_RUN"
        elif it not in with_status:
            yield it.number, fault_of_status(outcomes[it], 0)
    for claim in page.claims:
        if all(it in outcomes for it in claim.about):
            yield claim.number, fault_of_claim(claim, outcomes)
    for number in page.unclear:
        yield number, "no line says which command prints this block"


PARSE = argparse.ArgumentParser.parse_known_args
PARSE_INTERMIXED = argparse.ArgumentParser.parse_intermixed_args


def parse_only(parser, args=None, namespace=None):
    """Parses arguments, and ends the command instead of returning them."""
    others = PARSE(parser, args, namespace)[1]
    raise Refused(f"there is no option or argument {others[0]}") if others else Accepted


def parse_intermixed_only(parser, args=None, namespace=None):
    """Parses arguments in any order, and ends the command instead of returning them."""
    with mock.patch.object(argparse.ArgumentParser, "parse_known_args", PARSE):
        PARSE_INTERMIXED(parser, args, namespace)
    raise Accepted


def refuse(_, message):
    """Ends the command with the reason why its arguments are refused."""
    raise Refused(message)


def accept(*_):
    """Ends the command, since its help is asked for."""
    raise Accepted


def try_parser(command, arguments):
    """Runs a command of `tools/dev` until its arguments are parsed, and returns why they are refused, if they are."""
    methods = {"parse_known_args": parse_only, "parse_intermixed_args": parse_intermixed_only, "error": refuse, "print_help": accept}
    with mock.patch.multiple(argparse.ArgumentParser, **methods), contextlib.redirect_stdout(io.StringIO()):
        try:
            commands.run(command, arguments)
        except Accepted:
            return None
        except Refused as refused:
            return str(refused)
    return None if {"-h", "--help"} & set(arguments) else "its arguments aren't parsed"


def fault_of_words(command, *words):
    """Returns why `tools/dev` refuses a command with these arguments; `None` if it accepts them."""
    if command not in commands.COMMANDS:
        return f"tools/dev has no command {command}"
    if command in ("check", "wrong") and words and re.match("[a-z]", words[0]) and words[0] not in manifest():
        return f"crates.txt has no crate {words[0]}"
    unknown = [wrong_name(it) for it in words if "::" in it and wrong_name(it)]
    # All arguments of `tools/dev rt` go to the toolchain.
    refusal = None if command == "rt" else try_parser(command, ["1" if it.isupper() else it for it in words])
    return f"tools/dev {command}: {refusal}" if refusal else next(iter(unknown), None)


def named_commands(text):
    """Yields the `tools/dev` commands in backticks and blocks of a page, each with the number of its line."""
    for piece in pieces_of(text):
        if piece.language is None:
            yield from (Command(piece.number, it) for it in re.findall(r"`(tools/dev [^`]+)`", piece.text))
        else:
            yield from (it for it in commands_in(piece) if it.text.startswith("tools/dev "))


def checks_of(program, text):
    """Returns the number of a line and its fault, if any: for each check of a page."""
    names = [(it.number, fault_of_words(*shlex.split(it.text)[1:])) for it in named_commands(text)]
    return sorted([*checks_of_runs(program, read_page(text)), *names], key=lambda check: check[0])


def main(arguments):
    parser = parser_of("test pages", __doc__, program="the program that is tested", json="print the result as JSON")
    asked = parser.parse_args(arguments)
    program, faults, passed = program_of(asked.program), [], 0
    for path in [path for pattern in PAGES for path in sorted(glob.glob(pattern, root_dir=ROOT))]:
        with open(os.path.join(ROOT, path), encoding="utf-8") as file:
            checks = checks_of(program, file.read())
        faults += [f"{path}:{number}: {fault}" for number, fault in checks if fault]
        passed += sum(fault is None for _, fault in checks)
    if asked.json:
        print(json.dumps({"suite": "pages", "passed": passed, "failed": len(faults), "faults": faults}))
    else:
        print(*faults, f"{passed} checks passed, {len(faults)} failed", sep="\n")
    return 1 if faults else 0
