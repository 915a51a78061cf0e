#!/usr/bin/env python3
"""Runs `rt` with less work for the same answers.

    tools/rt.py ARGUMENTS

- **Sums of sources.** Some releases of `rt` sum up the sources of a crate, and list the libraries below it, along each
  path through crates.txt: here fifteen million times. This script caches both by the crate's folder. It forgets the sums
  whenever a check or a build ends, so that a source that has changed meanwhile is seen.
- **Must-fail edits.** `rt` proves the whole edited crate, from nothing, for the first edit of each crate. This script
  first checks the edited functions alone (`rattle check --only`), from nothing too. The prover refuses a crate if it refuses
  one of its functions, so a refusal counts. Any other answer doesn't: then `rt` tries the edit in its own way. Edits run
  at a low priority, so that the longest chain of proofs doesn't wait for them.
- **Lanes.** `rt` plans with four times the memory that checks take, so that it leaves processors idle. Without RT_JOBS
  this script runs two checks more than there are processors, one for each 3 GiB of memory at most.

If the program `rt` isn't made of the parts that this script replaces, it runs unchanged.
"""
import difflib
import functools
import importlib.machinery
import importlib.util
import os
import re
import shutil
import sys
import threading


def load(path):
    """The program `rt`, as a module."""
    sys.dont_write_bytecode = True
    sys.path.insert(0, os.path.dirname(path))
    loader = importlib.machinery.SourceFileLoader("rt_program", path)
    made = importlib.util.module_from_spec(importlib.util.spec_from_loader("rt_program", loader))
    loader.exec_module(made)
    return made


def remembered(method, answers):
    """A method of a crate, asked once for each folder as long as its answer is kept; a list is handed out as a copy."""

    @functools.wraps(method)
    def ask(crate):
        found = answers.get(crate.folder)
        if found is None:
            found = answers[crate.folder] = method(crate)
        return list(found) if isinstance(found, list) else found

    return ask


def forgetting(method, answers):
    """A method of a crate that runs another program, and then forgets these answers."""

    @functools.wraps(method)
    def run(crate, *words):
        try:
            return method(crate, *words)
        finally:
            answers.clear()

    return run


def prepare(crate):
    """Has the crates of `rt` remember."""
    sums = {}
    crate.below, crate.stamp = remembered(crate.below, {}), remembered(crate.stamp, sums)
    crate.call, crate.prove = forgetting(crate.call, sums), forgetting(crate.prove, sums)


FUNCTION = re.compile(r"(    )?(?:pub(?:\([^)]*\))? )?(?:const )?fn (\w+)")
METHODS = re.compile(r"impl(?:<.*?>)? (?:([\w:]+)(?:<.*>)? for )?([\w:]+)(?:<.*>)?(?: \{)?$")
LAST_LINE = re.compile(r"^only=(\d+) proved=(\d+)\s*\Z", re.M)


def function_at(lines, number):
    """The path below its module of the function that holds a line of formatted source, or `None`."""
    for at in range(number, -1, -1):
        found = FUNCTION.match(lines[at])
        if found and not found[1]:
            return found[2]
        if found:
            block = next((it for it in reversed(lines[:at]) if it.startswith("impl")), "")
            methods = METHODS.match(block)
            return f"{methods[2]}{methods[1] or ''}::{found[2]}" if methods else None
    return None


def functions_changed(folder, texts):
    """The functions of a crate that these texts change, as `module::Type::function`; empty if a change stands in none."""
    paths = set()
    for file, text in texts.items():
        if not file.startswith("src/"):
            return []
        with open(f"{folder}/{file}", encoding="utf-8") as it:
            old = it.read().split("\n")
        module = file[len("src/") :].removesuffix(".rt").replace("/", "::")
        prefix = "" if module in ("lib", "main") else f"{module}::"
        for kind, start, end, _, _ in difflib.SequenceMatcher(None, old, text.split("\n"), False).get_opcodes():
            for number in range(start, max(end, start + 1)) if kind != "equal" else ():
                path = function_at(old, number)
                if not path:
                    return []
                paths.add(prefix + path)
    return sorted(paths)


def try_functions_first(rt):
    """Has must-fail edits tried on the functions that they change, before the whole crate."""
    checked, must_fail = rt.checked, rt.must_fail

    def checked_alone(crate, texts, flags, kept):
        ran = checked(crate, texts, flags, kept)
        last = LAST_LINE.search(ran.stdout)
        if "--only" in flags and last and int(last[2]) < int(last[1]):
            ran.stdout = f"{ran.stdout[: last.start()]}logic=not-proved\n"
        return ran

    def must_fail_all(crate, edits, flags):
        tried = []
        for edit in edits:
            texts, _ = rt.read_edit(edit, crate.folder)
            alone = [it for path in functions_changed(crate.folder, texts or {}) for it in ("--only", path)]
            answer = must_fail(crate, edit, [*flags, *alone]) if alone else (False, "")
            tried.append(answer if answer[0] else must_fail(crate, edit, flags))
        return tried

    rt.checked, rt.must_fail_all = checked_alone, must_fail_all


def try_edits_late(rt):
    """Has checks of must-fail edits run at a low priority."""
    checked, guarded, here = rt.checked, rt.rtlib.guarded, threading.local()

    def checked_late(*given):
        here.is_edit = True
        try:
            return checked(*given)
        finally:
            here.is_edit = False

    rt.checked = checked_late
    rt.rtlib.guarded = lambda: [*(["nice"] if getattr(here, "is_edit", False) else []), *guarded()]


def lanes():
    """How many checks run side by side: two more than there are processors, one for each 3 GiB of memory at most."""
    memory = os.sysconf("SC_PHYS_PAGES") * os.sysconf("SC_PAGE_SIZE")
    return max(1, min(len(os.sched_getaffinity(0)) + 2, memory // (3 << 30)))


def main():
    found = shutil.which("rt")
    if not found:
        sys.exit("Rattle's toolchain isn't there: `rt` isn't found")
    path = os.path.realpath(found)
    try:
        rt = load(path)
        prepare(rt.rtlib.Crate)
        try_edits_late(rt)
        try_functions_first(rt)
        os.environ.setdefault("RT_JOBS", str(lanes()))
        run = rt.main
    except (AttributeError, ImportError, OSError, SyntaxError):
        os.execv(path, ["rt", *sys.argv[1:]])
    return run(sys.argv[1:])


if __name__ == "__main__":
    sys.exit(main())
