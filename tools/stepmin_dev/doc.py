"""Writes docs/BELIEVED.md, and an index of all crates to out/doc.

    tools/dev doc [--check]

docs/BELIEVED.md lists the files of definitions that a reader has to believe; `believed.py` says which these are. The
index has, for each crate, its head, its files with their heads, and its public types and functions with docstrings and
contracts. It isn't committed.

With --check nothing is written. The command then fails in these cases:

- docs/BELIEVED.md isn't what would be written;
- a definition behind the program's run, a public call or a public law stands in `specs/steps`;
- a file of `specs` that stands behind none of these isn't in `specs/steps`;
- a source or a file of definitions has no comment at its top.
"""
import argparse
import os
import re
import sys

from .believed import PUBLIC_CALLS, Believed, by_file, place
from .sources import CRATES, ROOT, crates, depth_of, files_below, first_sentence, floors, head_of, items_of, relative, text_of

PAGE = os.path.join(ROOT, "docs", "BELIEVED.md")
INDEX = os.path.join(ROOT, "out", "doc")
# Steps that stand outside specs/steps: a move would prove most of the repository anew.
MISPLACED = (("files", "Faults"), ("schema_attribute_sources", "AskedSources"))
BEGIN = """# Definitions to believe

This page is for verification engineers: it lists the files of definitions on which the promises of [PROVED.md](PROVED.md) rest.
`tools/dev doc` generates it from the contracts, with floors and crates in the order of `crates.txt`; read a promise first, then the files that its contract imports.

Each row has a file, the number of its definitions that count in the section, and the first sentence of its head.
A definition counts if a contract names it: directly, through a trait or a type of the signature, or through another definition that counts.
Definitions of the toolchain and of ported crates aren't listed.
"""


class Pages:
    """What is generated, from the definitions and their numbers by file."""

    def __init__(self):
        self.believed = Believed()
        run, promised = self.believed.behind_program(), self.believed.behind_promises()
        self.promised = promised
        self.of_run, self.of_promises = by_file(run), by_file(promised)

    def section(self, title, text, numbers):
        """Returns a section: for each floor the files with these numbers."""
        lines = [f"## {title}", "", *text]
        listed = [it for it in self.believed.files if it in numbers]
        for floor, _, names in floors():
            rows = [self.row(it, numbers[it]) for name in names for it in listed if it[0] == name]
            if rows:
                lines += ["", f"### {floor}", "", "| File | Definitions | Subject |", "|---|---|---|", *rows]
        return lines

    def row(self, key, number):
        file = self.believed.files[key]
        path = relative(file.path)
        subject = first_sentence(head_of(file.path)).replace("|", "\\|")
        return f"| [{file.crate}/{file.module}](../{path}) | {number} | {subject} |"

    def page(self):
        rest = {it: number for it, number in self.of_promises.items() if it not in self.of_run}
        more = sum(self.of_promises[it] - number for it, number in self.of_run.items())
        first = [
            f"The contract of `run_command` (`commands`) rests on {sum(self.of_run.values()):,} definitions in {len(self.of_run)} files of "
            f"{len({it[0] for it in self.of_run})} crates."
        ]
        second = [
            f"The contracts of the public calls and of the public laws rest on {sum(rest.values()):,} definitions in {len(rest)} further files, "
            f"and on {more} more of the files above.",
            "Whoever relies on the program's run alone doesn't have to believe these.",
            "The public calls are " + ", ".join(f"`{name}` (`{path.split('/')[0]}`)" for path, name in PUBLIC_CALLS) + ".",
        ]
        return "\n".join(
            [BEGIN, *self.section("Behind the program's run", first, self.of_run), "", *self.section("Behind the public laws", second, rest), ""]
        )

    def faults(self):
        """Returns what `--check` finds, one line for each fault."""
        found = []
        written = text_of(PAGE) if os.path.exists(PAGE) else ""
        if written != self.page():
            found.append(f"{relative(PAGE)}:1: not what is generated; run `tools/dev doc`")
        for key in sorted(self.promised):
            file = self.believed.files[key[:2]]
            if file.is_step:
                found.append(f"{place(file, key[2])}: `{key[2]}` stands behind a promise, but in specs/steps")
        for key, file in self.believed.files.items():
            if not (file.is_step or file.is_list or key in self.of_promises or key in MISPLACED):
                found.append(f"{relative(file.path)}:1: no promise rests on this file, but it isn't in specs/steps")
        for path in files_below(CRATES, ".rt", ".antt"):
            kind = path.split(os.sep)[len(CRATES.split(os.sep)) + 1]
            if kind in ("src", "specs") and not head_of(path) and os.path.basename(path) != "Lib.antt":
                found.append(f"{relative(path)}:1: no comment at the top")
        return found

    def index(self):
        """Returns the pages of the index, each with its name."""
        lines = ["# Crates", "", "This index is for contributors: each crate, with a page that has its files, types, functions and contracts.", ""]
        below = crates()
        for floor, said, names in floors():
            lines += [f"## {floor}", "", said, ""]
            lines += [f"- [{it}]({it}.md): {first_sentence(self.crate_head(it))}" for it in names] + [""]
        yield "README.md", lines
        for name in below:
            yield f"{name}.md", self.crate_page(name, below[name])

    def crate_head(self, name):
        paths = [os.path.join(CRATES, name, "src", it) for it in ("lib.rt", "main.rt")]
        return head_of(next(it for it in paths if os.path.exists(it)))

    def crate_page(self, name, below):
        lines = [f"# {name}", "", *self.crate_head(name), "", f"Stands on: {', '.join(below) or 'nothing'}.", ""]
        files = [it for it in self.believed.files.values() if it.crate == name and not it.is_list]
        if files:
            lines += ["## Definitions", ""]
            lines += [f"- `{it.module}` ({self.standing(it)}): {in_one_line(it.path)}" for it in files] + [""]
        sources = files_below(os.path.join(CRATES, name, "src"), ".rt")
        lines += ["## Sources", ""]
        lines += [f"- `{os.path.relpath(it, os.path.join(CRATES, name))}`: {in_one_line(it)}" for it in sources] + [""]
        for path in sources:
            public = [it for it in items_of(path) if it.public]
            if public:
                lines += [f"## {os.path.relpath(path, os.path.join(CRATES, name))}", ""]
            for item in public:
                lines += [f"### {item.kind} {item.called}", "", *item.doc, ""]
                if item.kind == "fn":
                    depth = depth_of(item.signature[0])
                    lines += ["```rust", *(it[depth:] for it in item.signature + item.clauses), "```", ""]
        return lines

    def standing(self, file):
        key, of = (file.crate, file.module), len(file.lines)
        if key in self.of_run:
            return f"believed, {self.of_run[key]} of {of} behind the program's run"
        if key in self.of_promises:
            return f"believed, {self.of_promises[key]} of {of} behind public laws"
        return "step"


def in_one_line(path):
    return " ".join(filter(None, head_of(path)))


def main(arguments):
    parser = argparse.ArgumentParser(prog="tools/dev doc", description=__doc__, formatter_class=argparse.RawDescriptionHelpFormatter)
    parser.add_argument("--check", action="store_true", help="write nothing, and fail if something is wrong")
    options = parser.parse_args(arguments)
    pages = Pages()
    if not options.check:
        with open(PAGE, "w", encoding="utf-8") as file:
            file.write(pages.page())
        os.makedirs(INDEX, exist_ok=True)
        for old in files_below(INDEX, ".md"):
            os.remove(old)
        for name, lines in pages.index():
            with open(os.path.join(INDEX, name), "w", encoding="utf-8") as file:
                file.write(re.sub(r"\n{3,}", "\n\n", "\n".join(lines)).rstrip("\n") + "\n")
        print(f"{relative(PAGE)} and {relative(INDEX)} are written")
        return 0
    found = pages.faults()
    for line in found:
        print(line)
    return 1 if found else 0


if __name__ == "__main__":
    sys.exit(main(sys.argv[1:]))
