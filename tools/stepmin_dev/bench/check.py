"""Times `stepmin check` on large files, beside `stepmin plain` on the same files.

The files conform to a schema made for them.
Prints the time as a multiple of that of `plain`, and the memory as a multiple of the file.
Then the same with a schema that also has a uniqueness rule and an inverse attribute.
Then with one that also has domain rules, one or two for most instances, as published schemas have.

The files: `points` has points, directions and placements, some 45 bytes an instance (1.35 million in 60 MB).
`parts` is shaped like real ones, with strings, selects, enumerations and external mapping, a sixth of the size.
`numbers` and `references` are one SET of 10^5 numbers, and one of 10^5 references.
`points` is made once more, twice as large.
With the uniqueness rule there are also `referrers`, 10^6 placements at one point, and `keys` and `words`, 10^5
instances with one key, and with different keys.
"""
import os

from .. import bench
from .files import DOMAIN_RULES, FILES, RULED_FILES, RULES, SCHEMA, replaced, write, write_text
from .timing import compared

SIZE, RUNS = 60, 5
SCHEMAS = {"": {}, "with rules of the population": RULES, "with domain rules": DOMAIN_RULES}


def measure(asked, schema, path, texts, wanted=0):
    """The seconds of `check` on a file, and its figures."""
    write(path, texts)
    words, base = [asked.program, "check", schema, path], [asked.program, "plain", path]
    return compared(words, "plain", base, [path], asked.runs, wanted)


def rows(asked, folder):
    path, size, without = os.path.join(folder, "file.stp"), asked.size * 10**6, {}
    for number, (what, bodies) in enumerate(SCHEMAS.items()):
        schema = write_text(os.path.join(folder, f"bench{number}.exp"), replaced(SCHEMA, bodies))
        taken = {}
        for name, make in {**FILES, **(RULED_FILES if bodies is RULES else {})}.items():
            texts = make(size // 6 if name == "parts" else size)
            taken[name], figures = measure(asked, schema, path, texts, 1 if name == "keys" else 0)
            if name in without:
                figures["times as long as without rules"] = taken[name] / without[name]
            yield f"{name} {what}".strip(), figures
        seconds, figures = measure(asked, schema, path, FILES["points"](2 * size))
        yield f"points {what}".strip(), {**figures, "times as long for twice the size": seconds / taken["points"]}
        without = without or taken


def main(arguments):
    return bench.main(["check", *arguments])
