"""Checks the pages: words, long lines, links, and names that don't exist."""
import functools
import os
import re

from .sources import CRATES, ROOT, crates, files_below, items_of, lines_of, relative, text_of

# The tables that `tools/dev bench --write` puts into a page.
MEASURED = re.compile(r"(?s)(?<=<!--bench-->).*(?=<!--/bench-->)")
# The most words that pages may have together without these tables, as `wc -w` counts them.
WORDS = {
    ("README.md",): 900,
    ("CONTRIBUTING.md",): 500,
    ("docs/USING.md",): 1450,
    ("docs/FINDINGS.md", "docs/PINS.md"): 2650,
    ("docs/EXCHANGE.md", "docs/EXPRESS.md"): 4700,
    ("docs/MERGE.md",): 2000,
    ("docs/PROVED.md",): 2520,
    ("docs/ARCHITECTURE.md",): 3000,
    ("docs/DECISIONS.md",): 3000,
    ("docs/SPEED.md",): 1500,
    ("docs/PROVING.md",): 3500,
}
WITHOUT_LIMIT = ("CHANGELOG.md", "docs/BELIEVED.md")
LINE_WORDS = 60

# Words in backticks that look like names of the repository, and belong to something else.
OTHER_WORDS = {
    # words of Rattle
    *("abbrev", "cc", "const", "crate", "deriving", "ensures", "for", "match", "mod", "module", "no", "requires", "unfoldable", "use"),
    # names of the toolchain, and words of the system
    *("Box", "Lts", "Vec", "dac8208d650f15bf", "from_ref", "take_while", "md5sum", "stderr"),
    # a bound in a formula, and a model that is measured
    *("l", "relay"),
}
DEFINITION = re.compile(r"(?m)^ *(?:abbrev |unfoldable |opaque )?(?:pub )?(?:record |data )?([^\s:(){},=]+)(?:\s+[({].*)?\s*:(?:\s|$)")
IMPORT = re.compile(r"(?m)^ *(?:ghost )?use (?:Rattle\.)?std\b[\w.:]*?(?:[.:]+\{([^}]*)\}|[.:](\w+));")
SUFFIXES = (".rt", ".antt", ".py", ".md", ".txt", ".exp", ".stp", ".tsv", ".json", ".svg", ".edit")


def pages():
    return [it for it in files_below(os.path.join(ROOT, "docs"), ".md")] + [os.path.join(ROOT, it) for it in os.listdir(ROOT) if it.endswith(".md")]


def faults():
    found = word_faults()
    for path in sorted(pages()):
        fence = None
        for number, line in enumerate(lines_of(path), 1):
            if line.lstrip().startswith("```"):
                fence = None if fence is not None else line.strip("` ")
                continue
            said = fence_faults(line) if fence == "" else [] if fence is not None else line_faults(path, line)
            found += [f"{relative(path)}:{number}: {it}" for it in said]
    return found


def word_faults():
    """Returns the pages that have too many words, and those that have no limit."""
    found = []
    for names, most in WORDS.items():
        paths = [it for it in names if os.path.exists(os.path.join(ROOT, it))]
        words = sum(len(MEASURED.sub("", text_of(os.path.join(ROOT, it))).split()) for it in paths)
        if words > most:
            found.append(f"{paths[0]}:1: {words} words{' with ' + paths[1] if len(paths) > 1 else ''}, at most {most}")
    limited = {it for names in WORDS for it in names} | set(WITHOUT_LIMIT)
    return found + [f"{relative(it)}:1: this page has no limit of words" for it in pages() if relative(it) not in limited]


def line_faults(path, line):
    count = len(line.split())
    if count > LINE_WORDS:
        yield f"a line of {count} words, at most {LINE_WORDS}"
    for target in re.findall(r"\]\(([^)\s]+)\)", line):
        if not leads_somewhere(path, target):
            yield f"the link `{target}` leads nowhere"
    for span in re.findall(r"(?<!`)`([^`]+)`(?!`)", line):
        wrong = wrong_name(span)
        if wrong:
            yield wrong
    for group in re.findall(r"\(([^()]*`[^()]*)\)", line):
        for part in group.split(";"):
            names = re.findall(r"`([\w:]+)`", part)
            if len(names) > 1 and re.search(r"`, `\w+`$", part.strip()):
                for name in names[:-1]:
                    yield from place_fault(name, names[-1])
    for name, crate in re.findall(r"`([\w:]+)` \(`(\w+)`\)", line):
        yield from place_fault(name, crate)
    for group in re.findall(r"\((`\w+`(?:(?:,| and|, and) `\w+`)*)\)", line):
        names = re.findall(r"\w+", group.replace(" and ", " "))
        if not any(it in crates() for it in names):
            for name in names:
                if crates_of_page(path) and re.fullmatch(r"[A-Za-z_]+", name) and not any(name in names_of_crate(it) for it in crates_of_page(path)):
                    yield f"no crate that this page names has `{name}`"


@functools.lru_cache(maxsize=None)
def crates_of_page(path):
    """Returns the crates that a page names, if it says which folders of definitions it follows."""
    spans = " ".join(re.findall(r"(?<!`)`([^`]+)`(?!`)", text_of(path)))
    return [it for it in crates() if re.search(rf"(?<!\w){it}(?!\w)", spans)] if re.search(r"\bcrates/\w+/specs\b", spans) else []


def place_fault(name, crate):
    """Reports that a crate doesn't have a name that a page places in it, as in "`judge` (`certificate_checks`)"."""
    if crate in crates() and name not in crates() and name.split("::")[-1] not in names_of_crate(crate):
        yield f"the crate `{crate}` has no `{name}`"


def fence_faults(line):
    """Returns the words with underscores, in a block without a language, that aren't names."""
    for word in re.findall(r"(?<![\w./$-])[a-z]\w*_\w+(?![\w.(-])", line):
        if not is_name(word):
            yield f"`{word}` isn't the name of a crate, file or function"


def leads_somewhere(path, target):
    if re.match(r"\w+:", target):
        return True
    place, _, anchor = target.partition("#")
    found = os.path.normpath(os.path.join(os.path.dirname(path), place)) if place else path
    if not os.path.exists(found):
        return False
    return not anchor or not found.endswith(".md") or anchor in anchors_of(found)


@functools.lru_cache(maxsize=None)
def anchors_of(path):
    """Returns the anchors that the headings of a page get."""
    headings = re.findall(r"(?m)^#+ (.*)$", re.sub(r"(?ms)^```.*?^```", "", text_of(path)))
    return {re.sub(r"[^\w\- ]", "", it.lower()).replace(" ", "-") for it in headings}


def wrong_name(span):
    """Returns what is wrong with the name in backticks, if it is one."""
    if span in SUFFIXES or re.fullmatch(r"\.?[A-Z]+\.\w+", span):
        return None
    if re.fullmatch(r"[\w.+-]+(/[\w.+-]+)*/?(\s.*)?", span) and ("/" in span.split()[0] or span.endswith(SUFFIXES)):
        path = span.split()[0].rstrip("/")
        if not is_path(path):
            return f"there is no `{path}`"
    elif re.fullmatch(r"\w+(::\w+)+", span):
        for part in span.split("::"):
            if not is_name(part):
                return f"`{part}` of `{span}` isn't the name of a crate, file or function"
    elif re.fullmatch(r"[a-z]+_", span):
        if not any(it.startswith(span) for it in crates()):
            return f"no crate begins with `{span}`"
    elif re.fullmatch(r"[A-Za-z]\w*", span) and not span.isupper() and not is_name(span):
        return f"`{span}` isn't the name of a crate, file or function"
    return None


def is_name(word):
    """Whether a word is a name of the repository, the beginning of names of crates, or a word that isn't meant as one."""
    return word in declared() or word in OTHER_WORDS or any(it.startswith(f"{word}_") for it in crates())


def is_path(path):
    """Whether a path leads to a file or folder: from the root, from crates/, or by its last name alone."""
    parts = path.split("/")
    if parts[0] == "out" or any(it.isupper() or ".stepmin-" in it for it in parts) or path.startswith("/"):
        return True
    if len(parts) == 1:
        return path in names_of_files()
    for root in (ROOT, CRATES):
        if os.path.exists(os.path.join(root, path)) or os.path.exists(os.path.join(root, path + ".antt")):
            return True
    return parts[0] in ("src", "specs", "proofs") and any(os.path.exists(os.path.join(CRATES, it, path)) for it in crates())


@functools.lru_cache(maxsize=None)
def names_of_files():
    found = set()
    for at, folders, names in os.walk(ROOT):
        folders[:] = [it for it in folders if it not in ("out", ".git")]
        found |= {*folders, *names}
    return found


@functools.lru_cache(maxsize=None)
def names_of_crate(crate):
    """Returns the names of modules, items, fields, variants, clauses, definitions and lemmas of a crate."""
    found = {crate}
    for path in files_below(os.path.join(CRATES, crate), ".rt", ".antt"):
        inside = os.path.relpath(path, CRATES).split("/")
        if inside[1] not in ("src", "specs", "proofs"):
            continue
        found |= {it.rsplit(".", 1)[0] for it in inside[2:]}
        if path.endswith(".rt"):
            found |= {it.name for it in items_of(path)}
            found |= set(re.findall(r"(?m)^ {4}(?:pub(?:\([a-z]+\))? )?(?:ghost )?(\w+)(?:: |,$)", text_of(path)))
            found |= set(re.findall(r"(?m)^ {4}([A-Z]\w*)(?:[({]| \{|,$)", text_of(path)))
            found |= set(re.findall(r"(?m)^ +(?:requires|ensures) (\w+)", text_of(path)))
        else:
            found |= set(DEFINITION.findall(text_of(path)))
    return found


@functools.lru_cache(maxsize=None)
def declared():
    """Returns all names of the repository, with those of ported crates and what is imported from the toolchain."""
    found = set(names_of_files())
    found |= {os.path.splitext(it)[0] for it in found}
    for crate, below in crates().items():
        found |= names_of_crate(crate) | set(below)
        for path in files_below(os.path.join(CRATES, crate, "src"), ".rt"):
            for listed in IMPORT.findall(text_of(path)):
                found |= set(re.findall(r"\w+", " ".join(listed)))
    for folder in ("tools", "bench", "tests"):
        for path in files_below(os.path.join(ROOT, folder), ".py"):
            found |= {it for pair in re.findall(r"\bdef (\w+)|\"(\w+)\"", text_of(path)) for it in pair}
    return found
