"""Finds the definitions that stand behind a contract.

A reader who relies on the contract of a function has to believe the definitions that the contract is made of. These
stand behind it:

- each definition of `specs` that a clause of the contract names;
- each definition that a trait of the signature names in the contracts of its functions;
- each definition that a type of the signature names in what its values mean: `ghost Value`, `ghost view`, and its
  ghost fields;
- each definition that another definition behind the contract names.

What holds a type together (`ghost invariant`) stands behind no contract: the prover keeps it, and no caller relies on it.
Definitions of the toolchain and of ported crates aren't followed.

Names are followed through imports, word by word, and not by types. So a definition also counts if a variable of its name
stands in a contract.
"""
import collections
import glob
import os
import re

from .sources import CRATES, relative, text_of

PROGRAM = ("commands/src/command.rt", "run_command")
PUBLIC_CALLS = (
    ("commands/src/plain.rt", "plain"),
    ("checking/src/check.rt", "check"),
    ("shrinking/src/shrink.rt", "shrink"),
    ("verifying/src/verify.rt", "verify"),
    ("verifying/src/sources.rt", "verify_files"),
    ("step_exchange/src/exchange.rt", "read_exchange"),
    ("express_reader/src/schema.rt", "read_schema"),
    ("schema_resolution/src/resolution.rt", "resolve"),
    ("population_reader/src/populate.rt", "populate"),
    ("typed_populations/src/plain_rows.rt", "plain"),
    ("rule_outcomes/src/evaluator.rt", "evaluate"),
    ("population_pins/src/weak_rules.rt", "pins"),
    ("partition_refinement/src/refinement.rt", "refine"),
    ("merge_classes/src/classes.rt", "refine"),
    ("certificate_checks/src/judge.rt", "judge"),
    ("certificate_checks/src/quotient.rt", "is_merged"),
    ("value_equality/src/image.rt", "is_image"),
)

IMPORT = re.compile(r"^ *(?:pub )?(?:ghost )?use Rattle\.(\w+)\.specs\.([\w.]+?)(?:\.\{([^}]*)\}| as (\w+))?;?$", re.M)
DEFINITION = re.compile(r"^(?:abbrev |unfoldable |opaque )?(?:pub )?(record |data )?([^\s:(){},=]+)(?:\s+[({].*)?\s*:(?:\s|$)")
WORD = re.compile(r"[^\s(){},;→×≡⊎]+")


def imports_of(text):
    """Returns the names that a text imports from `specs`, and its short names of modules there."""
    names, modules = {}, {}
    for crate, module, listed, short in IMPORT.findall(text):
        for name in filter(None, (it.strip() for it in listed.split(","))):
            old, _, new = name.partition(" as ")
            names[new or old] = (crate, module, old)
        if not listed:
            modules[short or module.split(".")[-1]] = (crate, module)
    return names, modules


class SpecFile:
    """A file of `specs`: its head comment, and its definitions with the lines of each."""

    def __init__(self, path):
        self.path = path
        self.crate, inside = os.path.relpath(path, CRATES).split("/specs/")
        self.module = inside.removesuffix(".antt").replace("/", ".")
        self.text = text_of(path)
        self.imports, self.modules = imports_of(self.text)
        self.lines = {}  # name -> the lines of the definition, with the heads of the blocks in which it stands
        self.places = {}  # name -> the number of its first line
        self.data_types = {}  # constructor -> the data type that has it
        self.read(self.text.split("\n"))

    @property
    def is_step(self):
        return self.module.startswith("steps.")

    @property
    def is_list(self):
        """Whether the file does nothing but list modules."""
        return self.module in ("Lib", "steps")

    def read(self, lines):
        """Splits the file into definitions. Blocks (`module _ .. where`, `mutual`) are told by their indentation."""
        blocks = []  # (indentation of what stands inside, lines of the head)
        current, i = None, 0
        while i < len(lines):
            line, number = lines[i], i + 1
            i += 1
            bare = line.strip()
            depth = len(line) - len(line.lstrip())
            if not bare:
                continue
            while blocks and depth < blocks[-1][0]:
                blocks.pop()
                current = None
            if depth > (blocks[-1][0] if blocks else 0):
                if current:
                    self.lines[current].append(line)
                continue
            if bare.startswith(("--", "use ", "pub use ", "pub mod ")):
                current = None
            elif bare.startswith("module ") or bare in ("mutual", "abbrev mutual"):
                head = [line]
                while bare.startswith("module ") and not lines[i - 1].rstrip().endswith("where"):
                    head.append(lines[i])
                    i += 1
                blocks.append((depth + 2, head))
                current = None
            else:
                begun = DEFINITION.match(bare)
                first = bare.split(" ")[0]
                if first in self.lines:
                    current = first
                    self.lines[current].append(line)
                elif begun:
                    current = begun[2]
                    self.lines[current] = [it for _, head in blocks for it in head] + [line]
                    self.places[current] = number
                elif current:
                    self.lines[current].append(line)
        for name, own in self.lines.items():
            if any(re.match(r" *(?:pub )?data ", it) for it in own):
                for line in own:
                    found = re.match(r" +([^\s:(){}]+) :", line)
                    if found:
                        self.data_types.setdefault(found[1], name)

    def named(self, name):
        """Returns what a definition names, as keys (crate, module, name)."""
        for line in self.lines[name]:
            if line.lstrip().startswith("--"):
                continue
            for word in WORD.findall(line):
                key = self.meaning(word)
                if key:
                    yield key

    def meaning(self, word):
        first, _, rest = word.partition(".")
        for it in (word, first):
            if it in self.lines or it in self.data_types:
                return self.crate, self.module, it
            if it in self.imports:
                return self.imports[it]
        if rest and first in self.modules:
            return *self.modules[first], rest.split(".")[0]
        return None


class Believed:
    """The definitions of all crates, and the traits and types through which contracts name them."""

    def __init__(self):
        self.files = {}
        for path in sorted(glob.glob(f"{CRATES}/*/specs/**/*.antt", recursive=True)):
            file = SpecFile(path)
            self.files[file.crate, file.module] = file
        self.sources = {os.path.relpath(it, CRATES): text_of(it) for it in sorted(glob.glob(f"{CRATES}/*/src/**/*.rt", recursive=True))}
        self.imports = {}
        self.traits, self.types = {}, {}  # (crate, name) -> (file, text in which it names definitions)
        for path, text in self.sources.items():
            self.read_types(path, text)

    def read_types(self, path, text):
        crate = path.split("/")[0]
        for name, body in re.findall(r"(?ms)^pub trait (\w+)\b(.*?^}$)", text):
            self.traits[crate, name] = (path, body)
        for name, body in re.findall(r"(?ms)^pub struct (\w+)\b(.*?^}$)", text):
            self.types[crate, name] = (path, "\n".join(re.findall(r"(?ms)^    (?:pub )?ghost \w+: \{.*?\},?$", body)))
        for name, body in re.findall(r"(?ms)^impl(?:<[^>]*>)? Model for (\w+)\b(.*?^}$)", text):
            fields = self.types.get((crate, name), (path, ""))[1]
            self.types[crate, name] = (path, "\n".join([fields, *re.findall(r"(?ms)^    ghost (?:Value|view) = \{.*?\};$", body)]))

    def definition(self, key):
        """Returns the definition that a key leads to, if it is one of the repository: a constructor leads to its data type."""
        seen = set()
        while key not in seen:
            seen.add(key)
            crate, module, name = key
            file = self.files.get((crate, module))
            if file is None:
                return None
            if name in file.lines:
                return key
            if name in file.data_types:
                key = (crate, module, file.data_types[name])
            elif name in file.imports:
                key = file.imports[name]
        return None

    def with_all_below(self, keys):
        """Returns these definitions and all that they stand on."""
        seen, left = set(), list(keys)
        while left:
            key = self.definition(left.pop())
            if key and key not in seen:
                seen.add(key)
                left += self.files[key[:2]].named(key[2])
        return seen

    def named(self, path, text):
        """Returns the definitions that a piece of a source names."""
        if path not in self.imports:
            self.imports[path] = imports_of(self.sources[path])
        names, modules = self.imports[path]
        text = re.sub(r"//[^\n]*", "", text)
        found = {names[it] for it in re.findall(r"[\w'◌]+", text) if it in names}
        return found | {(*modules[a], b) for a, b in re.findall(r"\b(\w+)\.([\w']+)", text) if a in modules}

    def head(self, path, function):
        """Returns the signature and the contract of a public function."""
        text = self.sources[path]
        begin = re.search(rf"(?m)^ *pub fn {function}\b", text)
        if not begin:
            raise LookupError(f"crates/{path} has no public function {function}")
        ends = [it for it in (text.find(mark, begin.start()) for mark in ("\n{", "\n    {")) if it > 0]
        return text[begin.start() : min(ends)]

    def in_signature(self, path, text):
        """Returns the traits and types of the repository that a signature names."""
        own = path.split("/")[0]
        crates = {}
        for crate, listed, one in re.findall(r"(?m)^use (\w+)::(?:[\w:]+::)?(?:\{([^}]*)\}|(\w+));", self.sources[path]):
            for name in (listed or one).split(","):
                crates[name.strip().split("::")[-1].split(" as ")[-1]] = own if crate == "crate" else crate
        for word in set(re.findall(r"\b[A-Z]\w*", re.split(r"\b(?:requires|ensures)\b", text)[0])):
            key = (crates.get(word, own), word)
            if key in self.traits:
                yield ("trait", *key)
            if key in self.types:
                yield ("type", *key)

    def contract_names(self, path, function):
        """Returns the definitions that the contract of a public function names, by its clauses and through its signature."""
        head = self.head(path, function)
        start, seen = self.named(path, head), set()
        left = list(self.in_signature(path, head))
        while left:
            it = left.pop()
            if it in seen:
                continue
            seen.add(it)
            at, text = (self.traits if it[0] == "trait" else self.types)[it[1:]]
            start |= self.named(at, text)
            if it[0] == "trait":
                left += self.in_signature(at, text)
        return start

    def behind(self, *functions):
        """Returns the definitions behind the contracts of these public functions."""
        return self.with_all_below(set().union(*(self.contract_names(*it) for it in functions)))

    def laws(self):
        """Returns the public laws: the public functions of files whose names have `laws` in them."""
        for path, text in self.sources.items():
            if "laws" in os.path.basename(path):
                for name in re.findall(r"(?m)^pub fn (\w+)", text):
                    yield path, name

    def behind_program(self):
        return self.behind(PROGRAM)

    def behind_promises(self):
        """Returns the definitions behind the program's run, the public calls and the public laws."""
        return self.behind(PROGRAM, *PUBLIC_CALLS, *self.laws())


def by_file(keys):
    """Returns the number of definitions of each file, by (crate, module)."""
    return collections.Counter(key[:2] for key in keys)


def place(file, name):
    """Returns where a definition stands, as FILE:LINE."""
    return f"{relative(file.path)}:{file.places.get(name, 1)}"
