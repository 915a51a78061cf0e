"""Counts what `stepmin shrink` has to keep of real files, and compares.

Shrinks each FILE by SCHEMA with the usual points, directions and placements merged, in a temporary folder.
A few lines of Python count how many instances have to be kept: those that may not be merged, those in a SET or BAG, and
one of each group of equal ones among the others.
Of a schema they know only which attributes entities have, and which of these are SETs, BAGs and LISTs OF UNIQUE.
So SCHEMA must have no uniqueness rule or inverse attribute of what may be merged.
Then `verify` has to accept OUT, and `shrink` of OUT has to write the same once more.
A file that names another schema is read as one that names this one.

Status: 0 if each file has the counted result or findings; otherwise 1, with what is wrong.
"""
import collections
import decimal
import os
import re
import subprocess
import tempfile

from ..options import parser_of, program_of

USUAL = {prefix + name for name in ("CARTESIANPOINT", "DIRECTION", "VECTOR", "AXIS1PLACEMENT", "AXIS2PLACEMENT2D",
                                    "AXIS2PLACEMENT3D") for prefix in ("", "IFC")}
TOKEN = re.compile(rb"\s+|/\*.*?\*/|('(?:[^']|'')*'|\"[0-9A-F]*\"|#\d+|[-+]?\d+(?:\.\d*(?:E[-+]?\d+)?)?|\.\w+\.|!?\w+|.)", re.S)
ATTRIBUTE = re.compile(r"([\w\\.]+(?: ?, ?[\w\\.]+)*) ?: ?([^;]*);")
# An instance has a name, and records by keyword: parameters, each a bytes literal, a name, a list, or a pair with a type.
Name = collections.namedtuple("Name", "number")


def attributes(text):
    """Maps each entity, in capitals, to its supertypes and the types of its own explicit attributes."""
    text = " ".join(re.sub(r"\(\*.*?\*\)|--[^\n]*", "", text, flags=re.S).upper().split())
    found = {}
    for name, body in re.findall(r"\bENTITY (\w+)(.*?)\bEND_ENTITY\b", text):
        head, _, rest = body.partition(";")
        above = re.search(r"SUBTYPE OF ?\(([^)]*)\)", head)
        own = re.split(r"\b(?:DERIVE|INVERSE|WHERE)\b|(?<!OF )\bUNIQUE\b", rest)[0]
        found[name] = ([it.strip() for it in above[1].split(",")] if above else [],
                       [kind for names, kind in ATTRIBUTE.findall(own) for it in names.split(",") if "\\" not in it])
    return found


def all_attributes(schema, entity, seen):
    """The types of the parameters of an instance of an entity, in order."""
    if entity in seen or entity not in schema:
        return []
    seen.add(entity)
    above, own = schema[entity]
    return [kind for it in above for kind in all_attributes(schema, it, seen)] + own


def parsed(tokens):
    """The parameters up to the closing parenthesis."""
    params = []
    for token in tokens:
        if token == b")":
            return params
        if token == b"(":
            inner = parsed(tokens)
            is_typed = params and isinstance(params[-1], bytes) and re.fullmatch(rb"[A-Za-z]\w*", params[-1])
            params.append((params.pop(), tuple(inner)) if is_typed else inner)
        elif token.startswith(b"#"):
            params.append(Name(int(token[1:])))
        elif token != b",":
            params.append(token)
    raise ValueError("a parenthesis that isn't closed")


def instances(text):
    """Maps each name to the records of its instance."""
    tokens = (it[1] for it in TOKEN.finditer(text[re.search(rb"^\s*DATA\s*[;(]", text, re.M).start():]) if it[1])
    found = {}
    for token in tokens:
        if token.startswith(b"#"):
            next(tokens)
            keyword = next(tokens)
            records = parsed(tokens) if keyword == b"(" else [(keyword, tuple(parsed(next(tokens) and tokens)))]
            found[int(token[1:])] = records
    return found


def shown(param, classes):
    """A key that two parameters share if and only if they agree."""
    if isinstance(param, Name):
        return "#", classes[param.number]
    if isinstance(param, bytes):
        is_number = re.match(rb"[-+]?\d", param)
        return decimal.Decimal(param.decode()).normalize() + 0 if is_number else param.replace(b"\r", b"").replace(b"\n", b"")
    return tuple(shown(it, classes) for it in param)


def references(param):
    """The names in a parameter, at any depth."""
    if isinstance(param, Name):
        return [param.number]
    return [] if isinstance(param, bytes) else [number for it in param for number in references(it)]


def aggregates(rows, schema, word):
    """Yields the parameters whose type matches `word`."""
    for records in rows.values():
        for keyword, params in records:
            entity = keyword.decode().upper()
            kinds = all_attributes(schema, entity, set()) if len(records) == 1 else schema.get(entity, ([], []))[1]
            yield from (param for kind, param in zip(kinds, params) if re.search(word, kind))


def refined(rows, pins):
    """Maps each name to the class of its instance."""
    classes = {name: name in pins and name for name in rows}
    while True:
        numbers = {}
        after = {name: numbers.setdefault((classes[name], records[0][0].upper(), shown(records, classes)), name)
                 if name not in pins else name for name, records in rows.items()}
        if after == classes:
            return classes
        classes = after


def counted(rows, schema):
    """The number of instances that have to be kept."""
    pins = {name for name, records in rows.items()
            if len(records) > 1 or records[0][0].decode().upper().replace("_", "") not in USUAL}
    for param in aggregates(rows, schema, r"\b(SET|BAG)\b"):
        pins.update(references(param))
    classes = refined(rows, pins)
    for param in aggregates(rows, schema, r"\bOF\s+UNIQUE\b"):
        found = collections.Counter(classes[number] for number in references(param))
        pins.update(number for number in references(param) if found[classes[number]] > 1)
    return len(set(refined(rows, pins).values()))


def run(program, *words):
    return subprocess.run([program, *words], stdout=subprocess.PIPE, stderr=subprocess.PIPE, check=False)


def faults_of(program, schema, path, folder):
    """What is wrong with the result of a file, a line each, and a summary of the result."""
    with open(schema, encoding="latin-1") as file:
        text = file.read()
    with open(path, "rb") as file:
        name = re.search(r"\bSCHEMA\s+(\w+)", text)[1].upper()
        given = re.sub(rb"FILE_SCHEMA\s*\(\s*\(\s*'[^']*'", f"FILE_SCHEMA(('{name}'".encode(), file.read(), count=1)
    paths = [os.path.join(folder, it) for it in ("file.stp", "out.stp", "out.cert", "again.stp", "again.cert")]
    source, out, certificate, again, _ = paths
    with open(source, "wb") as file:
        file.write(given)
    done = run(program, "shrink", schema, source, out, certificate)
    if done.returncode == 1:
        return [], "findings"
    if done.returncode:
        return [f"shrink ends with {done.returncode}: {done.stderr[:200]!r}"], ""
    kept = int(re.search(rb"^kept (\d+)$", done.stdout, re.M)[1])
    with open(out, "rb") as file:
        written = file.read()
    rows = instances(given)
    told = f"{len(rows)} instances, {kept} kept, {len(given)} bytes, {len(written)} written"
    wanted = {"kept": counted(rows, attributes(text)), "instances in the output": len(instances(written))}
    faults = [f"{kept} kept, {number} by the count ({what})" for what, number in wanted.items() if number != kept]
    if run(program, "verify", schema, source, out, certificate).returncode:
        faults.append("the certificate doesn't hold")
    run(program, "shrink", schema, out, again, paths[-1])
    with open(again, "rb") as file:
        faults += [] if file.read() == written else ["a second run writes another file"]
    return faults, told


def main(arguments):
    parser = parser_of("test real", __doc__, program="the program that is tested")
    parser.add_argument("schema", metavar="SCHEMA", help="an EXPRESS schema")
    parser.add_argument("files", metavar="FILE", nargs="+", help="STEP files")
    asked = parser.parse_intermixed_args(arguments)
    program, wrong = program_of(asked.program), 0
    for path in asked.files:
        with tempfile.TemporaryDirectory(prefix="counted-") as folder:
            faults, told = faults_of(program, asked.schema, path, folder)
        wrong += bool(faults)
        print(f"{os.path.basename(path)}: {told}", *faults, sep="\n  ")
    return 1 if wrong else 0

