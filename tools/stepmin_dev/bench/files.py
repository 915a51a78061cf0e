"""The schemas and files that benches make."""
import os
import re

from ..repository import ROOT

HEADER = """ISO-10303-21;
HEADER;
FILE_DESCRIPTION(('bench'),'2;1');
FILE_NAME('bench','2024-01-01T00:00:00',(''),(''),'','','');
FILE_SCHEMA(('%s'));
ENDSEC;
DATA;
"""
FOOTER = "ENDSEC;\nEND-ISO-10303-21;\n"
SCHEMA = """SCHEMA bench;
TYPE len_m = REAL; END_TYPE;
TYPE angle_m = REAL; END_TYPE;
TYPE finish = ENUMERATION OF (rough, fine); END_TYPE;
TYPE amount = SELECT (len_m, angle_m); END_TYPE;
ENTITY item; name : STRING; END_ENTITY;
ENTITY point SUBTYPE OF (item); coords : LIST [1:3] OF REAL; END_ENTITY;
ENTITY direction SUBTYPE OF (item); ratios : LIST [2:3] OF REAL; END_ENTITY;
ENTITY placement SUBTYPE OF (item); location : point; axis : OPTIONAL direction; END_ENTITY;
ENTITY loop SUBTYPE OF (item); corners : LIST [3:?] OF UNIQUE point; END_ENTITY;
ENTITY shape; label : STRING; END_ENTITY;
ENTITY solid SUBTYPE OF (shape); volume : amount; END_ENTITY;
ENTITY marked SUBTYPE OF (shape); look : finish; END_ENTITY;
ENTITY face SUBTYPE OF (item); bounds : SET [1:?] OF loop; position : placement; same : BOOLEAN; END_ENTITY;
ENTITY numbers; all : SET [0:?] OF REAL; END_ENTITY;
ENTITY points; all : SET [0:?] OF point; END_ENTITY;
ENTITY key; word : STRING; END_ENTITY;
END_SCHEMA;
"""
# Maps bodies of entities and types to those of the schema with rules of the whole population.
RULES = {
    "coords : LIST [1:3] OF REAL;": "coords : LIST [1:3] OF REAL; INVERSE places : BAG OF placement FOR location;",
    "corners : LIST [3:?] OF UNIQUE point;": "corners : LIST [3:?] OF UNIQUE point; UNIQUE corners;",
    "word : STRING;": "word : STRING; UNIQUE word;",
}
# Maps bodies of entities and types to those of the schema with domain rules.
DOMAIN_RULES = {
    "len_m = REAL;": "len_m = REAL; WHERE finite : {-1.0E12 < SELF < 1.0E12};",
    "coords : LIST [1:3] OF REAL;": "coords : LIST [1:3] OF REAL; DERIVE dim : INTEGER := HIINDEX(coords); WHERE dim : dim >= 2;",
    "ratios : LIST [2:3] OF REAL;": "ratios : LIST [2:3] OF REAL; WHERE length : SIZEOF(QUERY(r <* ratios | r <> 0.0)) > 0;",
    "axis : OPTIONAL direction;": "axis : OPTIONAL direction; WHERE is_point : 'BENCH.POINT' IN TYPEOF(location); "
    "same_dim : NOT EXISTS(axis) OR (SIZEOF(axis.ratios) = location.dim);",
    "corners : LIST [3:?] OF UNIQUE point;": "corners : LIST [3:?] OF UNIQUE point; WHERE dims : SIZEOF(QUERY(p <* corners | p.dim <> 3)) = 0;",
    "position : placement; same : BOOLEAN;": "position : placement; same : BOOLEAN; WHERE single : (SIZEOF(bounds) = 1) OR same;",
}
NODES = """SCHEMA bench;
ENTITY node; next : node; END_ENTITY;
ENTITY bundle; members : SET [1:?] OF node; END_ENTITY;
END_SCHEMA;
"""
# Names for --merge: all entities of SCHEMA with instances, and those that users choose.
ALL = "POINT,DIRECTION,PLACEMENT,LOOP,SHAPE,SOLID,MARKED,FACE"
USUAL = "POINT,DIRECTION,PLACEMENT"


def replaced(text, bodies):
    """A schema with some bodies replaced."""
    for plain, with_rule in bodies.items():
        text = text.replace(plain, with_rule)
    return text


def write_text(path, text):
    with open(path, "w", encoding="ascii") as file:
        file.write(text)
    return path


def write(path, texts, schema="BENCH"):
    """Writes a STEP file with the instances of `texts` and this name of a schema."""
    with open(path, "w", encoding="ascii") as file:
        file.write(HEADER % schema)
        file.writelines(texts)
        file.write(FOOTER)
    return path


def instances(lines):
    """A maker of instances: given a size in bytes it yields texts, each with the instances of one call of `lines`."""

    def make(size):
        written, count, seed = 0, 0, 0
        while written < size:
            rows = lines(count + 1, seed)
            text = "".join(f"#{count + 1 + k}={row}\n" for k, row in enumerate(rows))
            yield text
            written, count, seed = written + len(text), count + len(rows), seed + 1

    return make


def listed(item):
    """A maker of one instance: a list that repeats `item`."""

    def make(size):
        yield "#1=LIST(("
        block = ",".join([item] * 10_000)
        for k in range(max(1, size // (len(block) + 1))):
            yield ("," if k else "") + block
        yield "));\n"

    return make


def point(name, seed):
    x, y, z = seed % 977 * 0.125, seed % 613 * -1.5, seed % 89 * 0.25
    lines = [f"POINT('',({x:.4f},{y:.4f},{z:.4f}));", f"POINT('',({y:.4f},{z:.4f},1.E1));"]
    return lines + ["DIRECTION('',(0.,0.,1.));", f"PLACEMENT('',#{name},#{name + 2});"]


def part(name, seed):
    x, y, z = seed % 977 * 0.125, seed % 613 * -1.5, seed % 89 / 7
    lines = [f"POINT('',({x + k:.6f},{y - k:.6f},{z:.12E}));" for k in range(4)]
    lines += ["DIRECTION('',(0.,0.,1.));", f"PLACEMENT('',#{name},#{name + 4});", f"PLACEMENT('',#{name + 1},$);"]
    lines += [f"LOOP('loop {seed}',(#{name},#{name + 1},#{name + 2},#{name + 3}));"]
    lines += [f"(MARKED(.ROUGH.)SHAPE('it''s caf\\X2\\00E9\\X0\\ {seed}')SOLID(LEN_M({z:.6E})));"]
    return lines + [f"FACE('',(#{name + 7}),#{name + 5},.T.);"]


def numbers(size):
    yield "#1=NUMBERS((" + ",".join(f"{k}.{k % 10}" for k in range(100_000)) + "));\n"


def references(size):
    for k in range(1, 100_001):
        yield f"#{k}=POINT('',({k}.,0.));\n"
    yield "#100001=POINTS((" + ",".join(f"#{k}" for k in range(100_000, 0, -1)) + "));\n"


def referrers(size):
    yield "#1=POINT('',(0.,0.));\n"
    for k in range(2, 1_000_002):
        yield f"#{k}=PLACEMENT('',#1,$);\n"


def keys(size):
    for k in range(1, 100_001):
        yield f"#{k}=KEY('the same');\n"


def different_words(size):
    for k in range(1, 100_001):
        yield f"#{k}=KEY('word {k * 7919 % 100_003}');\n"


def linked(size, line):
    """Lines of nodes, as many as fit into `size` bytes."""
    count = size // 22
    return [line(name, count) for name in range(1, count + 1)]


def cycle(size):
    return linked(size, lambda name, count: f"#{name}=NODE(#{name % count + 1});\n")


def chain(size):
    lines = linked(size, lambda name, count: f"#{name}=NODE(#{min(name + 1, count)});\n")
    return lines + [f"#{len(lines) + 1}=BUNDLE((#{len(lines)}));\n"]


def reversed_chain(size):
    lines = linked(size, lambda name, count: f"#{name}=NODE(#{max(name - 1, 1)});\n")
    return lines + [f"#{len(lines) + 1}=BUNDLE((#1));\n"]


def plates(size):
    """The plate of examples/ again and again, each with names of its own."""
    with open(os.path.join(ROOT, "examples", "plate.stp"), encoding="ascii") as file:
        body = re.search(r"^DATA;\n(.*?)^ENDSEC;", file.read(), re.DOTALL | re.MULTILINE)[1]
    most = max(map(int, re.findall(r"#(\d+)", body)))
    return [re.sub(r"#(\d+)", lambda it: f"#{int(it[1]) + most * k}", body) for k in range(size // len(body))]


FILES = {"points": instances(point), "parts": instances(part), "numbers": numbers, "references": references}
RULED_FILES = {"referrers": referrers, "keys": keys, "words": different_words}
LINKED = {"cycle": cycle, "chain": chain, "reversed chain": reversed_chain}
