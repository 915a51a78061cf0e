"""Writes 300 blocks in two data sections, and what is kept of them.

A small letter in BLOCK is replaced by the name of an instance of the block, `?` by one of 50 locations, and `!` by the
number of the block. `b` is equal to `a`. The corners of the loop `e` differ, two of `h` are equal. A note refers to
the placement `i`; `l` and `n` are members of SETs; `r` and `s` are inside an element of a LIST OF UNIQUE; `u` is the
key of a tag. `o` refers to `n`, `q` to itself.
"""
import re

HEAD = """ISO-10303-21;
HEADER;
FILE_DESCRIPTION((''),'2;1');
FILE_NAME('','',(''),(''),'','','');
FILE_SCHEMA(('GEO'));
ENDSEC;
"""
END = "ENDSEC;\nEND-ISO-10303-21;\n"
BLOCK = """#a=POINT((?.,0.));
#b=POINT((?.0,0.E0));
#c=POINT((?.,1.));
#d=POINT((?.,2.));
#e=LOOP((#a,#c,#d));
#f=POINT((?.,9.));
#g=POINT((?.,9.0));
#h=LOOP((#f,#g,#c));
#i=PLACEMENT(#a,$);
#j=PLACEMENT(#b,$);
#k=NOTE('N',#i);
#l=PLACEMENT(#c,$);
#m=GROUP('!',(#l));
#n=NODE(#n);
#o=NODE(#n);
#p=BUNDLE((#n));
#q=NODE(#q);
#r=POINT((?.,7.));
#s=POINT((?.,8.));
#t=FRAME(((#r,#s)));
#u=PLACEMENT(#b,$);
#v=TAG(#u);
"""
BLOCKS = 300
PLACES = 50
WEAKLY_PINNED = "eikhlmnprstuv"
GENTLY_PINNED = WEAKLY_PINNED + "fg"
SECTIONS = ("DATA('first',('GEO'));\n", "ENDSEC;\nDATA('second',('GEO'));\n")


def write(name, *parts):
    """Writes these texts to a file."""
    with open(name, "w", encoding="ascii") as file:
        file.writelines(parts)


class Instance:
    """An instance of a block: its letter, section, line, and the names to which it refers."""

    def __init__(self, line, block):
        self.letter, self.section = line[1], block * 2 // BLOCKS
        self.name = block * 1000 + ord(self.letter)
        self.text = re.sub("[a-z]", lambda found: str(block * 1000 + ord(found[0])), line)
        self.text = self.text.replace("?", str(block % PLACES)).replace("!", str(block)) + "\n"
        self.body = self.text.partition("=")[2]
        self.references = [int(name) for name in re.findall("#([0-9]+)", self.body)]
        coordinates = [float(number) for number in re.findall("[0-9]+[.][0-9E]*", self.body)]
        self.kind = self.section, self.body.partition("(")[0]
        self.shape = coordinates if self.kind[1] == "POINT" else []


def table_of(instances, pinned):
    """Returns the last round, the classes (parent and round), and the class of each name, by rounds of agreement."""
    classes, numbers = [], {}
    of = {}
    for one in instances:
        key = one.name if one.letter in pinned else one.kind
        if key not in numbers:
            numbers[key] = len(classes)
            classes.append(None)
        of[one.name] = numbers[key]
    rounds = 0
    while True:
        parts, firsts, then = {}, set(), {}
        for one in instances:
            mine = of[one.name]
            part = mine, str(one.shape), *(of[name] for name in one.references)
            if one.letter in pinned:
                part = mine
            if part not in parts:
                if mine in firsts:
                    parts[part] = len(classes)
                    classes.append((mine, rounds + 1))
                else:
                    firsts.add(mine)
                    parts[part] = mine
            then[one.name] = parts[part]
        if then == of:
            return rounds, classes, of
        rounds, of = rounds + 1, then


def text_of(table):
    """Returns the text of a table in a certificate."""
    rounds, classes, of = table
    lines = [f"C{k}\n" if one is None else f"C{k}=C{one[0]}@{one[1]}\n" for k, one in enumerate(classes)]
    return "".join([f"rounds {rounds}\n", *lines, *(f"#{name}=C{k}\n" for name, k in of.items())])


def data_of(instances, of):
    """Returns the data sections of the first instance of each class, with references to first instances."""
    first = {}
    for one in instances:
        first.setdefault(of[one.name], one.name)
    kept = [one for one in instances if first[of[one.name]] == one.name]
    named = {one.name: re.sub("#([0-9]+)", lambda found: f"#{first[of[int(found[1])]]}", one.text) for one in kept}
    return "".join(SECTIONS[k] + "".join(named[one.name] for one in kept if one.section == k) for k in (0, 1))


site = [Instance(line, block) for block in range(BLOCKS) for line in BLOCK.splitlines()]
tables = [table_of(site, pinned) for pinned in (WEAKLY_PINNED, GENTLY_PINNED)]
write("part.stp", HEAD, data_of(site, {one.name: one.name for one in site}), END)
write("out.stp.expected", HEAD, data_of(site, tables[1][2]), END)
write("out.cert.expected", "STEPCERT 2\ntable 1\n", text_of(tables[0]), "table 2\n", text_of(tables[1]), "end\n")
