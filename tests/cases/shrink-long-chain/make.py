"""Writes nodes that each refer to the next one, the last one to itself. The last one is a member of a SET."""
HEAD = """ISO-10303-21;
HEADER;
FILE_DESCRIPTION((''),'2;1');
FILE_NAME('','',(''),(''),'','','');
FILE_SCHEMA(('GEO'));
ENDSEC;
"""
END = "ENDSEC;\nEND-ISO-10303-21;\n"
ROUNDS = 5000
LAST = ROUNDS + 2
BUNDLE = LAST + 1


def write(name, *parts):
    """Writes these texts to a file."""
    with open(name, "w", encoding="ascii") as file:
        file.writelines(parts)


lines = [f"#{name}=NODE(#{min(name + 1, LAST)});\n" for name in range(1, LAST + 1)] + [f"#{BUNDLE}=BUNDLE((#{LAST}));\n"]
classes = ["C0\nC1\nC2\n"] + [f"C{born + 2}=C0@{born}\n" for born in range(1, ROUNDS + 1)]
members = ["#1=C0\n"] + [f"#{name}=C{LAST + 2 - name}\n" for name in range(2, LAST)] + [f"#{LAST}=C1\n#{BUNDLE}=C2\n"]
table = [f"rounds {ROUNDS}\n", *classes, *members]
write("part.stp", HEAD, "DATA;\n", *lines, END)
write("out.stp.expected", HEAD, "DATA;\n", *lines, END)
write("out.cert.expected", "STEPCERT 2\ntable 1\n", *table, "table 2\n", *table, "end\n")
