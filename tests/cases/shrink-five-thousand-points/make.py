"""Writes 5000 points at 50 locations in turn, and the first point of each location."""
HEAD = """ISO-10303-21;
HEADER;
FILE_DESCRIPTION((''),'2;1');
FILE_NAME('','',(''),(''),'','','');
FILE_SCHEMA(('GEO'));
ENDSEC;
"""
END = "ENDSEC;\nEND-ISO-10303-21;\n"
POINTS = 5000
PLACES = 50


def write(name, *parts):
    """Writes these texts to a file."""
    with open(name, "w", encoding="ascii") as file:
        file.writelines(parts)


names = [i * 1000 + 7 for i in range(POINTS)]
lines = [f"#{name}=POINT(({i % PLACES}.,1.5));\n" for i, name in enumerate(names)]
classes = ["C0\n"] + [f"C{place}=C0@1\n" for place in range(1, PLACES)]
members = [f"#{name}=C{i % PLACES}\n" for i, name in enumerate(names)]
table = ["rounds 1\n", *classes, *members]
write("part.stp", HEAD, "DATA;\n", *lines, END)
write("out.stp.expected", HEAD, "DATA;\n", *lines[:PLACES], END)
write("out.cert.expected", "STEPCERT 2\ntable 1\n", *table, "table 2\n", *table, "end\n")
