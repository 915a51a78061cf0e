"""Writes a file of more than one MiB with two further records in its header, and its normal text."""
HEAD = """ISO-10303-21;
HEADER;
FILE_DESCRIPTION((''),'2;1');
FILE_NAME('','',(''),(''),'','','');
FILE_SCHEMA(('GEO'));
A(1);
B('x');
ENDSEC;
DATA;
"""
for name, value in ("part.stp", " = point ( ( 0., 1. ) ) ;\n"), ("stdout", "=POINT((0.,1.));\n"):
    with open(name, "w", encoding="ascii") as file:
        file.write(HEAD + "".join(f"#{k}{value}" for k in range(1, 40000)) + "ENDSEC;\nEND-ISO-10303-21;\n")
