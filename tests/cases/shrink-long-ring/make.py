"""Writes nodes that each refer to the next one, the last to the first."""
HEAD = """ISO-10303-21;
HEADER;
FILE_DESCRIPTION((''),'2;1');
FILE_NAME('','',(''),(''),'','','');
FILE_SCHEMA(('GEO'));
ENDSEC;
"""
END = "ENDSEC;\nEND-ISO-10303-21;\n"
NODES = 100_000


def write(name, *parts):
    """Writes these texts to a file."""
    with open(name, "w", encoding="ascii") as file:
        file.writelines(parts)


table = ["rounds 0\nC0\n"] + [f"#{name}=C0\n" for name in range(1, NODES + 1)]
write("part.stp", HEAD, "DATA;\n", *(f"#{name}=NODE(#{name % NODES + 1});\n" for name in range(1, NODES + 1)), END)
write("out.stp.expected", HEAD, "DATA;\n#1=NODE(#1);\n", END)
write("out.cert.expected", "STEPCERT 2\ntable 1\n", *table, "table 2\n", *table, "end\n")
