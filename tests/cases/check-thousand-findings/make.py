"""Writes 5000 instances; every fifth refers to none of them."""
HEAD = """ISO-10303-21;
HEADER;
FILE_DESCRIPTION((''),'2;1');
FILE_NAME('','',(''),(''),'','','');
FILE_SCHEMA(('GEO'));
ENDSEC;
DATA;
"""
INSTANCES = 5000


def name_of(instance):
    """Returns the name of an instance; the names are far apart."""
    return instance * 1000 + 7


def line_of(instance):
    """Returns the line of an instance."""
    if instance % 5 == 0:
        return f"#{name_of(instance)}=NODE(#1);\n"
    return f"#{name_of(instance)}=POINT(({instance}.,1.5));\n"


with open("part.stp", "w", encoding="ascii") as file:
    file.write(HEAD + "".join(map(line_of, range(INSTANCES))) + "ENDSEC;\nEND-ISO-10303-21;\n")
with open("stdout", "w", encoding="ascii") as file:
    file.writelines(f"F9 DanglingReference #{name_of(instance)} 1\n" for instance in range(0, INSTANCES, 5))
    file.write("instances 5000\nunknown 0\nfindings 1000\n")
