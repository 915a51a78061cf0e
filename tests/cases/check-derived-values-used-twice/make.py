"""Writes a schema with three hundred derived attributes; each uses the one before twice."""


def expression(name):
    """Returns the expression that uses an attribute."""
    return f"{name} AND {name}"


with open("schema.exp", "w", encoding="ascii") as file:
    file.write("SCHEMA geo;\nENTITY a; x : LOGICAL; l : LIST OF LOGICAL;\nDERIVE d0 : LOGICAL := x;\n")
    file.writelines(f"d{k} : LOGICAL := {expression(f'd{k - 1}')};\n" for k in range(1, 300))
    file.write("WHERE w : d299; END_ENTITY;\nEND_SCHEMA;\n")
