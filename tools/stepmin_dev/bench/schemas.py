"""Times `read_schema` on large schemas, beside md5sum on the same files.

Builds bench/schemas/main.rt.in over crates/express_reader.
Makes a schema and one twice as large, shaped like published ones: remarks, types, entities with rules, functions.
Prints the time as a multiple of that of md5sum, and the memory as a multiple of the schema.
"""
import os
import subprocess
import sys

from .. import bench
from .building import build
from .timing import run

SIZE, RUNS = 2, 5
HEADER = "(* A schema for the bench. *)\nSCHEMA bench;\n\n"
FOOTER = "END_SCHEMA;\n"


def group(seed):
    """Four declarations, with the remarks that published schemas have."""
    return f"""(* {'Of item ' + str(seed) + ', as it is used in a design. ' * 6}*)
TYPE label_{seed} = STRING(255) FIXED;
WHERE
  wr1 : (SIZEOF(QUERY(letter <* SELF | letter <> '')) > 0) AND EXISTS(SELF);
END_TYPE;

TYPE choice_{seed} = SELECT (label_{seed}, item_{seed}, item_{seed // 2}); -- two entities
END_TYPE;

ENTITY item_{seed}
  ABSTRACT SUPERTYPE OF (ONEOF (round_item_{seed}, flat_item_{seed}))
  SUBTYPE OF (item_{seed // 2});
  name, other_name : label_{seed};
  SELF\\item_{seed // 2}.corners : LIST [3:?] OF UNIQUE cartesian_point;
  sizes : OPTIONAL ARRAY [1:3] OF OPTIONAL positive_length_measure;
DERIVE
  dim : INTEGER := SIZEOF(corners);
INVERSE
  users : SET [0:?] OF choice_user FOR items;
UNIQUE
  ur1 : name, SELF\\item_{seed // 2}.other_name;
WHERE
  wr1 : NOT ('BENCH.FLAT_ITEM_{seed}' IN TYPEOF(SELF)) OR (SIZEOF(users) = 0) AND (dim > 2);
  wr2 : {{0 < dim <= {seed + 3}}};
  wr3 : is_sound(SELF, [1, 2, 3]) = TRUE;
END_ENTITY;

FUNCTION is_sound_{seed}(it : item_{seed}) : BOOLEAN;
  LOCAL
    i : INTEGER := 1; -- counts the corners
  END_LOCAL;
  REPEAT i := 1 TO SIZEOF(it.corners);
    IF it.corners[i] :=: it.corners[1] THEN RETURN (FALSE); END_IF;
  END_REPEAT;
  RETURN (TRUE);
END_FUNCTION;

"""


def make(path, size):
    """Writes a schema and returns the number of its declarations."""
    with open(path, "w", encoding="ascii") as file:
        file.write(HEADER)
        written, seed = len(HEADER), 0
        while written < size:
            text = group(seed)
            file.write(text)
            written += len(text)
            seed += 1
        file.write(FOOTER)
    return 4 * seed


def declarations(program, folder):
    """The number of declarations that a program reads, as it prints it."""
    output = subprocess.run([program], cwd=folder, capture_output=True, text=True, check=True).stdout
    return output.strip()


def rows(asked, folder):
    program, before = build(asked, folder, "schemas", ["express_reader", "anyhow"]), None
    # The program reads schema.exp of the current folder.
    os.chdir(folder)
    for factor in (1, 2):
        count = make("schema.exp", factor * asked.size * 10**6)
        found = declarations(program, folder)
        if found != str(count):
            sys.exit(f"{count} declarations are read as {found}")
        length = os.path.getsize("schema.exp")
        sums, found = run(["md5sum", "schema.exp"], asked.runs), run([program], asked.runs)
        yield f"{count:,} declarations", {
            "MB": length / 1e6, "ms": found.seconds * 1000, "times md5sum": found.seconds / sums.seconds,
            "ms of md5sum": sums.seconds * 1000, "times the file in memory": found.memory / length,
            **({"times as long for twice the size": found.seconds / before} if before else {})}
        before = found.seconds


def main(arguments):
    return bench.main(["schemas", *arguments])
