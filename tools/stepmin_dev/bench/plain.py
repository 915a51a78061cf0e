"""Times `stepmin plain` on large files, beside md5sum on the same files.

Prints the time as a multiple of that of md5sum, and the memory as a multiple of the file.
With --beside another build of the program runs on the same files; the ratios of time and of instructions are printed.
Instructions are counted by valgrind, on files of a tenth of the size.

The files: `parts` is shaped like real ones (points, directions, placements, loops, strings), some 60 bytes an instance.
`points` has some 45 bytes an instance, most of them points.
`numbers` is one list of numbers of eight bytes, `digits` of one digit; `deep` is lists in lists, 60 deep.
`parts` and `points` are made once more, twice as large.
"""
import os

from .. import bench
from .files import instances, listed, write
from .timing import compared, instructions, run

SIZE, RUNS = 60, 5
SCHEMA = "AUTOMOTIVE_DESIGN { 1 0 10303 214 1 1 1 1 }"


def part(name, seed):
    """Twelve instances: points, directions, placements, a loop and strings."""
    x, y, z = seed % 977 * 0.125, seed % 613 * -1.5, seed % 89 / 7
    lines = [f"CARTESIAN_POINT('',({x + k:.6f},{y - k:.6f},{z:.12E}));" for k in range(4)]
    lines += ["DIRECTION('',(0.,0.,1.));", f"DIRECTION('',(1.,{z:.9f},0.));"]
    lines += [f"AXIS2_PLACEMENT_3D('',#{name},#{name + 4},#{name + 5});"]
    lines += [f"AXIS2_PLACEMENT_3D('',#{name + 1},#{name + 4},$);"]
    lines += [f"POLY_LOOP('loop {seed}',(#{name},#{name + 1},#{name + 2},#{name + 3}));"]
    lines += ["( LENGTH_UNIT() NAMED_UNIT(*) SI_UNIT(.MILLI.,.METRE.) );"]
    lines += [f"PRODUCT('part-{seed}','it''s caf\\X2\\00E9\\X0\\ no. {seed}','',(#{name + 9}));"]
    lines += [f"ADVANCED_FACE('',(#{name + 8}),#{name + 6},.T.);"]
    return lines


def point(name, seed):
    """Three instances: two points and a vertex."""
    x, y, z = seed % 977 * 0.125, seed % 613 * -1.5, seed % 89 * 0.25
    lines = [f"CARTESIAN_POINT('',({x:g},{y:g},{z:g}));", f"CARTESIAN_POINT('',({y:g},{z:g},1.E1));"]
    return lines + [f"VERTEX_POINT('',#{name});"]


FILES = {
    "parts": instances(part),
    "points": instances(point),
    "numbers": listed("1234.56"),
    "digits": listed("1"),
    "deep": listed("(" * 60 + "1" + ")" * 60),
}
GROWING = ("parts", "points")


def beside(asked, path, make, size, seconds):
    """The figures of the other program, on the file and on one of a tenth of the size."""
    other = run([asked.beside, "plain", path], asked.runs)
    write(path, make(size // 10), SCHEMA)
    ratio = instructions([asked.program, "plain", path]) / instructions([asked.beside, "plain", path])
    return {"s of the other": other.seconds, "times the other's time": seconds / other.seconds, "times its instructions": ratio}


def rows(asked, folder):
    path, size = os.path.join(folder, "file.stp"), asked.size * 10**6
    for name, make in FILES.items():
        length, before = size if name != "deep" else min(size, 10**7), None
        for factor in (1, 2) if name in GROWING else (1,):
            write(path, make(factor * length), SCHEMA)
            seconds, figures = compared([asked.program, "plain", path], "md5sum", ["md5sum", path], [path], asked.runs)
            if before:
                figures["times as long for twice the size"] = seconds / before
            elif asked.beside:
                figures |= beside(asked, path, make, length, seconds)
            before = seconds
            yield name, figures


def main(arguments):
    return bench.main(["plain", *arguments])
