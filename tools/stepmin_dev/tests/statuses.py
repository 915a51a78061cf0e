"""Runs the program with full and closed outputs, too little memory, wrong arguments and schemas that are cut off.

What a folder of tests/cases can show stands there.

Each row has arguments and a stack of 1 MiB; if memory has to run out, also a limit of memory (`ulimit -v`).
Beside them stand the status, the standard output, the standard error and the files that have to come of the run.
What `shrink` writes is shrunk once more, and has to stay as it is.
A full device is /dev/full. `check` also has to refuse each prefix of a schema that ends before its last semicolon.
`.ci/run` runs this suite after the proofs, on the program that `rt ci` has built.

Status: 0 if each run ends as it has to; 1 if one doesn't; 2 if the arguments are wrong.
"""
import json
import os
import resource
import subprocess
import tempfile
from typing import NamedTuple, Optional

from ..options import parser_of, program_of
from ..repository import ROOT


def text_of(*path):
    """The text of a file of the repository."""
    with open(os.path.join(ROOT, *path), encoding="ascii") as file:
        return file.read()


FRAME = """ISO-10303-21;
HEADER;
FILE_DESCRIPTION(('a bracket, as an example'),'2;1');
FILE_NAME('bracket.stp','2026-11-22T00:00:00',(''),(''),'','','');
FILE_SCHEMA(('GEO'));
ENDSEC;
DATA;
%sENDSEC;
END-ISO-10303-21;
"""
SPELT = text_of("examples", "spelling.stp")
SMALL = FRAME % "#1=POINT((0.,1.));\n"
CUT = SMALL.replace("END-ISO-10303-21;\n", "")
BROKEN = FRAME % "#1=POINT();\n"
SCHEMA = text_of("examples", "geo.exp")
EQUAL = """#1=POINT((0.,1.));
#2=POINT((0.0,1.E0));
#3=PLACEMENT(#1,$);
#4=PLACEMENT(#2,$);
"""
SMALLER = FRAME % """#1=POINT((0.,1.));
#3=PLACEMENT(#1,$);
"""
TABLE = "rounds 0\nC0\nC1\n#1=C0\n#2=C0\n#3=C1\n#4=C1\n"


def certificate_of(table):
    """A certificate whose two tables are these lines."""
    return f"STEPCERT 2\ntable 1\n{table}table 2\n{table}end\n"


CERTIFICATE = certificate_of(TABLE)
LARGE = FRAME % "".join(f"#{name}=POINT((0.,1.));\n" for name in range(1, 1_000_000))


class Run(NamedTuple):
    """A run and its result. A text with three dots gives a prefix and a suffix of what is printed."""

    words: list
    status: int
    out: str = ""
    err: str = ""
    full_out: bool = False
    full_err: bool = False
    megabytes: Optional[int] = None
    closed_out: bool = False
    made: Optional[dict] = None


# The arguments of `shrink`, with status and result; no files are made unless `made` names them.
MERGE = ["--merge", "POINT,PLACEMENT"]
WRITTEN = ["out.stp", "out.cert"]
SHRINKING = [
    (["geo.exp", "plate.stp", *WRITTEN, "--merge", "POINT,DIRECTION,PLACEMENT"], 0,
     {"out": "instances 630\nunknown 0\nfindings 0\nkept 279\nrounds 2\n", "made": {"out.stp": 9022, "out.cert": None}}),
    (["cut.exp", "equal.stp", *WRITTEN], 2, {"err": "schema: S2 Expected at byte ...\n"}),
    (["cut.exp", "cut.stp", *WRITTEN, "--merge", "PONIT"], 2, {"err": "schema: S2 Expected at byte ...\n"}),
    (["geo.exp", "equal.stp", "out.stp"], 3, {"err": "error: ...\n"}),
    (["geo.exp", "equal.stp", *WRITTEN, "--merge", "POINT,"], 3, {"err": "error: ...\n"}),
    (["geo.exp", "equal.stp", *WRITTEN, "--merge", "POINT,,NODE"], 3, {"err": "error: ...\n"}),
    (["geo.exp", "equal.stp", *WRITTEN, "--merge", "@lines"], 3, {"err": "error: ...\n"}),
    (["geo.exp", "equal.stp", "/dev/full", "out.cert", *MERGE], 4, {"err": "device: output after 0 bytes\n"}),
    (["geo.exp", "self.stp", "self.stp", "/dev/full", *MERGE], 4, {"err": "device: certificate after 0 bytes\n"}),
    (["geo.exp", "self.stp", "self.stp", "bad.cert", *MERGE], 4,
     {"full_out": True}),
    (["geo.exp", "large.stp", *WRITTEN, "--merge", "POINT"], 5, {"megabytes": 96, "err": "memory\n"}),
]
FOUR = ["geo.exp", "equal.stp", "smaller.stp", "right.cert", *MERGE]
VERIFYING = [
    (FOUR[:3], 3, {"err": "error: ...\n"}),
    ([*FOUR, "--strict"], 3, {"err": "error: ...\n"}),
    (FOUR, 4, {"full_out": True}),
    (["geo.exp", "large.stp", "large.stp", "right.cert"], 5, {"megabytes": 96, "err": "memory\n"}),
]

RUNS = [
    Run(["check", "cut.exp", "small.stp"], 2, err="schema: S2 Expected at byte ...\n"),
    Run([], 3, err="error: ...\n"),
    Run(["plain"], 3, err="error: ...\n"),
    Run(["plain", "spelt.stp", "spelt.stp"], 3, err="error: ...\n"),
    Run(["shrink", "spelt.stp"], 3, err="error: ...\n"),
    Run(["plain", "--version"], 3, err="error: ...\n"),
    Run(["plain", b"\xff.stp"], 3, err="error: an argument is not text\n"),
    Run(["check", "geo.exp"], 3, err="error: ...\n"),
    Run(["plain", "spelt.stp"], 4, full_out=True, err="device: output after 0 bytes\n"),
    Run(["--help"], 4, full_out=True),
    Run(["--version"], 4, full_out=True),
    Run(["plain", "cut.stp"], 4, full_err=True),
    Run(["shrink"], 4, full_err=True),
    Run(["check", "geo.exp", "broken.stp"], 4, full_out=True),
    Run(["plain", "spelt.stp"], 4, closed_out=True, err="device: output after 0 bytes\n"),
    Run(["plain", "large.stp"], 5, megabytes=24, err="memory\n"),
    Run(["plain", "large.stp"], 5, megabytes=96, err="memory\n"),
    Run(["check", "geo.exp", "large.stp"], 5, megabytes=96, err="memory\n"),
    *(Run(["shrink", *words], status, **wanted) for words, status, wanted in SHRINKING),
    *(Run(["verify", *words], status, **wanted) for words, status, wanted in VERIFYING),
]


FILES = {
    "spelt.stp": SPELT, "cut.stp": CUT, "large.stp": LARGE, "small.stp": SMALL, "broken.stp": BROKEN,
    "equal.stp": FRAME % EQUAL, "self.stp": FRAME % EQUAL, "smaller.stp": SMALLER, "plate.stp": text_of("examples", "plate.stp"),
    "geo.exp": SCHEMA, "cut.exp": SCHEMA[:len(SCHEMA) // 2],
    "right.cert": CERTIFICATE, "bad.cert": "STEPCERT 2\ntable 1\nrounds 00\n",
}


def write_files(folder, files):
    """Writes the files that are missing or wrong, and removes all others."""
    for name in files_wrong(folder, files):
        if name not in files:
            os.remove(os.path.join(folder, name))
            continue
        with open(os.path.join(folder, name), "w", encoding="ascii") as file:
            file.write(files[name])


def is_as(wanted, found):
    """Whether a file has the wanted text, the wanted number of bytes, or any text if `wanted` is `None`."""
    return found is not None and (wanted is None or wanted in (found, len(found)))


def files_wrong(folder, wanted):
    """The names of files that are missing, have another text, or shouldn't exist."""
    found = {}
    for name in os.listdir(folder):
        with open(os.path.join(folder, name), encoding="ascii", errors="replace") as file:
            found[name] = file.read()
    return [name for name in sorted({*wanted, *found}) if name not in wanted or not is_as(wanted[name], found.get(name))]


def comes_to(wanted, found):
    """Whether a text is the wanted one, or has its prefix and suffix around three dots."""
    prefix, dots, suffix = wanted.partition("...")
    if not dots:
        return found == wanted
    return found.startswith(prefix) and found.endswith(suffix) and len(found) >= len(prefix) + len(suffix)


def faults_of(program, folder, run):
    """What is wrong with the result of a run, a line each."""

    def limit():
        resource.setrlimit(resource.RLIMIT_STACK, (1 << 20, 1 << 20))
        if run.megabytes:
            resource.setrlimit(resource.RLIMIT_AS, (run.megabytes << 20, run.megabytes << 20))
        if run.closed_out:
            os.close(1)

    write_files(folder, FILES)
    with open("/dev/full", "wb") as full, open(os.devnull, "rb") as given:
        done = subprocess.run(
            [program, *run.words], cwd=folder, stdin=given, preexec_fn=limit, timeout=60,
            stdout=full if run.full_out else subprocess.PIPE, stderr=full if run.full_err else subprocess.PIPE)
    texts = [(name, wanted, (text or b"").decode("utf-8", "replace"))
             for name, wanted, text in (("output", run.out, done.stdout), ("error", run.err, done.stderr))]
    faults = [f"the standard {name} is {found[:200]!r}" for name, wanted, found in texts if not comes_to(wanted, found)]
    faults += [f"the file {name} is wrong" for name in files_wrong(folder, {**FILES, **(run.made or {})})]
    return faults if done.returncode == run.status else [f"the status is {done.returncode}", *faults]


def faults_of_second(program, folder, run):
    """What is wrong with a second `shrink` of OUT, which has to write the same."""
    files = [word for word in run.words[1:] if "." in word or "/" in word]
    others = [word for word in run.words[1:] if word not in files]
    schema, _, out, _ = files
    done = subprocess.run([program, "shrink", schema, out, "again.stp", "again.cert", *others], cwd=folder, timeout=60,
                          stdout=subprocess.DEVNULL, stderr=subprocess.PIPE, check=False)
    if done.returncode:
        return [f"a second run ends with {done.returncode}, {done.stderr[:80]!r}"]
    first, second = (open(os.path.join(folder, name), "rb").read() for name in (out, "again.stp"))
    return [] if first == second else ["a second run writes another file"]


def prefixes_wrong(program, folder):
    """What is wrong with `check` on prefixes of a schema that end before its last semicolon, a line each."""
    faults = []
    for length in range(SCHEMA.rindex(";") + 1):
        with open(os.path.join(folder, "prefix.exp"), "w", encoding="ascii") as file:
            file.write(SCHEMA[:length])
        done = subprocess.run([program, "check", "prefix.exp", "small.stp"], cwd=folder, stdout=subprocess.PIPE,
                              stderr=subprocess.PIPE, timeout=60, text=True, check=False)
        if done.returncode != 2 or done.stdout or not done.stderr.startswith("schema: S"):
            faults.append(f"the first {length} bytes of a schema: status {done.returncode}, {done.stderr[:80]!r}")
    return faults


def main(arguments):
    parser = parser_of("test statuses", __doc__, program="the program that is tested", json="print the result as JSON")
    asked = parser.parse_args(arguments)
    program, faults, passed = program_of(asked.program), [], 0
    with tempfile.TemporaryDirectory(prefix="statuses-") as folder:
        for run in RUNS:
            found = faults_of(program, folder, run)
            if run.words[:1] == ["shrink"] and run.status == 0 and not found:
                found = faults_of_second(program, folder, run)
            passed += not found
            faults += [f"{run.words}, to end with {run.status}: {fault}" for fault in found]
        faults += prefixes_wrong(program, folder)[:10]
    if asked.json:
        print(json.dumps({"suite": "statuses", "passed": passed, "failed": len(RUNS) - passed, "faults": faults}))
    else:
        print(*faults, f"{passed} rows passed, {len(RUNS) - passed} failed", sep="\n")
    return 1 if faults else 0
