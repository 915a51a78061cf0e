"""Measures what the gate costs, crate by crate, and lists what is over the budget of docs/PROVING.md.

    gate       runs `rt ci` and looks each second at the processes that it has started (the default)
    watch      does the same for an `rt ci` that runs already, with process number --pid, from now on
    table      prints the table of an earlier run once more
    modules    lists the modules of proofs that take longest, while a gate runs beside it
    lifetimes  lists the functions that number the lifetimes of a schema out of step

Figures are CPU seconds of `rattle` and its forked copies, up to a second too few for each process.
Beside other work they come out a third to twice too high, and times by the clock mean nothing.
What passed before isn't proved again by `rt ci`, and has no figures; --write keeps the figures of such crates.
With --write the table goes to docs/gate.tsv: of each crate its proof, its tests, the number of its edits, what these
cost, and the sum. The proof that comes with tests is in the column of tests.

Status: that of `rt ci` if it is run; otherwise 0.
"""
import json
import os
import subprocess
import sys
import tempfile
import threading
import time

from . import lifetimes, modules
from .options import parser_of
from .repository import CRATES, ROOT, RT, manifest

# CPU seconds: of a crate's proof, its tests beyond a second proof, all its edits, one edit after the first, all of the
# crate, the longest chain of crates, and all crates.
BUDGET = {"proof": 180, "tests": 60, "edits": 240, "edit": 20, "all": 600, "chain": 3400, "total": 17000}
PAGE = os.path.join(ROOT, "docs", "gate.tsv")
COLUMNS = ("proof", "tests", "edits", "edits_cpu", "all")
HERTZ = os.sysconf("SC_CLK_TCK")


def processes():
    """Maps each process to CPU seconds, memory in MiB and start, and to the processes that it has started."""
    found, children = {}, {}
    for number in map(int, filter(str.isdigit, os.listdir("/proc"))):
        try:
            with open(f"/proc/{number}/stat", encoding="utf-8", errors="replace") as file:
                parts = file.read().rpartition(")")[2].split()
        except OSError:
            continue
        seconds = sum(map(int, parts[11:15])) / HERTZ
        found[number] = seconds, int(parts[21]) * os.sysconf("SC_PAGE_SIZE") >> 20, int(parts[19]) / HERTZ
        children.setdefault(int(parts[1]), []).append(number)
    return found, children


def kind_of(arguments, folder):
    if "/rt-edit-" in folder:
        return "edits"
    return "tests" if "--test" in arguments else "compile" if "--crate-checked" in arguments else "proof"


def sample(top, seen):
    """Adds what the proofs below process `top` have used until now."""
    found, children = processes()

    def whole(number, part):
        return found[number][part] + sum(whole(it, part) for it in children.get(number, []) if it in found)

    for number in children.get(top, []):
        try:
            with open(f"/proc/{number}/cmdline", encoding="utf-8", errors="replace") as file:
                arguments = file.read().split("\0")
            folder = os.readlink(f"/proc/{number}/cwd")
        except OSError:
            continue
        if "--crate-name" in arguments and arguments[0].endswith("/rattle"):
            began = found[number][2]
            it = seen.setdefault(f"{number} {began}", {"crate": arguments[arguments.index("--crate-name") + 1],
                                                       "kind": kind_of(arguments, folder), "from": began, "cpu": 0, "mib": 0})
            with open("/proc/uptime", encoding="ascii") as file:
                now = float(file.read().split()[0])
            it.update(cpu=max(it["cpu"], whole(number, 0)), mib=max(it["mib"], whole(number, 1)), to=now)


def watch(top, path, has_ended):
    """Samples each second until the process `top` has ended, and keeps the samples in a file."""
    seen = {}
    while not has_ended():
        sample(top, seen)
        with open(path, "w", encoding="ascii") as file:
            json.dump(list(seen.values()), file)
        time.sleep(1)


def run_gate(path, output):
    """Runs `rt ci`, which prints to `output`, with a sampler beside it. Returns its status."""
    with subprocess.Popen([sys.executable, RT, "ci"], cwd=ROOT, stdout=output) as ran:
        sampler = threading.Thread(target=watch, args=(ran.pid, path, lambda: ran.poll() is not None))
        sampler.start()
        sampler.join()
    return ran.returncode


def edits_of(crate):
    """The names of the must-fail edits of a crate, in the order of `rt`."""
    folder = os.path.join(CRATES, crate, "must-fail")
    return sorted(it for it in os.listdir(folder) if it.endswith(".edit")) if os.path.isdir(folder) else []


def costs_of(samples):
    """Maps each crate to its figures; `tries` has the seconds of each try of an edit, in order."""
    costs = {}
    for it in sorted(samples, key=lambda it: it["from"]):
        own = costs.setdefault(it["crate"], {"proof": 0, "tests": 0, "edits": len(edits_of(it["crate"])), "edits_cpu": 0,
                                             "all": 0, "mib": 0, "tries": []})
        own[{"edits": "edits_cpu", "compile": "proof"}.get(it["kind"], it["kind"])] += it["cpu"]
        own["all"] += it["cpu"]
        own["mib"] = max(own["mib"], it["mib"])
        own["tries"] += [it["cpu"]] if it["kind"] == "edits" else []
    return costs


def longest_chain(costs):
    """The seconds of the longest chain of crates that stand on one another, and their names."""
    crates, chains = manifest(), {}
    for name, below in crates.items():
        seconds, names = max((chains[it] for it in below if it in chains), default=(0, []))
        chains[name] = seconds + costs.get(name, {"proof": 0})["proof"], [*names, name]
    ends = [(chains[name][0] + max(own["tests"] - own["proof"], 0) + own["edits_cpu"], chains[name][1])
            for name, own in costs.items() if name in chains]
    return max(ends, default=(0, []))


def over(costs):
    """What is over the budget, a line each."""
    found = []

    def look(what, seconds, part):
        if seconds > BUDGET[part]:
            found.append(f"{what}: {seconds:.0f} s, at most {BUDGET[part]}")

    for name, own in costs.items():
        look(f"{name}, its proof", own["proof"], "proof")
        look(f"{name}, its edits", own["edits_cpu"], "edits")
        look(f"{name}, all", own["all"], "all")
        look(f"{name}, its tests beyond the proof", own["tests"] - own["proof"] if own["proof"] else 0, "tests")
        names = edits_of(name)
        for k, seconds in enumerate(own["tries"][1:], 1):
            look(f"{name}, {names[k] if k < len(names) else 'a further try of an edit'}", seconds, "edit")
    look("the longest chain", longest_chain(costs)[0], "chain")
    look("all crates", sum(own["all"] for own in costs.values()), "total")
    return found


def show(costs):
    """Prints the table, the sum, the longest chain, and what is over the budget."""
    print(f"{'CPU seconds':26}{'proof':>7}{'tests':>7}{'edits':>7}{'their CPU':>11}{'dearest':>9}{'all':>7}{'MiB':>7}")
    for name, own in costs.items():
        dearest = max(own["tries"][1:], default=0)
        print(f"{name:26}{own['proof']:7.0f}{own['tests']:7.0f}{own['edits']:7}{own['edits_cpu']:11.0f}{dearest:9.0f}"
              f"{own['all']:7.0f}{own['mib']:7}")
    seconds, names = longest_chain(costs)
    print(f"all: {sum(own['all'] for own in costs.values()):.0f} s")
    print(f"the longest chain: {seconds:.0f} s, the proofs of {', '.join(names)}, and the tests and edits of the last one")
    print("\n  ".join(["over the budget:", *over(costs)]) if over(costs) else "within the budget")


def read_page():
    """The figures of docs/gate.tsv, by crate."""
    with open(PAGE, encoding="ascii") as file:
        rows = [line.rstrip("\n").split("\t") for line in file]
    return {row[0]: dict(zip(COLUMNS, map(int, row[1:]))) for row in rows[1:]}


def write_page(costs):
    """Writes docs/gate.tsv in the order of crates.txt; crates without new figures keep the ones they have."""
    old = read_page() if os.path.exists(PAGE) else {}
    with open(PAGE, "w", encoding="ascii") as file:
        file.write("\t".join(["crate", *COLUMNS]) + "\n")
        for crate in (it.split()[0] for it in manifest()):
            # A crate that `rt ci` kept has no proof in the run.
            own = costs.get(crate)
            own = own if own and own["proof"] else old.get(crate)
            if own:
                file.write("\t".join([crate, *(f"{own[column]:.0f}" for column in COLUMNS)]) + "\n")


def main(arguments):
    if arguments[:1] == ["modules"]:
        return modules.main(arguments[1:])
    if arguments[:1] == ["lifetimes"]:
        return lifetimes.main(arguments[1:])
    parser = parser_of("cost", __doc__, json="print the figures as JSON")
    parser.add_argument("what", metavar="WHAT", nargs="?", choices=["gate", "watch", "table"], default="gate",
                        help="gate, watch, table, modules or lifetimes (gate)")
    parser.add_argument("--file", metavar="FILE", default=os.path.join(tempfile.gettempdir(), "gate_cost.json"),
                        help="where samples are kept (gate_cost.json in the temporary folder)")
    parser.add_argument("--pid", metavar="N", type=int, help="for `watch`: the process of `rt ci`")
    parser.add_argument("--write", action="store_true", help="write docs/gate.tsv")
    asked = parser.parse_args(arguments)
    if (asked.what == "watch") != (asked.pid is not None):
        parser.error("--pid goes with `watch`, and `watch` needs it")
    if asked.what == "table" and not os.path.exists(asked.file):
        parser.error(f"there is no file {asked.file}")
    status = run_gate(asked.file, sys.stderr if asked.json else None) if asked.what == "gate" else 0
    if asked.what == "watch":
        watch(asked.pid, asked.file, lambda: not os.path.isdir(f"/proc/{asked.pid}"))
    with open(asked.file, encoding="ascii") as file:
        costs = costs_of(json.load(file))
    if asked.json:
        print(json.dumps(costs, indent=1))
    else:
        show(costs)
    if asked.write:
        write_page(costs)
    return status
