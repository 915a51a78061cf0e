"""Runs programs and measures time, memory and instructions."""
import os
import re
import subprocess
import sys
import time
from typing import NamedTuple


class Run(NamedTuple):
    """Seconds by the clock and of the processor, at the best of some runs, and the peak of memory in bytes."""

    seconds: float
    processor: float
    memory: int


def run(words, runs, wanted=0, enough=None):
    """Runs a command `runs` times, or until a run takes more than `enough` seconds. Each has to end with status `wanted`."""
    found = []
    for _ in range(runs):
        began = time.perf_counter()
        process = subprocess.Popen(words, stdout=subprocess.DEVNULL)
        _, status, usage = os.wait4(process.pid, 0)
        seconds = time.perf_counter() - began
        process.returncode = os.waitstatus_to_exitcode(status)
        if process.returncode != wanted:
            sys.exit(f"{' '.join(words[:2])} ends with {process.returncode}")
        found.append(Run(seconds, usage.ru_utime + usage.ru_stime, usage.ru_maxrss * 1024))
        if enough and seconds > enough:
            break
    return Run(min(it.seconds for it in found), min(it.processor for it in found), max(it.memory for it in found))


def compared(words, label, base, paths, runs, wanted=0):
    """The seconds of a command, and its figures: size, time beside the command `base` called `label`, memory beside the files."""
    beside, found = run(base, runs), run(words, runs, wanted)
    length = sum(map(os.path.getsize, paths))
    return found.seconds, {"MB": length / 1e6, "s": found.seconds, f"times {label}": found.seconds / beside.seconds,
                           f"s of {label}": beside.seconds, "times the files in memory": found.memory / length}


def instructions(words):
    """How many instructions a command takes, as callgrind counts them."""
    counting = ["valgrind", "--tool=callgrind", "--callgrind-out-file=/dev/null", *words]
    told = subprocess.run(counting, stdout=subprocess.DEVNULL, stderr=subprocess.PIPE, text=True, check=True).stderr
    return int(re.search(r"Collected : (\d+)", told)[1])
