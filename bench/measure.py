#!/usr/bin/env python3
"""Times a program's run on a platform's files against the host's own tools: measure.py <program> <folder> <runs>."""

import os
import subprocess
import sys
import tempfile
import time

REPORT = "1 power\n1 bmc held\n1 bmc released svn 12\n1 pch held\n1 pch released svn 7\n"
BLANK = "1 power\n1 bmc held\n1 bmc locked unprovisioned\n1 pch held\n1 pch locked unprovisioned\n"
IMAGES = ("bmc", "pch", "nv")
MIB = 1024 * 1024


def timed(words, wanted=None):
    """Runs the words. Gives the seconds that it took, the processor's seconds, and its peak memory in bytes."""
    with tempfile.TemporaryFile() as out:
        begun = time.perf_counter()
        process = subprocess.Popen(words, stdout=out)
        _, status, used = os.wait4(process.pid, 0)
        took = time.perf_counter() - begun
        process.returncode = os.waitstatus_to_exitcode(status)
        out.seek(0)
        wrote = out.read().decode(errors="replace")
    if process.returncode != 0 or (wanted is not None and wrote != wanted):
        sys.exit(f"bench: {words[0]} ended with {process.returncode} and wrote:\n{wrote}")
    return took, used.ru_utime + used.ru_stime, used.ru_maxrss * 1024


def processor():
    try:
        with open("/proc/cpuinfo") as file:
            return next(line.split(":")[1].strip() for line in file if line.startswith("model name"))
    except (OSError, StopIteration):
        return "unknown"


def tries_of(program, folder):
    """What is timed, by name. Each of them can be done again and again."""
    path = lambda name: os.path.join(folder, name)
    copies = os.path.join(folder, "copies")
    os.makedirs(copies, exist_ok=True)
    words = lambda store: [program, "run", path("bmc"), path("pch"), path(store), path("engine"), path("power")]
    copy = ["cp", *(path(name) for name in IMAGES), copies]
    kept = ["sync", *(os.path.join(copies, name) for name in IMAGES)]
    return {
        "run": lambda: timed(words("nv"), REPORT),
        # the same files with a blank store are loaded and stored, and nothing of the banks is read
        "load": lambda: timed(words("blank.nv"), BLANK),
        "sum": lambda: timed(["sha256sum", path("hashed")]),
        "copy": lambda: timed(copy),
        # what `cp` wrote is now brought to the disk
        "sync": lambda: timed(kept),
    }


def measured(tries, runs):
    """The least seconds of each, the processor's least seconds, and the most memory, by name."""
    for it in tries.values():
        it()
    # in turn, so that a slow moment of the machine meets each alike
    found = {name: [] for name in tries}
    for _ in range(runs):
        for name, it in tries.items():
            found[name].append(it())
    least = {name: min(it[0] for it in all_of) for name, all_of in found.items()}
    work = {name: min(it[1] for it in all_of) for name, all_of in found.items()}
    peak = {name: max(it[2] for it in all_of) for name, all_of in found.items()}
    return least, work, peak


def main():
    program, folder, runs = sys.argv[1], sys.argv[2], int(sys.argv[3])
    least, work, peak = measured(tries_of(program, folder), runs)
    mib = lambda names: sum(os.path.getsize(os.path.join(folder, name)) for name in names) / MIB
    line = lambda name: f"{least[name]:.3f} ({work[name]:.3f})"
    tools = least["sum"] + least["copy"]
    ratio = least["run"] / tools
    loading = least["load"] / (least["copy"] + least["sync"])
    cores = os.cpu_count()
    print(f"machine    {processor()}, {cores} cores; the least of {runs} runs, in seconds of the clock (of the processor)")
    print(f"run        {line('run')}: {mib(IMAGES):.1f} MiB loaded and stored, {mib(['hashed']):.1f} MiB hashed")
    print(f"load       {line('load')}: the same files with a blank store, by which no bank is read")
    print(f"sha256sum  {line('sum')}: over the bytes that the run hashes")
    print(f"cp         {line('copy')}: of the three images")
    print(f"sync       {line('sync')}: of these copies")
    print(f"ratio      {ratio:.2f} of run to sha256sum and cp together; {loading:.2f} of load to cp and sync together")
    print(f"memory     {peak['run'] / MIB:.0f} MiB at the peak of the run")
    print("for docs/SPEED.md:")
    seconds = " | ".join(f"{least[name]:.3f}" for name in ("run", "load", "sum", "copy", "sync"))
    print(f"| {processor()} | {cores} | {seconds} | {ratio:.2f} | {loading:.2f} | {peak['run'] / MIB:.0f} MiB |")


if __name__ == "__main__":
    main()
