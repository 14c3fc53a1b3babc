#!/usr/bin/env python3
"""Kills the program at random moments, and looks whether each file that it stores is whole afterwards: old or new.

    kill_runs.py <program> run [<kills>]
    kill_runs.py <program> make [<kills>]

`run` makes the ordinary platform (images of 64 and 32 MiB) with a blank store and a script that provisions it; a whole run
changes the store's image, and stores those of the banks as they were. `make` makes the platform of examples/server over files
that have other bytes. Each lets one whole run go to its end, and then kills 300 more, or as many as are asked for, each at a
moment between its start and one and a half times what the whole one took. It is no part of the gate. Its status is 1 where a
file was torn.
"""

import os
import random
import shutil
import signal
import subprocess
import sys
import tempfile
import time
from dataclasses import dataclass

IMAGES = ("bmc", "pch", "nv")
INPUTS = IMAGES + ("engine", "script")
MADE = ("made.bmc", "made.pch", "made.bmc.capsule", "made.pch.capsule", "made.engine")
SLOT_LENGTH = 72
HERE = os.path.dirname(os.path.realpath(__file__))


@dataclass
class Trial:
    """The program's words, the folder in which it works, what lies there at first, and which of these files it stores."""

    words: list
    folder: str
    first: dict
    stored: tuple


def read(folder, name):
    with open(os.path.join(folder, name), "rb") as file:
        return file.read()


def start(trial):
    return subprocess.Popen(trial.words, cwd=trial.folder, stdout=subprocess.DEVNULL, stderr=subprocess.DEVNULL)


def whole_run(trial):
    """The seconds that it takes to its end."""
    begun = time.perf_counter()
    status = start(trial).wait()
    if status != 0:
        sys.exit(f"kill_runs: what nothing disturbs ends with {status}")
    return time.perf_counter() - begun


def killed_run(trial, seconds):
    """Whether it was still going when it was killed."""
    process = start(trial)
    time.sleep(seconds)
    process.send_signal(signal.SIGKILL)
    return process.wait() == -signal.SIGKILL


def put(folder, name, content):
    with open(os.path.join(folder, name), "wb") as file:
        file.write(content)


def run_trial(program, folder):
    """The ordinary platform, whose store is blank, and a script that provisions it as it was."""
    subprocess.run([sys.executable, os.path.join(HERE, "make_platform.py"), "ordinary", folder], check=True)
    store = read(folder, "nv")
    put(folder, "nv", b"\xff" * len(store))
    put(folder, "script", f"power\nprovision {store[:SLOT_LENGTH].hex()}\npower\n".encode())
    for name in set(os.listdir(folder)) - set(INPUTS):
        os.remove(os.path.join(folder, name))
    first = {name: read(folder, name) for name in INPUTS}
    return Trial([program, "run", *INPUTS], folder, first, IMAGES)


def make_trial(program, folder):
    """The description of a server's platform, images for it, and other bytes under the names of what is made."""
    subprocess.run([sys.executable, os.path.join(HERE, "make_platform.py"), "ordinary", folder], check=True)
    for bank in ("bmc", "pch"):
        os.rename(os.path.join(folder, bank), os.path.join(folder, bank + ".image"))
    for name in set(os.listdir(folder)) - {"bmc.image", "pch.image"}:
        os.remove(os.path.join(folder, name))
    shutil.copy(os.path.join(HERE, "..", "examples", "server", "description.toml"), folder)
    for name in MADE:
        put(folder, name, b"other bytes\n")
    first = {name: read(folder, name) for name in os.listdir(folder)}
    return Trial([program, "make", "description.toml", "made"], folder, first, MADE)


TRIALS = {"run": run_trial, "make": make_trial}


def states_of(trial, new):
    """Of each stored file whether it is old, new or torn; one that isn't changed is old."""
    states = {}
    for name in trial.stored:
        found = read(trial.folder, name)
        states[name] = "old" if found == trial.first[name] else "new" if found == new[name] else "torn"
    return states


def clear(trial):
    """Removes what a killed run left beside the files, and gives how many files that were."""
    left = [name for name in os.listdir(trial.folder) if name not in trial.first]
    for name in left:
        os.remove(os.path.join(trial.folder, name))
    return len(left)


def kill_runs(trial, new, seconds, kills):
    counts = {name: {"old": 0, "new": 0, "torn": 0} for name in trial.stored}
    alive = beside = 0
    for _ in range(kills):
        alive += killed_run(trial, random.uniform(0, 1.5 * seconds))
        beside += clear(trial)
        for name, state in states_of(trial, new).items():
            counts[name][state] += 1
            if state != "old":
                put(trial.folder, name, trial.first[name])
    print(f"{kills} kills, where a whole run takes {seconds:.2f} s: {alive} met it, {beside} left a part beside a file")
    for name, found in counts.items():
        changes = "" if trial.first[name] != new[name] else " (stored as it was)"
        print(f"{name}{changes}: {found['old']} old, {found['new']} new, {found['torn']} torn")
    return sum(found["torn"] for found in counts.values())


def main():
    if len(sys.argv) not in (3, 4) or sys.argv[2] not in TRIALS:
        sys.exit(__doc__)
    program = os.path.realpath(sys.argv[1])
    kills = int(sys.argv[3]) if len(sys.argv) == 4 else 300
    folder = tempfile.mkdtemp()
    try:
        trial = TRIALS[sys.argv[2]](program, folder)
        seconds = whole_run(trial)
        new = {name: read(folder, name) for name in trial.stored}
        for name in trial.stored:
            put(folder, name, trial.first[name])
        torn = kill_runs(trial, new, seconds, kills)
    finally:
        shutil.rmtree(folder)
    sys.exit(1 if torn else 0)


if __name__ == "__main__":
    main()
