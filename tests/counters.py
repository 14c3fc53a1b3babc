#!/usr/bin/env python3
"""Looks for counts of steps that the filter makes of its own.

`judge_counted` and `Running::judge` tell by a count of steps how often they look at the table of a manifest's regions. Only such a
look adds to a count, but no clause says that it is the caller's count to which it adds: a look that is counted elsewhere costs
nothing in it. So the code of both crates, tests aside, may hand on a count that it was given, and may neither make one nor have
another use for one.
"""

import os
import re
import sys

TOP = os.path.dirname(os.path.dirname(os.path.abspath(__file__)))
CRATES = ("pfr_filter", "pfr_bank")
COMMENT = re.compile(r"//.*")
TESTS = re.compile(r"#\[cfg\(test\)\]\s*mod (\w+);")
IMPORT = re.compile(r"^use pfr_manifest::(?:Steps|\{(?:\w+(?:, )?)+\});")
HANDED_ON = re.compile(r"&mut Steps<L>")
COUNT = re.compile(r"\b(?:Steps|Blank|Book|Share|tick)\b")


def read(path):
    with open(path, encoding="utf-8") as file:
        return file.read()


def code_files(crate):
    """The files of a crate's code that aren't for tests alone."""
    folder = os.path.join(TOP, "crates", crate, "src")
    tests = TESTS.findall(read(os.path.join(folder, "lib.rt")))
    names = sorted(name for name in os.listdir(folder) if name.endswith(".rt"))
    return [os.path.join(folder, name) for name in names if name[: -len(".rt")] not in tests]


def faults_of(path):
    """The lines of a file in which a count is more than handed on."""
    for number, line in enumerate(read(path).split("\n"), 1):
        code = COMMENT.sub("", line)
        if COUNT.search(HANDED_ON.sub("", IMPORT.sub("", code))):
            yield f"{os.path.relpath(path, TOP)}:{number}: {line.strip()}"


def main():
    files = [path for crate in CRATES for path in code_files(crate)]
    faults = [fault for path in files for fault in faults_of(path)]
    print(*faults, f"counters: {len(files)} files, {len(faults)} faults", sep="\n")
    sys.exit(1 if faults or not files else 0)


if __name__ == "__main__":
    main()
