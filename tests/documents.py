#!/usr/bin/env python3
"""Runs each command of the documents as it is written, over a built program, and compares what it writes.

    tests/documents.py [PROGRAM]    over crates/nurghobi/out/nurghobi where no program is named

The commands of a document are run in one shell, from the top of a copy that has the examples and the program. In place of
building, by `rt try` or `rt run`, the program is started. Passed over are `.ci/run`, and what `rt run` writes where the
document doesn't show it.
"""

import os
import re
import shutil
import subprocess
import sys
import tempfile

TOP = os.path.dirname(os.path.dirname(os.path.abspath(__file__)))
DOCUMENTS = ("README.md", "docs/OPERATING.md")
BLOCK = re.compile(r"^```(sh)?\n(.*?)^```\n", re.MULTILINE | re.DOTALL)
START = re.compile(r"\brt (?:try|run) --")
MARK = "\x1e"


def blocks_of(text):
    """The commands of a document, each with what it is to write: the block behind it, where that has no commands."""
    found = []
    for match in BLOCK.finditer(text):
        if match.group(1):
            found.append([match.group(2), ""])
        elif found and not found[-1][1]:
            found[-1][1] = match.group(2)
    return [each for each in found if ".ci/run" not in each[0] and (each[1] or "rt run --" not in each[0])]


def copy_of(room, program):
    """A place like the top of a checkout in which the program was built."""
    top = os.path.join(room, "top")
    built = os.path.join(top, "crates", "nurghobi", "out")
    os.makedirs(built)
    os.makedirs(os.path.join(room, "temporary"))
    shutil.copytree(os.path.join(TOP, "examples"), os.path.join(top, "examples"))
    os.symlink(os.path.abspath(program), os.path.join(built, "nurghobi"))
    return top


def outputs_of(commands, room, top):
    """What each of the commands writes, in one shell."""
    program = os.path.join(top, "crates", "nurghobi", "out", "nurghobi")
    script = "".join(f"printf '{MARK}'\n{START.sub(lambda _: program, each)}" for each in commands)
    shell = subprocess.run(
        ["bash", "-c", script],
        cwd=top,
        env={**os.environ, "TMPDIR": os.path.join(room, "temporary")},
        stdin=subprocess.DEVNULL,
        stdout=subprocess.PIPE,
        stderr=subprocess.STDOUT,
        check=False,
    )
    return shell.stdout.decode(errors="replace").split(MARK)[1:]


def faults_of(document, program):
    """How many commands a document has, and which of them write something else."""
    with open(os.path.join(TOP, document), encoding="utf-8") as file:
        blocks = blocks_of(file.read())
    with tempfile.TemporaryDirectory() as room:
        written = outputs_of([commands for commands, _ in blocks], room, copy_of(room, program))
    written += [""] * (len(blocks) - len(written))
    pairs = zip(blocks, written)
    return len(blocks), [(commands, wanted, found) for (commands, wanted), found in pairs if found != wanted]


def main():
    program = sys.argv[1] if len(sys.argv) > 1 else os.path.join(TOP, "crates", "nurghobi", "out", "nurghobi")
    if not os.access(program, os.X_OK):
        sys.exit(f"documents: there is no program {program}")
    passed = failed = 0
    for document in DOCUMENTS:
        count, faults = faults_of(document, program)
        passed += count - len(faults)
        failed += len(faults)
        for commands, wanted, found in faults:
            print(f"failed: {document}\n{commands}wanted:\n{wanted}found:\n{found}")
    print(f"documents: {passed} passed, {failed} failed")
    sys.exit(1 if failed or not passed else 0)


if __name__ == "__main__":
    main()
