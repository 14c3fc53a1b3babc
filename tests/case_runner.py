"""Runs a case: makes its folder, does its words there one after another, and compares what was written and what is left."""

from __future__ import annotations

import fcntl
import os
import subprocess
import tempfile
from dataclasses import dataclass, field

from case_files import Files, block_text, is_held, sha256, write_file
from case_reader import CaseFault

SECONDS = 300
# The seals of a file in memory against shrinking, growing and writing, and the call that sets them (Linux).
ADD_SEALS, SEALS = 1033, 2 | 4 | 8
RUN = ["run", "bmc", "pch", "nv", "engine", "script"]
CHECK = ["check", "bmc", "pch", "nv", "engine"]
SHORT = {"run": RUN, "check": CHECK}


@dataclass
class Step:
    """Words that are done once, and what is wanted of them."""

    place: str
    words: list[str]
    code: int = 0
    lines: bytes = b""
    output: str = "kept"
    gives: list[list[str]] = field(default_factory=list)


def new_step(line):
    """The step that a line begins: `words WORD..`, or `run` or `check` with its usual words."""
    first, *rest = line.words
    if first == "words":
        return Step(line.place, rest, lines=block_text(line.block))
    return Step(line.place, SHORT[first] + rest, lines=block_text(line.block))


def expect(step, place, files, name):
    """Takes what was foreseen as what is wanted. Where a text is told already it has to be this one."""
    report = files.get(name + ".report")
    if step.lines not in (b"", report):
        raise CaseFault(f"{place}: foreseen is otherwise:\n{report.decode()}")
    step.lines = report
    step.gives += [[image, f"{name}.{image}"] for image in ("bmc", "pch", "nv")]


def add_to(step, line, files):
    """Takes a line that says what is wanted of a step."""
    first, *rest = line.words
    if first == "code" and len(rest) == 1:
        step.code = int(rest[0])
    elif first == "lines" and not rest:
        step.lines = block_text(line.block)
    elif first == "output" and rest in (["closed"], ["full"], ["broken"]):
        step.output = rest[0]
    elif first == "gives" and len(rest) in (2, 3):
        step.gives.append(rest)
    elif first == "foreseen" and len(rest) == 1:
        expect(step, line.place, files, rest[0])
    else:
        raise CaseFault(f"{line.place}: nobody knows what `{' '.join(line.words)}` wants")


def read_case(case):
    """The files of a case and its steps, in order."""
    files, steps = Files(), []
    for line in case.lines:
        if line.words[0] in ("words", "run", "check"):
            steps.append(new_step(line))
        elif steps:
            add_to(steps[-1], line, files)
        else:
            files.take(line)
    if not steps:
        raise CaseFault(f"{case.place}: nothing is done")
    return files, steps


def sealed_file(content):
    """A file without a name that nobody can write, as its descriptor."""
    found = os.memfd_create("sealed", os.MFD_ALLOW_SEALING)
    os.write(found, content)
    fcntl.fcntl(found, ADD_SEALS, SEALS)
    return found


def outputs(step):
    """The standard output of a step as subprocess takes it, and what is to be closed afterwards."""
    if step.output == "full":
        found = os.open("/dev/full", os.O_WRONLY)
        return found, [found]
    if step.output == "broken":
        reader, writer = os.pipe()
        os.close(reader)
        return writer, [writer]
    return subprocess.PIPE, []


def done(step, program, folder, sealed):
    """What the program does with a step's words, in the folder."""
    words = [f"/proc/self/fd/{sealed[word]}" if word in sealed else word for word in step.words]
    output, opened = outputs(step)
    before = ["sh", "-c", 'exec "$0" "$@" >&-'] if step.output == "closed" else []
    try:
        return subprocess.run(
            [word.encode("utf-8", "surrogateescape") for word in before + [program] + words],
            cwd=folder,
            stdin=subprocess.DEVNULL,
            stdout=output,
            stderr=subprocess.PIPE,
            pass_fds=list(sealed.values()),
            timeout=SECONDS,
        )
    finally:
        for each in opened:
            os.close(each)


def answer_faults(step, result):
    """Whether the exit code and the text are as wanted."""
    faults = []
    if result.returncode != step.code:
        faults.append(f"{step.place}: exit code {result.returncode}, and not {step.code}")
    written = result.stdout or b""
    if written != step.lines:
        faults.append(f"{step.place}: written was")
        faults += ["  " + line for line in written.decode("utf-8", "replace").splitlines()]
        faults.append("and not")
        faults += ["  " + line for line in step.lines.decode("utf-8", "replace").splitlines()]
    if result.stderr:
        faults.append(f"{step.place}: on standard error stood {result.stderr[:500]!r}")
    return faults


def is_given(path, files, how):
    """Whether a file is as a line `gives` wants it."""
    kind, *rest = how
    if kind == "anything":
        return True
    with open(path, "rb") as file:
        found = file.read()
    if kind == "sha256":
        return sha256(found) == rest[0]
    if kind == "length":
        return len(found) == int(rest[0], 0)
    if kind == "lines":
        return found.count(b"\n") == int(rest[0], 0) and found.endswith(b"\n")
    if kind == "listed":
        listed = dict(line.split()[::-1] for line in files.get(rest[0]).decode().splitlines())
        return sha256(found) == listed[os.path.basename(path)]
    if kind.startswith("0x") or kind.isdigit():
        part = bytes.fromhex(rest[0])
        return found[int(kind, 0) :].startswith(part)
    return found == bytes(files.get(kind))


def given_faults(step, folder, files):
    """Whether the files that are told to change did so."""
    faults = []
    for name, *how in step.gives:
        path = os.path.join(folder, name)
        if not os.path.isfile(path):
            faults.append(f"{step.place}: no file {name} is there")
        elif not is_given(path, files, how):
            faults.append(f"{step.place}: {name} isn't {' '.join(how)}")
    return faults


def same_faults(step, folder, written, folders):
    """Whether all other files are as they were, and no further one is there."""
    told = {name for name, *_ in step.gives}
    found = set(os.listdir(folder))
    faults = [f"{step.place}: nobody wants a file {name}" for name in sorted(found - set(written) - told - folders)]
    for name, held in written.items():
        path = os.path.join(folder, name)
        if name not in told and not (os.path.isfile(path) and is_held(path, held)):
            faults.append(f"{step.place}: {name} isn't as it was")
    faults += [f"{step.place}: the folder {name} is gone or full" for name in folders if not is_empty(folder, name)]
    return faults


def is_empty(folder, name):
    path = os.path.join(folder, name)
    return os.path.isdir(path) and not os.listdir(path)


def sealed_faults(step, files, sealed):
    """Whether the sealed files are as they were."""
    return [
        f"{step.place}: {name} isn't as it was"
        for name, found in sealed.items()
        if os.pread(found, len(files.get(name)) + 1, 0) != files.get(name)
    ]


def run_step(step, program, folder, files, written, sealed):
    """Does a step, and tells what isn't as wanted. What it gave stands among the written files then."""
    try:
        result = done(step, program, folder, sealed)
    except subprocess.TimeoutExpired:
        return [f"{step.place}: took over {SECONDS} seconds"]
    faults = answer_faults(step, result) + given_faults(step, folder, files)
    faults += same_faults(step, folder, written, files.folders) + sealed_faults(step, files, sealed)
    for name in {name for name, *_ in step.gives}:
        path = os.path.join(folder, name)
        if os.path.isfile(path):
            with open(path, "rb") as file:
                written[name] = file.read()
    return faults


def run_steps(steps, program, folder, files):
    """Does the steps up to the first that fails."""
    written = files.written()
    for name, held in written.items():
        write_file(os.path.join(folder, name), held)
    for name in files.folders:
        os.mkdir(os.path.join(folder, name))
    sealed = {name: sealed_file(files.get(name)) for name in files.sealed}
    try:
        for step in steps:
            faults = run_step(step, program, folder, files, written, sealed)
            if faults:
                return faults
        return []
    finally:
        for found in sealed.values():
            os.close(found)


def run_case(case, program):
    """What is wrong with a case, as lines; none where it passes."""
    files, steps = read_case(case)
    with tempfile.TemporaryDirectory(prefix="nurghobi-") as folder:
        return run_steps(steps, program, folder, files)
