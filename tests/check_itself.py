"""Whether tests/run fails where it has to: one byte of what a case wants is changed, and the case must fail then."""

from __future__ import annotations

import os
import subprocess
import sys
import tempfile

RUN = os.path.join(os.path.dirname(os.path.abspath(__file__)), "run")

GOOD = """
case report
platform tiny
turn bmc 0x2345 01
restored bmc @restored
foresee @restore
run
  1 power
  1 bmc held
  1 bmc untrusted region-hash:0
  1 bmc restored level 1
  1 bmc released svn 3
  1 pch held
  1 pch released svn 3
gives bmc @restored
gives nv @restore.nv

case made
copy :examples/tiny/description.toml description
copy :examples/tiny/bmc.image bmc.image
copy :examples/tiny/pch.image pch.image
words provision description nv
gives nv :examples/tiny/nv
words cert description bmc-capsule 6 it
gives it.cert 8 04010000
gives it.cert length 1152
gives it.cert.engine lines 1
words provision absent nv
code 4
lines
  error: cannot read description

case faults
platform tiny
fill nv 32768
text script "power\\nprovision 06\\n"
words run bmc pch nv engine script
code 3
lines
  error: script 2 length
words run bmc pch nv engine absent
code 4
lines
  error: cannot read script

table rows/{row}
platform tiny
copy nv @nv
put @nv 0x7000 {after}
put nv 0x7000 {before}
words run bmc pch nv engine script
lines
  1 power
  1 bmc held
  1 bmc released svn 3
  1 pch held
  1 pch released svn 3
gives nv @nv
rows before after
  fb fb
  fd fd

case frames
platform tiny
script
  power
  spi bmc 06
  spi bmc 02000050fe010203
foresee @then
run
  1 power
  1 bmc held
  1 bmc released svn 3
  1 pch held
  1 pch released svn 3
  2 bmc pass latch
  3 bmc pass program
foreseen @then
gives bmc 0x5000 03

table drawn/{row}
drawn {row}
foresee @found
run
foreseen @found
times 2

case day
platform tiny as=next bmc.svn=4 bmc.shift=7
platform tiny staged=@next.bmc.capsule
append engine @next.engine
updated bmc @updated full
script
  power
  tick 499
  boot pch pass
  boot bmc pass
  tick 499
  update bmc full
  tick 1
foresee @then
run
  1 power
  1 bmc held
  1 bmc released svn 3
  1 pch held
  1 pch released svn 3
  3 pch passed me
  4 bmc booted
  6 bmc held
  6 bmc updated full svn 4
  6 bmc released svn 4
  7 pch watchdog 1
  7 pch held
  7 pch restored level 1
  7 pch released svn 3
foreseen @then
gives bmc @updated

table drawn-days/{row}
drawn_day {row}
foresee @days
run
foreseen @days
times 2
"""
PASSED = "tests: 11 passed, 0 failed"
# What is wanted, with another byte in each.
CHANGES = (
    ("region-hash:0", "region-hash:1"),
    ("1 power\n  1 bmc held\n  1 bmc untrusted", "1 powes\n  1 bmc held\n  1 bmc untrusted"),
    ("  1 pch released svn 3\ngives bmc", "  1 pch released svn 3 \ngives bmc"),
    ("  1 pch released svn 3\ngives bmc", "  1 pch released svn 3\n  \ngives bmc"),
    ("gives bmc @restored\n", ""),
    ("gives nv @restore.nv\n", ""),
    ("foresee @restore\n", "foresee @restore\nturn @restore.nv 0x1000 01\n"),
    ("restored bmc @restored", "cut_restore bmc @restored 58 -"),
    ("run\n  1 power", "code 1\nrun\n  1 power"),
    ("gives nv :examples/tiny/nv", "gives nv :examples/tiny/blank.nv"),
    ("gives nv :examples/tiny/nv", "gives nv sha256 " + "0" * 64),
    ("gives nv :examples/tiny/nv\n", ""),
    ("gives nv :examples/tiny/nv", "gives nv :examples/tiny/nv\ngives bmc :examples/tiny/nv"),
    ("04010000", "03010000"),
    ("length 1152", "length 1153"),
    ("lines 1", "lines 2"),
    ("gives it.cert.engine lines 1\n", ""),
    ("code 4\nlines\n  error: cannot read description", "code 3\nlines\n  error: cannot read description"),
    ("cannot read description", "cannot read descriptiom"),
    ("script 2 length", "script 3 length"),
    ("code 3\nlines\n  error: script", "lines\n  error: script"),
    ("fb fb", "fb fa"),
    ("fd fd", "fd ff"),
    ("rows before after", "rows before"),
    ("case made", "case report"),
    ("turn bmc 0x2345 01", "turn bmc 0x2345001 01"),
    ("turn bmc 0x2345 01", "turns bmc 0x2345 01"),
    ("spi bmc 02000050fe010203", "spi bmc 02000050fe010204"),
    ("3 bmc pass program", "3 bmc pass erase"),
    ("gives bmc 0x5000 03", "gives bmc 0x5000 0302"),
    ("foresee @then\n", ""),
    ("foresee @then", "foresee @then\nput bmc 0x5010 00"),
    ("foresee @then", "foresee @then\nput pch 0x5010 00"),
    ("foresee @then", "foresee @then\nput nv 0x3000 00"),
    ("foresee @then", "foresee @then\nturn @then.bmc 0x1ffff 01"),
    ("  tick 499\n  boot", "  tick 500\n  boot"),
    ("  tick 499\n  update", "  tick 498\n  update"),
    ("  update bmc full", "  update bmc active"),
    ("  boot bmc pass", "  boot bmc fail"),
    ("6 bmc updated full svn 4", "6 bmc updated full svn 3"),
    ("updated bmc @updated full", "updated bmc @updated full\nturn @updated 0x2fff 01"),
    ("append engine @next.engine\n", ""),
    ("foresee @days", "foresee @days\nturn @days.report 2 01"),
    ("foresee @days", "foresee @days\nturn @days.bmc 0x2000 01"),
    ("foresee @found", "foresee @found\nturn @found.report 0 01"),
    ("foresee @found", "foresee @found\nturn @found.bmc 0 01"),
    ("foresee @found", "foresee @found\nturn @found.pch 0x100 80"),
    ("foresee @found", "foresee @found\nturn @found.nv 0x7fff 01"),
    ("times 2", "times two"),
)


def answer(folder, text, program, *words):
    """How tests/run ends over a folder with these cases: its exit code and its last line."""
    with open(os.path.join(folder, "it.cases"), "w", encoding="utf-8") as file:
        file.write(text)
    asked = [sys.executable, RUN, "--cases", folder, *words, program]
    result = subprocess.run(asked, stdout=subprocess.PIPE, stderr=subprocess.STDOUT, encoding="utf-8")
    return result.returncode, result.stdout.splitlines()[-1] if result.stdout else ""


def wanted_good(folder, program):
    """What goes wrong with the cases as they stand, with none at all, and without a program."""
    wanted = (
        ((GOOD, program), (0, PASSED)),
        ((GOOD, program, "--only", "rows/"), (0, "tests: 2 passed, 0 failed")),
        ((GOOD, program, "--only", "nothing"), (1, "tests: 0 passed, 0 failed")),
        ((GOOD, os.path.join(folder, "absent")), (1, f"tests/run: no program {os.path.join(folder, 'absent')}")),
        (("", program), (1, "tests: 0 passed, 0 failed")),
    )
    faults = []
    for asked, told in wanted:
        found = answer(folder, *asked)
        if found != told:
            faults.append(f"{asked[1:]}: {found}, and not {told}")
    return faults


def passes(folder, program, old, new):
    """Whether the cases pass although this is changed."""
    if GOOD.count(old) < 1:
        return True
    code, last = answer(folder, GOOD.replace(old, new, 1), program)
    return code != 1 or last == PASSED


def check_itself(program):
    with tempfile.TemporaryDirectory(prefix="nurghobi-") as folder:
        faults = wanted_good(folder, program)
        for old, new in CHANGES:
            if passes(folder, program, old, new):
                faults.append(f"{old!r} in place of {new!r} isn't seen")
    for fault in faults:
        print(f"failed: {fault}")
    print(f"self-check: {len(CHANGES) + 5 - len(faults)} passed, {len(faults)} failed")
    return 1 if faults else 0
