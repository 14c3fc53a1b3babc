#!/usr/bin/env python3
"""Looks at how long the texts are that an auditor of the headline reads: no clause of `pfr` may rest on more lines than stand here.

`tools/closure.py --count CLAUSE..` counts them. Several clauses that are read as one text stand in one row.
"""

import os
import re
import subprocess
import sys

TOP = os.path.dirname(os.path.dirname(os.path.abspath(__file__)))

# The clauses of a text, and the most lines that it may have: the headline's, each and together, and the script's failures.
HEADLINE = ("spans", "grows", "recoverable", "powers", "provision", "changes", "no_job", "counted")
MOST = (
    (("spans",), 1500),
    (("recoverable",), 1500),
    (("powers",), 1500),
    (HEADLINE, 1950),
    (("scripted",), 1100),
)


def lines_of(clauses):
    """How many lines the clauses rest on together, and what the tool said where it couldn't tell."""
    words = [sys.executable, "-B", os.path.join(TOP, "tools", "closure.py"), "--count"]
    done = subprocess.run(words + [f"pfr/{clause}" for clause in clauses], stdout=subprocess.PIPE, stderr=subprocess.STDOUT, check=False)
    said = done.stdout.decode().strip()
    found = re.match(r"(\d+) lines, ", said)
    return (int(found.group(1)) if found and done.returncode == 0 else None), said


def faults_of(clauses, most):
    lines, said = lines_of(clauses)
    names = ", ".join(f"pfr/{clause}" for clause in clauses)
    if lines is None:
        return [f"{names}: {said}"]
    return [f"{names}: {lines} lines, and {most} are the most"] if lines > most else []


def main():
    faults = [fault for clauses, most in MOST for fault in faults_of(clauses, most)]
    print(*faults, f"closures: {len(faults)} faults", sep="\n")
    sys.exit(1 if faults else 0)


if __name__ == "__main__":
    main()
