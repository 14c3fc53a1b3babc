#!/usr/bin/env python3
"""Looks for what the documents name and the code has not, and the other way round.

Each clause that docs/PROMISES.md names as `call`/`clause` stands on that call. Where a heading of it has "The record `X` of
`crate`", the first cells of the tables below it are the fields of that record, each once. The reading list of
docs/ARCHITECTURE.md names every file of the folders specs/, and no other.
"""

import os
import re
import sys

TOP = os.path.dirname(os.path.dirname(os.path.abspath(__file__)))
CRATES = os.path.join(TOP, "crates")
OWNER = re.compile(r"(?:pub )?(?:impl(?:<.*?>)? (?:\w+(?:<.*?>)? for )?(\w+)|trait (\w+))")
CALL = re.compile(r"( *)(?:pub(?:\([a-z]+\))? )?(?:const )?fn (\w+)")
RECORD = re.compile(r"#.*\b[Tt]he record `(\w+)` of `(\w+)`")
CLAUSE = re.compile(r"\s*ensures (\w+) \{|\s*ghost (\w+):")


def read(*parts):
    with open(os.path.join(TOP, *parts), encoding="utf-8") as file:
        return file.read()


def clauses_in(text):
    """Each clause of a file of code, with the call that it stands on; a law of a trait stands on the trait."""
    owner = call = ""
    for line in text.split("\n"):
        begins = OWNER.match(line)
        named = CALL.match(line)
        clause = CLAUSE.match(line)
        if begins:
            owner = call = begins.group(1) or begins.group(2)
        elif named:
            call = f"{owner}::{named.group(2)}" if named.group(1) else named.group(2)
        elif clause and clause.group(1):
            yield call, clause.group(1)
        elif clause:
            yield owner, clause.group(2)


def code_files():
    for crate in sorted(os.listdir(CRATES)):
        folder = os.path.join(CRATES, crate, "src")
        yield from (os.path.join(folder, name) for name in sorted(os.listdir(folder)) if name.endswith(".rt"))


def missing_clauses():
    """What PROMISES.md names as a clause of a call, and isn't one."""
    there = {each for path in code_files() for each in clauses_in(read(path))}
    text = read("docs", "PROMISES.md")
    lists = re.findall(r"((?:`[\w:]+`, )*`[\w:]+`)/`(\w+)`", text)
    named = [(call, clause) for calls, clause in lists for call in re.findall(r"`([\w:]+)`", calls)[-1:]]
    return [f"docs/PROMISES.md: no clause {call}/{clause}" for call, clause in named if (call, clause) not in there]


def fields_of(record, crate):
    """The fields of a record of a crate's specs/, or None where there is none of that name."""
    folder = os.path.join(CRATES, crate, "specs")
    names = sorted(os.listdir(folder)) if os.path.isdir(folder) else []
    for name in names:
        found = re.search(rf"(?ms)^pub record {record}\b.*?(?=^\S|\Z)", read(folder, name))
        if found:
            return re.findall(r"(?m)^  pub (\S+) :", found.group(0))
    return None


def rows_of(part):
    """The names in the first cells of a part's tables."""
    return re.findall(r"(?m)^\| `([^`]+)`[^|]*\|", part)


def table_faults(part):
    """What the tables of a part of PROMISES.md, which begins with its heading, have and its record hasn't, and the other way round."""
    record, crate = RECORD.match(part).groups()
    fields, rows = fields_of(record, crate), rows_of(part)
    if fields is None:
        return [f"docs/PROMISES.md: no record {record} in {crate}/specs"]
    nowhere = [f"docs/PROMISES.md: {record} has no field {row}" for row in rows if row not in fields]
    missed = [f"docs/PROMISES.md: no row for {record}.{field}" for field in fields if field not in rows]
    twice = [f"docs/PROMISES.md: two rows for {record}.{row}" for row in sorted(set(rows)) if rows.count(row) > 1]
    return nowhere + missed + twice


def record_gaps():
    parts = re.split(r"(?m)^(?=#)", read("docs", "PROMISES.md"))
    return [fault for part in parts if RECORD.match(part) for fault in table_faults(part)]


def list_faults(part):
    """The files of a crate's specs/ that its part of the reading list misses, and the names in it that are nowhere there."""
    crate = re.match(r"`(\w+)/specs`", part).group(1)
    folder = os.path.join(CRATES, crate, "specs")
    files = {name[: -len(".antt")] for name in os.listdir(folder) if name != "Lib.antt"}
    named = set(re.findall(r"`([A-Z]\w+)`", part))
    text = "".join(read(folder, f"{name}.antt") for name in files)
    missed = [f"docs/ARCHITECTURE.md: {crate}/specs/{name} is not in the reading list" for name in sorted(files - named)]
    nowhere = [name for name in sorted(named - files) if not re.search(rf"\b{name}\b", text)]
    return missed + [f"docs/ARCHITECTURE.md: {crate}/specs has no {name}" for name in nowhere]


def list_gaps():
    text = read("docs", "ARCHITECTURE.md")
    part = text[text.index("## Where an auditor begins") : text.index("## Forms")]
    parts = re.split(r"(?=`pfr\w*/specs`)", part)[1:]
    return [fault for each in parts for fault in list_faults(each.split("\n\n")[0])]


def main():
    faults = missing_clauses() + record_gaps() + list_gaps()
    print(*faults, f"names: {len(faults)} faults", sep="\n")
    sys.exit(1 if faults else 0)


if __name__ == "__main__":
    main()
