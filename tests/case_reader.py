"""Reads the cases of a folder: plain texts, whose grammar tests/README.md tells."""

from __future__ import annotations

import os
import re
import shlex
from dataclasses import dataclass, field

ESCAPE = re.compile(r"\\(?:n|r|t|\\|x[0-9a-fA-F]{2})")
HOLE = re.compile(r"\{(\*?)([a-z_0-9]+)\}")


class CaseFault(Exception):
    """A case that can't be read or made."""


@dataclass
class Line:
    """A line of a case: its words, and the lines of text that are indented below it."""

    place: str
    words: list[str]
    block: list[str] = field(default_factory=list)


@dataclass
class Case:
    name: str
    place: str
    lines: list[Line]


def plain(text):
    """The text with its escapes read: \\n, \\t, \\\\ and \\xHH, which is a byte."""

    def one(found):
        mark = found.group()[1:]
        if mark[0] != "x":
            return {"n": "\n", "r": "\r", "t": "\t", "\\": "\\"}[mark]
        return bytes.fromhex(mark[1:]).decode("utf-8", "surrogateescape")

    return ESCAPE.sub(one, text)


def split(text, place):
    """The words of a line, each of them quoted or not."""
    try:
        return [plain(word) for word in shlex.split(text)]
    except ValueError as error:
        raise CaseFault(f"{place}: {error}") from None


def lines_of(path, name):
    """The lines of a file with their blocks. Empty lines and those that begin with `#` say nothing outside of a block."""
    found = []
    with open(path, encoding="utf-8") as file:
        texts = file.read().split("\n")
    for number, text in enumerate(texts, 1):
        place = f"{name}:{number}"
        if text.startswith("  "):
            if not found:
                raise CaseFault(f"{place}: a text without a line above it")
            found[-1].block.append(text[2:])
        elif text and not text.startswith("#"):
            if text[0].isspace():
                raise CaseFault(f"{place}: a line that is indented by one place")
            found.append(Line(place, split(text, place)))
    return found


def filled(text, row, place):
    """The text with a row's values in the places of their names."""

    def one(found):
        if found.group(2) not in row:
            raise CaseFault(f"{place}: no column {found.group(2)}")
        return row[found.group(2)]

    return HOLE.sub(one, text)


def filled_words(words, row, place):
    """The words with a row's values; `{*name}` alone stands for all words of the value."""
    found = []
    for word in words:
        hole = HOLE.fullmatch(word)
        if hole and hole.group(1):
            found += split(filled(word, row, place), place)
        else:
            found.append(filled(word, row, place))
    return found


def row_case(head, lines, row):
    """The case of one row of a table."""
    made = []
    for line in lines:
        block = "\n".join(filled(text, row, line.place) for text in line.block)
        made.append(Line(line.place, filled_words(line.words, row, line.place), block.split("\n") if line.block else []))
    return Case(filled(head.words[1], row, head.place), head.place, made)


def timed_cases(head, lines):
    """As many cases as the last line says, which differ in their number alone."""
    count = lines[-1].words[1:]
    if len(count) != 1 or not count[0].isdigit():
        raise CaseFault(f"{lines[-1].place}: a number and nothing else stands behind `times`")
    return [row_case(head, lines[:-1], {"row": f"{time:03}"}) for time in range(1, int(count[0]) + 1)]


def table_cases(head, lines):
    """A case for each row of the table, which is the last line of these; behind `times` so many without columns."""
    if not lines or lines[-1].words[0] not in ("rows", "times"):
        raise CaseFault(f"{head.place}: a table without rows")
    if lines[-1].words[0] == "times":
        return timed_cases(head, lines)
    columns = lines[-1].words[1:]
    cases = []
    for number, text in enumerate(lines[-1].block, 1):
        place = f"{lines[-1].place}+{number}"
        values = split(text, place)
        if text.startswith("#") or not text:
            continue
        if len(values) != len(columns):
            raise CaseFault(f"{place}: {len(values)} values for {len(columns)} columns")
        cases.append(row_case(head, lines[:-1], dict(zip(columns, values), row=f"{len(cases) + 1:02}")))
    return cases


def file_cases(path, name):
    """The cases of one file."""
    heads = []
    for line in lines_of(path, name):
        if line.words[0] in ("case", "table"):
            if len(line.words) != 2:
                raise CaseFault(f"{line.place}: a name and nothing else stands behind `{line.words[0]}`")
            heads.append((line, []))
        elif not heads:
            raise CaseFault(f"{line.place}: a line in front of the first case")
        else:
            heads[-1][1].append(line)
    cases = []
    for head, lines in heads:
        cases += table_cases(head, lines) if head.words[0] == "table" else [Case(head.words[1], head.place, lines)]
    return cases


def read_cases(folder):
    """All cases of a folder, in the order of its files' names. No two have one name."""
    cases, names = [], {}
    for name in sorted(os.listdir(folder)):
        if name.endswith(".cases"):
            cases += file_cases(os.path.join(folder, name), name)
    for case in cases:
        if case.name in names:
            raise CaseFault(f"{case.place}: the name {case.name} is taken at {names[case.name]}")
        names[case.name] = case.place
    return cases
