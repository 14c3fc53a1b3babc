"""A bank's log of jobs in the store, and what a job writes: apart from the program, for what cases want.

What is done with a bank is told by restorer.py's words, `1` to `3` for a restore at that level, `active` and `full` for an update,
and by `recovery` for an update of the recovery area.
"""

from __future__ import annotations

from collections import namedtuple

import judge
import maker
import restorer
from maker import PAGE

# Where a bank's log begins: two pages of slots, and the selector.
LOGS = {"bmc": 0x1000, "pch": 0x4000}
SLOT, SLOTS = 64, 64
# The places of a slot's fields.
GATE, BODY, DIGEST, MARKS, REST, END = 0, 1, 4, 36, 52, 63
GROUPS = 128
# The kind and the detail that a slot has for each work, and how a report names the kinds.
WORKS = {"1": (1, 1), "2": (1, 2), "3": (1, 3), "active": (2, 0), "full": (2, 1), "recovery": (3, 0)}
KINDS = {1: "active-from-recovery", 2: "active-from-staging", 3: "recovery-from-staging"}

# An open job: where its slot begins, and its digest. One that is bad has no work.
Job = namedtuple("Job", "at work digest")


# ---- what a log says


def selector_of(store, name):
    return store[LOGS[name] + 2 * PAGE :][:PAGE]


def page_at(store, name):
    """Where the current page begins: its number is how many selector bytes aren't 0xFF, modulo 2."""
    return LOGS[name] + PAGE * ((PAGE - selector_of(store, name).count(0xFF)) % 2)


def slots_at(store, name):
    """Where the slots of the current page begin."""
    return range(page_at(store, name), page_at(store, name) + PAGE, SLOT)


def job_of(store, name):
    """The open job, or nothing: the last slot of the current page whose gate is set decides."""
    gated = [at for at in slots_at(store, name) if store[at + GATE] != 0xFF]
    if not gated or store[gated[-1] + END] != 0xFF:
        return None
    at = gated[-1]
    work = next((work for work, spelled in WORKS.items() if spelled == tuple(store[at + BODY : at + BODY + 2])), None)
    return Job(at, work, store[at + DIGEST : at + MARKS])


def name_of(job):
    """What `check` and a report call a job."""
    if job is None:
        return "none"
    return KINDS[WORKS[job.work][0]] if job.work else "bad"


def used_slots(store, name):
    """How many slots stand up to the last one that isn't blank, that one too."""
    used = [number for number, at in enumerate(slots_at(store, name)) if store[at : at + SLOT] != maker.blank(SLOT)]
    return max(used, default=-1) + 1


def is_spent(store, name):
    """Whether the log takes no job any more: its page is full, and it can't be changed for the other one."""
    return used_slots(store, name) == SLOTS and 0xFF not in selector_of(store, name)


# ---- what is written to a log, as restorer.py writes operations


def body_of(work, digest):
    return bytes([*WORKS[work], 0]) + digest


def begun(store, name, work, digest):
    """A job begins in the first slot behind the last that isn't blank; where there is none, in the other page."""
    page, number, operations = page_at(store, name), used_slots(store, name), []
    if number == SLOTS:
        page, number = 2 * LOGS[name] + PAGE - page, 0
        operations = [(page, None), (LOGS[name] + 2 * PAGE + selector_of(store, name).index(0xFF), b"\0")]
    at = page + SLOT * number
    return operations + [(at + BODY, body_of(work, digest)), (at + GATE, b"\0")]


def fuse(row_at, bit):
    """A bit is cleared, by a program of the byte that has it."""
    return row_at + bit // 8, bytes([0xFF & ~(1 << bit % 8)])


def marked(job, group):
    return fuse(job.at + MARKS, group)


def finished(job):
    return job.at + END, b"\0"


def marks_of(store, job):
    """The numbers of the groups that are marked."""
    return judge.cleared(store[job.at + MARKS : job.at + REST])


def raised(store, name, svn):
    """A bank's floor is raised to a version, where it is below: the operations of it."""
    return [fuse(maker.FLOORS[name], svn - 1)] if svn > judge.floor_of(store, name) else []


# ---- what a job writes to its bank


def area_of(work):
    """The area whose capsule a job works on."""
    return "staging_at" if work in (*restorer.UPDATES, "recovery") else "recovery_at"


def capsule_bytes(image, at):
    """The whole capsule that stands at a place of an image, which is well formed."""
    _, end = restorer.content_of(image, at)
    return image[at:end]


def capsule_digest(image, at):
    return maker.sha256(capsule_bytes(image, at))


def capsule_svn(image, at):
    body, _ = restorer.content_of(image, at)
    begin, _ = restorer.content_of(image, body)
    return image[begin + 4]


def recovery_pages(image, layout):
    """The pages of the recovery area that are to hold a byte of the staged capsule, and what each is to hold."""
    capsule, first = capsule_bytes(image, layout.staging_at), layout.recovery_at // PAGE
    pieces = [capsule[at : at + PAGE] for at in range(0, len(capsule), PAGE)]
    return [(first + number, maker.up_to(piece, PAGE)) for number, piece in enumerate(pieces)]


def pages_of(image, layout, work):
    """The pages of a job in rising order, and what each is to hold."""
    return recovery_pages(image, layout) if work == "recovery" else restorer.new_pages(image, layout, work)


def group_of(page, size):
    """The group of a page of a bank, of which there are at most 128."""
    return page // max(1, -(-(size // PAGE) // GROUPS))


def passed(image, store, name, work, job=None):
    """The operations of a pass over the pages of a work, each behind its device's name.

    With a job the pages of marked groups are left out, and each other group is marked behind its last page.
    """
    done = marks_of(store, job) if job else set()
    pages = [(group_of(page, len(image)), page, content) for page, content in pages_of(image, restorer.layout_of(store, name), work)]
    left = [each for each in pages if each[0] not in done]
    for (group, page, content), behind in zip(left, left[1:] + [None]):
        yield from ((name, *operation) for operation in restorer.operations(page, content))
        if job and (behind is None or behind[0] != group):
            yield ("nv", *marked(job, group))
