"""What frames do on the buses of a bank that runs, after docs/FORMATS.md alone: apart from the program, for what cases want."""

from __future__ import annotations

import struct
from collections import namedtuple

import maker
import restorer
from maker import PAGE

PIECE = restorer.PIECE
CHIP_ERASE, PROGRAM, ERASE, BLOCK_ERASE = 0xC7, 0x02, 0x20, 0xD8
# How many pages an erase touches, and begins at a multiple of.
ERASED = {ERASE: 1, BLOCK_ERASE: 16}
# The opcodes that may pass: what their pass is noted as, and how many bytes they need.
OPCODES = {
    0x03: ("read", 5),
    0x0B: ("read", 6),
    0x05: ("status", 1),
    0x9F: ("id", 1),
    0x06: ("latch", 1),
    0x04: ("latch", 1),
    PROGRAM: ("program", 6),
    ERASE: ("erase", 5),
    BLOCK_ERASE: ("erase", 5),
}
RULE_LENGTH = 40
WRITE = 2

Rule = namedtuple("Rule", "bus address commands")
Manifest = namedtuple("Manifest", "svn regions rules")
# What a bank's processor may do while it runs: by what, and whether its writes are enabled.
Seat = namedtuple("Seat", "line manifest layout latch", defaults=(None, None, False))


# ---- manifests


def rules_of(content):
    """The SMBus rules of a manifest, which stand behind its regions."""
    at = 32
    while at < len(content) and content[at] == 1:
        at += 16 + restorer.HASH_SIZES[struct.unpack_from("<H", content, at + 2)[0]]
    rules = []
    while at < len(content) and content[at] == 2:
        rules.append(Rule(content[at + 5], content[at + 7], content[at + 8 : at + RULE_LENGTH]))
        at += RULE_LENGTH
    return rules


def manifest_of(content):
    return Manifest(content[4], restorer.regions_of(content), rules_of(content))


# ---- frames


def address_of(frame):
    """The address of a frame, the highest byte first."""
    return int.from_bytes(frame[1:5], "big")


def touched(frame):
    """The pages that an erase or a program touches, in rising order."""
    count = ERASED.get(frame[0], 1)
    first = address_of(frame) // (count * PAGE) * count
    return range(first, first + count)


def is_writable(seat, page):
    """Whether a page lies in the staging area, or in a region with the write bit."""
    at = page * PAGE
    if seat.layout.staging_at <= at < seat.layout.staging_at + seat.layout.area_len:
        return True
    return any(region.start <= at < region.end and region.mask & WRITE for region in seat.manifest.regions)


def write_cause(seat, frame):
    """Why an erase or a program is blocked, whose bytes are all there: a word, or nothing."""
    barred = [page for page in touched(frame) if not is_writable(seat, page)]
    if barred:
        return f"not-writable:{barred[0]}"
    return "" if seat.latch else "no-latch"


def spi_cause(seat, size, frame):
    """Why a frame is blocked: the first word that applies, or nothing."""
    if frame[0] == CHIP_ERASE:
        return "chip-erase"
    if frame[0] not in OPCODES:
        return "opcode"
    name, needed = OPCODES[frame[0]]
    if len(frame) < needed:
        return "short-frame"
    if needed > 1 and address_of(frame) >= size:
        return "range"
    return write_cause(seat, frame) if name in ("program", "erase") else ""


def page_of(frame):
    """Where the page of a program begins, and what is programmed there: 0xFF where nothing goes."""
    address = address_of(frame)
    page = bytearray(maker.blank(PIECE))
    for index, byte in enumerate(frame[5:]):
        page[(address + index) % PIECE] = byte
    return address // PIECE * PIECE, bytes(page)


def operations_of(frame):
    """What a passed frame does on the device, as restorer.py writes operations."""
    if frame[0] == PROGRAM:
        return [page_of(frame)]
    return [(page * PAGE, None) for page in touched(frame)] if frame[0] in ERASED else []


def latch_behind(seat, frame):
    """The latch behind a passed frame."""
    name, _ = OPCODES[frame[0]]
    return frame[0] == 0x06 if name == "latch" else seat.latch and name not in ("program", "erase")


def smbus_cause(rules, frame):
    """Why a frame of the SMBus is blocked: the first word that applies, or nothing."""
    if len(frame) < 3:
        return "short-frame"
    bus, address, command = frame[:3]
    if address > 127:
        return "bad-address"
    named = [rule for rule in rules if (rule.bus, rule.address) == (bus, address)]
    if not named:
        return "no-rule"
    return "" if any(rule.commands[command // 8] >> command % 8 & 1 for rule in named) else "command"


# ---- what a bank runs by


def active_manifest(image, layout):
    """The manifest of an image that is trusted."""
    begin, end = restorer.content_of(image, layout.manifest_at)
    return manifest_of(image[begin:end])
