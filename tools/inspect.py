#!/usr/bin/env python3
"""Tells a person what a signed image, a capsule, a store or a certificate holds.

What a file is, is found out from its bytes: a store has 32,768 bytes; a signed manifest, a capsule or a certificate is a
signature block with just its content behind it; a bank's image has a multiple of 65,536 bytes. Where the areas of a bank's
image lie stands in the store: give it with --store. Without it each block is told that begins at a multiple of 4,096 bytes.

Nothing is judged as the controller judges it, since the engine isn't asked: `check` does that. What is told beside the bytes
themselves is whether a digest is right, and whether what stands there has the form that it is to have.
"""

import os
import sys

# This file has the name of a module of Python, which other modules import: they are not to find this one.
FOLDER = os.path.dirname(os.path.abspath(__file__))
sys.path[:] = [each for each in sys.path if os.path.abspath(each or ".") != FOLDER]

import argparse
import hashlib
import struct
from collections import namedtuple

LINES = """\
The first line of a file is its name and what it is. What belongs to a line stands below it, two spaces further in, and so does
what a capsule holds. Places and sizes of areas are hexadecimal, numbers of bytes and pages decimal. W is a word or a number:

  image of B                       of a bank's image, whose areas a store tells
  manifest|recovery|staging area at W of W: blank|no block, or what stands there below it
  block at W: form W, W bytes, TYPE (W), content of W bytes
    sha256 W right|wrong           the digest of the content as the block has it
    sha384 W right|wrong
    root curve W, hash W           the root hash; in form 2 `root scheme W, key of W bytes, hash W`
    key id W, permissions W        the key that signs the content; no such line in a certificate
  manifest svn W, bkc W, revision W, oem W, W bytes
    region W: W to W, mask W (..), no hash|sha256 W|sha384 W [right|wrong]
    rule W: bus W, rule W, address W, commands W..
  capsule of W pages: W erased, W copied, W kept, payload of W bytes
    region W: W erased, W copied, W kept [right|wrong]
  certificate cancels key id W for TYPE
  profile W                        of a store
  slot W: blank|gate set|gate open, then its root hash and its two layouts
  provisioned by slot W|unprovisioned|slots spent
  floor of B: W
  cancelled for TYPE: none|W..
  job log of B: blank|page W, W slots used[, spent], no job|job at slot W
    job bad|KIND W, of capsule W   its kind and detail, and the digest of its capsule
    groups marked: none|W..
  fault: ..                        what stands here hasn't the form that it is to have

A region's digest is right or wrong for the image's own bytes, and in a capsule for what its pages give. With --store a root
hash is told to be the store's or not, an SVN below the floor, and a cancelled key.

The exit code is 0, or 1 where a file can't be read or isn't any of these, or 2 where the words are wrong.
"""

PAGE = 4096
STORE = 32768
UNIT = 65536
MAGICS = {0xB6EAFD19: 1, 0xB6EAFD1A: 2}
CANCELS = 0x100
TYPES = {1: "pch-manifest", 2: "pch-capsule", 3: "bmc-manifest", 4: "bmc-capsule", 5: "controller"}
BANKS = {"bmc": (3, 4), "pch": (1, 2)}
CURVES = {0xC7B88C74: "256", 0x08F07B47: "384"}
MASK = ("read", "write", "level-1", "level-2", "level-3")
HASHES = {1: ("sha256", 32), 2: ("sha384", 48)}
ROWS = {
    1: ({"bmc": 0x800, "pch": 0x810}, 8, {1: 0x900, 2: 0x910, 3: 0x920, 4: 0x930}, 16),
    2: ({"bmc": 0x7000, "pch": 0x7010}, 16, {1: 0x7020, 2: 0x7040, 3: 0x7060, 4: 0x7080}, 32),
}
JOB_LOGS = {"bmc": (1, 4), "pch": (4, 7)}
JOB_KINDS = {1: "active-from-recovery", 2: "active-from-staging", 3: "recovery-from-staging"}
JOB_DETAILS = {1: ("1", "2", "3"), 2: ("0", "1"), 3: ("0",)}
SLOT = 64

Layout = namedtuple("Layout", "manifest_at manifest_len recovery_at staging_at area_len")
Head = namedtuple("Head", "at form length content_length type digest256 digest384")
Region = namedtuple("Region", "number mask info start end digest")


class Fault(Exception):
    """What stands here hasn't the form that it is to have."""


class Cursor:
    """Reads fields one behind another, up to an end."""

    def __init__(self, data, at=0, end=None):
        self.data, self.at, self.end = data, at, len(data) if end is None else min(end, len(data))

    def take(self, count, what):
        if self.at + count > self.end:
            raise Fault("%s passes the end" % what)
        self.at += count
        return self.data[self.at - count : self.at]

    def number(self, what):
        return struct.unpack("<I", self.take(4, what))[0]

    def magic(self, wanted, what):
        found = self.number(what)
        if found != wanted:
            raise Fault("%s has the magic 0x%08x, not 0x%08x" % (what, found, wanted))


def inside(lines):
    return ["  " + line for line in lines]


def right(found, wanted):
    return "right" if found == wanted else "wrong"


def digest(name, data):
    return hashlib.new(name, data).digest()


def type_name(number):
    if number - CANCELS in (1, 2, 3, 4):
        return TYPES[number - CANCELS] + "-cancel"
    return TYPES.get(number, "unknown")


# Signature blocks


def head_at(data, at):
    """The begin of the block that stands at a place, or None where none does."""
    if at + 128 > len(data):
        return None
    magic, content_length, content_type, length = struct.unpack_from("<4I", data, at)
    if magic not in MAGICS:
        return None
    form = MAGICS[magic]
    return Head(
        at, form, 1024 if form == 1 else length, content_length, content_type, data[at + 16 : at + 48], data[at + 48 : at + 96]
    )


def content_of(data, head):
    begin = head.at + head.length
    if begin + head.content_length > len(data):
        raise Fault("the content passes the end")
    return data[begin : begin + head.content_length]


def root_line(cursor, form, store):
    """The root entry's line."""
    what = "the root entry"
    cursor.magic(0xA757A046 + form - 1, what)
    if form == 1:
        number = cursor.number(what)
        rest = cursor.take(8, what)
        hashed, said = cursor.take(96, what), "curve %s" % CURVES.get(number, "unknown (0x%08x)" % number)
        cursor.take(20, what)
    else:
        rest, scheme = cursor.take(8, what), cursor.number(what)
        key = cursor.take(cursor.number(what), what)
        hashed = b"\x02" + struct.pack("<I", scheme) + key
        said = "scheme 0x%08x, key of %d bytes" % (scheme, len(key))
    if rest != b"\xff" * 8:
        raise Fault("the root entry's permissions or key id aren't 0xffffffff")
    found = digest("sha256", hashed)
    known = "" if store is None else ", the store's" if found == store.root else ", not the store's"
    return "root %s, hash %s%s" % (said, found.hex(), known)


def key_line(cursor, form, content_type, store):
    """The key entry's line."""
    what = "the key entry"
    cursor.magic(0x14711C2F + form - 1, what)
    if form == 1:
        cursor.number(what)
    permissions, key_id = cursor.number(what), cursor.number(what)
    if form == 1:
        cursor.take(96 + 20 + 100, what)
    else:
        cursor.number(what)
        cursor.take(cursor.number(what), what)
        cursor.take(cursor.number(what), what)
    cancelled = store is not None and key_id in store.cancelled.get(content_type, ())
    return "key id %d, permissions 0x%08x%s" % (key_id, permissions, ", cancelled" if cancelled else "")


def entry_lines(data, head, store):
    """The lines of Block 1."""
    cursor, lines = Cursor(data, head.at + 128, head.at + head.length), []
    try:
        cursor.magic(0xF27F28D7 + head.form - 1, "block 1")
        cursor.take(12, "block 1")
        lines.append(root_line(cursor, head.form, store))
        if head.type < CANCELS:
            lines.append(key_line(cursor, head.form, head.type, store))
        cursor.magic(0x15364367 + head.form - 1, "the block-0 entry")
    except Fault as fault:
        lines.append("fault: %s" % fault)
    return lines


def block_lines(data, head, base, store):
    """What a block says, and whether its digests are right. The base is the place of the data in the file."""
    named = (base + head.at, head.form, head.length, type_name(head.type), head.type, head.content_length)
    lines = ["block at 0x%x: form %d, %d bytes, %s (%d), content of %d bytes" % named]
    if head.length % 128 or not 1024 <= head.length <= 8320:
        return lines + ["  fault: a block can't have this length"]
    try:
        content = content_of(data, head)
        for name, found in (("sha256", head.digest256), ("sha384", head.digest384)):
            lines.append("  %s %s %s" % (name, found.hex(), right(found, digest(name, content))))
    except Fault as fault:
        lines.append("  fault: %s" % fault)
    return lines + inside(entry_lines(data, head, store))


def signed_lines(data, head, image=None, store=None):
    """What a block and the content behind it hold. The image is the bank's own, where the content is its manifest."""
    lines = block_lines(data, head, 0, store)
    try:
        content = content_of(data, head)
    except Fault:
        return lines
    if head.type in (1, 3):
        return lines + manifest_lines(content, image, store, bank_of(head.type))
    if head.type in (2, 4):
        return lines + inside(capsule_lines(content, head.at + head.length, store, bank_of(head.type)))
    if head.type - CANCELS in (1, 2, 3, 4):
        return lines + certificate_lines(content, head.type)
    return lines + ["content isn't told"]


def bank_of(content_type):
    return "pch" if content_type in BANKS["pch"] else "bmc"


def certificate_lines(content, content_type):
    if len(content) != 128:
        return ["fault: a certificate has 128 bytes, not %d" % len(content)]
    lines = ["certificate cancels key id %d for %s" % (struct.unpack_from("<I", content)[0], TYPES[content_type - CANCELS])]
    return lines + (["fault: the last 124 bytes aren't all 0"] if any(content[4:]) else [])


# Manifests


def region_at(cursor, number):
    """A region's definition, whose type was read."""
    what = "region %d" % number
    mask, info = struct.unpack("<BH", cursor.take(3, what))
    cursor.take(4, what)
    start, end = cursor.number(what), cursor.number(what)
    if info and info not in HASHES:
        raise Fault("%s has the hash info %d" % (what, info))
    return Region(number, mask, info, start, end, cursor.take(HASHES[info][1], what) if info else b"")


def mask_words(mask):
    words = [name for bit, name in enumerate(MASK) if mask >> bit & 1]
    return " (%s)" % " ".join(words) if words else ""


def region_line(region, image):
    """A region's line; the digest is compared with the image's bytes, where the image is known."""
    head = "region %d: 0x%x to 0x%x, mask 0x%02x%s" % (
        region.number,
        region.start,
        region.end,
        region.mask,
        mask_words(region.mask),
    )
    if not region.info:
        return head + ", no hash"
    name = HASHES[region.info][0]
    known = "" if image is None else " " + right(digest(name, image[region.start : region.end]), region.digest)
    return "%s, %s %s%s" % (head, name, region.digest.hex(), known)


def rule_line(cursor, number):
    """The line of a rule whose type was read."""
    rest = cursor.take(39, "rule %d" % number)
    bits = int.from_bytes(rest[7:], "little")
    commands = " ".join("0x%02x" % command for command in range(256) if bits >> command & 1)
    return "rule %d: bus %d, rule %d, address 0x%02x, commands %s" % (number, rest[4], rest[5], rest[6], commands or "none")


def definitions_of(content):
    """The regions, the lines of the rules, and the fault that stopped the reading or None."""
    cursor, regions, rules = Cursor(content, 32), [], []
    try:
        while cursor.at < cursor.end:
            at, kind = cursor.at, cursor.take(1, "the manifest")[0]
            if kind == 1:
                regions.append(region_at(cursor, len(regions)))
            elif kind == 2:
                rules.append(rule_line(cursor, len(rules)))
            elif kind == 0xFF:
                break
            else:
                raise Fault("a definition of type %d stands at %d" % (kind, at))
    except Fault as fault:
        return regions, rules, "fault: %s" % fault
    return regions, rules, None


def manifest_lines(content, image=None, store=None, bank=None):
    """What a manifest holds."""
    if len(content) < 32:
        return ["fault: a manifest has at least 32 bytes, not %d" % len(content)]
    magic, svn, bkc, length = struct.unpack_from("<IBB22xI", content)
    low = store is not None and svn < store.floors[bank]
    named = (svn, " (below the floor)" if low else "", bkc, content[6:8].hex(), content[12:28].hex(), length)
    lines = ["manifest svn %d%s, bkc %d, revision %s, oem %s, %d bytes" % named]
    if magic != 0x02B3CE1D:
        return lines + ["  fault: the manifest's magic is 0x%08x" % magic]
    regions, rules, fault = definitions_of(content)
    lines += inside([region_line(region, image) for region in regions] + rules)
    return lines + ["  " + fault] if fault else lines


# Capsules


def pages_in(bits):
    """The numbers of the pages that have their bit in a map."""
    return {page for page in range(8 * len(bits)) if bits[page // 8] >> (7 - page % 8) & 1}


def pages_of(region, count):
    """The pages of a region that the bank has."""
    return range(region.start // PAGE, min(count, -(-region.end // PAGE)))


def given(pages, erased, copied, payload):
    """The bytes that a capsule gives for some pages, or None where one isn't erased."""
    order = {page: number for number, page in enumerate(sorted(copied))}
    pieces = []
    for page in pages:
        if page not in erased:
            return None
        at = order.get(page, 0) * PAGE
        pieces.append(payload[at : at + PAGE] if page in copied else b"\xff" * PAGE)
    return b"".join(pieces)


def pages_line(region, pages, erased, copied, payload):
    """How many pages of a region are erased, copied and kept, and whether what they give has its digest."""
    inside_it = set(pages)
    counts = (region.number, len(inside_it & erased), len(inside_it & copied), len(inside_it - erased))
    line = "region %d: %d erased, %d copied, %d kept" % counts
    if not region.info:
        return line
    found = given(pages, erased, copied, payload)
    return "%s %s" % (line, right(found and digest(HASHES[region.info][0], found), region.digest))


def page_lines(cursor, regions):
    """The lines of the header, the maps and the payload."""
    what = "the capsule's header"
    cursor.magic(0x5F504243, what)
    fields = [cursor.number(what) for _ in range(6)]
    cursor.take(100, what)
    if fields[:4] != [2, PAGE, 1, 0xFF]:
        raise Fault("%s has other numbers than 2, 4096, 1 and 255" % what)
    count, length = fields[4:]
    erased, copied = (pages_in(cursor.take(count // 8, "a map")) for _ in range(2))
    payload = cursor.take(length, "the payload")
    named = (count, len(erased), len(copied), count - len(erased), length)
    lines = ["capsule of %d pages: %d erased, %d copied, %d kept, payload of %d bytes" % named]
    lines += inside([pages_line(region, pages_of(region, count), erased, copied, payload) for region in regions])
    if cursor.at != cursor.end:
        lines.append("  fault: %d bytes stand behind the payload" % (cursor.end - cursor.at))
    if length != PAGE * len(copied):
        lines.append("  fault: the payload isn't %d bytes for each copied page" % PAGE)
    return lines


def capsule_lines(body, base, store=None, bank=None):
    """What a capsule's body holds, which stands at a place of the file: a signed manifest, the pages and their bytes."""
    head = head_at(body, 0)
    if head is None:
        return ["fault: no block stands at the begin of the capsule's body"]
    lines = block_lines(body, head, base, store)
    try:
        manifest = content_of(body, head)
        lines += manifest_lines(manifest, None, store, bank)
        regions = definitions_of(manifest)[0]
        return lines + page_lines(Cursor(body, head.length + head.content_length), regions)
    except Fault as fault:
        return lines + ["fault: %s" % fault]


# Stores


def layout_at(data, at):
    return Layout(*struct.unpack_from("<5I", data, at))


def cleared(data, at, count):
    """The numbers of the cleared bits of a row, in rising order."""
    row = int.from_bytes(data[at : at + count], "little")
    return [bit for bit in range(8 * count) if not row >> bit & 1]


class Store:
    """What a store says: its profile, the slot that provisions it, the floors and the cancelled keys."""

    def __init__(self, data):
        self.data = data
        self.profile = 1 if data[0xA00] == 0xFF else 2
        floors_at, floor_bytes, cancelled_at, cancelled_bytes = ROWS[self.profile]
        self.floors = {bank: max(cleared(data, at, floor_bytes), default=-1) + 1 for bank, at in floors_at.items()}
        self.cancelled = {kind: cleared(data, at, cancelled_bytes) for kind, at in cancelled_at.items()}
        gated = [slot for slot in range(8) if data[256 * slot + 255] != 0xFF]
        self.slot = gated[0] if gated else None
        self.root = None if self.slot is None else data[256 * self.slot : 256 * self.slot + 32]

    def layout(self, bank):
        return layout_at(self.data, 256 * self.slot + (32 if bank == "bmc" else 52))

    def is_blank(self, slot):
        return self.data[256 * slot : 256 * slot + 256] == b"\xff" * 256


def layout_line(bank, layout):
    named = (bank, layout.manifest_at, layout.manifest_len, layout.recovery_at, layout.staging_at, layout.area_len)
    return "%s manifest at 0x%x of 0x%x, recovery at 0x%x, staging at 0x%x, both of 0x%x" % named


def slot_lines(store, slot):
    if store.is_blank(slot):
        return ["slot %d: blank" % slot]
    at = 256 * slot
    gate = "open" if store.data[at + 255] == 0xFF else "set"
    lines = ["slot %d: gate %s" % (slot, gate), "  root hash %s" % store.data[at : at + 32].hex()]
    layouts = (("bmc", layout_at(store.data, at + 32)), ("pch", layout_at(store.data, at + 52)))
    return lines + inside([layout_line(bank, layout) for bank, layout in layouts])


def provisioned_line(store):
    if store.slot is not None:
        return "provisioned by slot %d" % store.slot
    return "unprovisioned" if any(store.is_blank(slot) for slot in range(8)) else "slots spent"


def open_job_lines(slot):
    """The job of an open slot: its kind and detail, its capsule, and the groups that are marked."""
    kind, detail = slot[1], str(slot[2])
    marked = [str(group) for group in range(128) if not slot[36 + group // 8] >> group % 8 & 1]
    known = detail in JOB_DETAILS.get(kind, ())
    job = "%s %s, of capsule %s" % (JOB_KINDS[kind], detail, slot[4:36].hex()) if known else "bad"
    return ["job %s" % job, "groups marked: %s" % (" ".join(marked) or "none")]


def log_lines(bank, log):
    """A bank's log: its current page, how many slots of it are used, and what the last one whose gate is set has open."""
    if log.count(0xFF) == len(log):
        return ["job log of %s: blank" % bank]
    selector = log[2 * PAGE :]
    number = (PAGE - selector.count(0xFF)) % 2
    page = log[number * PAGE : (number + 1) * PAGE]
    slots = [page[at : at + SLOT] for at in range(0, PAGE, SLOT)]
    used = max((at + 1 for at, slot in enumerate(slots) if slot.count(0xFF) < SLOT), default=0)
    spent = ", spent" if used == len(slots) and 0xFF not in selector else ""
    gated = [at for at, slot in enumerate(slots) if slot[0] != 0xFF]
    is_open = gated and slots[gated[-1]][63] == 0xFF
    told = "job at slot %d" % gated[-1] if is_open else "no job"
    first = "job log of %s: page %d, %d slots used%s, %s" % (bank, number, used, spent, told)
    return [first] + (inside(open_job_lines(slots[gated[-1]])) if is_open else [])


def job_lines(store):
    logs = ((bank, store.data[first * PAGE : last * PAGE]) for bank, (first, last) in JOB_LOGS.items())
    return [line for bank, log in logs for line in log_lines(bank, log)]


def store_lines(data):
    store = Store(data)
    lines = ["profile %d" % store.profile]
    for slot in range(8):
        lines += slot_lines(store, slot)
    lines.append(provisioned_line(store))
    lines += ["floor of %s: %d" % (bank, floor) for bank, floor in store.floors.items()]
    for kind, ids in store.cancelled.items():
        lines.append("cancelled for %s: %s" % (TYPES[kind], " ".join(map(str, ids)) or "none"))
    return lines + job_lines(store)


# Banks


def blocks_of(data):
    """The blocks that begin at a multiple of 4,096."""
    heads = (head_at(data, at) for at in range(0, len(data), PAGE))
    return [head for head in heads if head is not None]


def bank_in(data, store):
    """Whose image it is: the bank whose manifest stands at its place, or whose type the first block has; else None."""
    for bank, (manifest_type, _) in BANKS.items():
        head = head_at(data, store.layout(bank).manifest_at)
        if head is not None and head.type == manifest_type:
            return bank
    types = [head.type for head in blocks_of(data) if head.type in (1, 2, 3, 4)]
    return bank_of(types[0]) if types else None


def area_lines(data, name, at, length, store):
    """What stands in an area."""
    title = "%s area at 0x%x of 0x%x" % (name, at, length)
    area = data[at : at + length]
    head = head_at(data, at)
    if head is None:
        return [title + (": blank" if area == b"\xff" * len(area) else ": no block")]
    return [title] + inside(signed_lines(data, head, data if name == "manifest" else None, store))


def bank_lines(data, store, bank):
    """What a bank's image holds, area by area where a provisioned store says where they lie."""
    if store is None or store.slot is None:
        lines = ["areas not known without a provisioned store (--store)"]
        for head in blocks_of(data):
            lines += signed_lines(data, head, data if head.type in (1, 3) else None, store)
        return lines
    bank = bank or bank_in(data, store)
    if bank is None:
        return ["fault: no block tells whose image this is (--bank)"]
    layout = store.layout(bank)
    lines = ["image of %s" % bank]
    areas = (("manifest", layout.manifest_at, layout.manifest_len), ("recovery", layout.recovery_at, layout.area_len))
    for name, at, length in areas + (("staging", layout.staging_at, layout.area_len),):
        lines += area_lines(data, name, at, length, store)
    return lines


# Files


def kind_of(data):
    """What a file is: `signed`, `bank`, `store`, or None."""
    head = head_at(data, 0)
    if head is not None and head.length + head.content_length == len(data):
        return "signed"
    if len(data) == STORE:
        return "store"
    if data and len(data) % UNIT == 0:
        return "bank"
    return "signed" if head is not None else None


def file_lines(name, data, store=None, bank=None):
    """All lines of a file, or None where it isn't any of these."""
    kind = kind_of(data)
    if kind is None:
        return None
    if kind == "store":
        return ["%s: store of %d bytes" % (name, len(data))] + inside(store_lines(data))
    if kind == "bank":
        title = "%s: bank image of %d bytes, %d pages" % (name, len(data), len(data) // PAGE)
        return [title] + inside(bank_lines(data, store, bank))
    head = head_at(data, 0)
    lines = ["%s: signed %s of %d bytes" % (name, type_name(head.type), len(data))]
    behind = len(data) - head.length - head.content_length
    lines += inside(signed_lines(data, head, None, store))
    return lines + (["  fault: %d bytes stand behind the content" % behind] if behind > 0 else [])


def content_in(path):
    with open(path, "rb") as file:
        return file.read()


def told(path, store, bank):
    """Prints a file's lines; whether there was something to tell."""
    try:
        lines = file_lines(path, content_in(path), store, bank)
    except OSError as error:
        lines = None
        print("%s: cannot be read: %s" % (path, error.strerror))
    else:
        print("\n".join(lines) if lines else "%s: no image, capsule, store or certificate" % path)
    return bool(lines)


def store_of(path, usage):
    """The store of --store, or None."""
    if path is None:
        return None
    try:
        data = content_in(path)
    except OSError as error:
        usage.error("the store cannot be read: %s" % error.strerror)
    if len(data) != STORE:
        usage.error("a store has %d bytes, not %d" % (STORE, len(data)))
    return Store(data)


def main(words):
    usage = argparse.ArgumentParser(
        prog="inspect.py", description=__doc__, epilog=LINES, formatter_class=argparse.RawDescriptionHelpFormatter
    )
    usage.add_argument("files", metavar="FILE", nargs="+")
    usage.add_argument("--store", metavar="STORE", help="the store that says where the areas of a bank's image lie")
    usage.add_argument("--bank", choices=sorted(BANKS), help="whose image it is, where no block tells it")
    asked = usage.parse_args(words)
    store = store_of(asked.store, usage)
    return 0 if all([told(path, store, asked.bank) for path in asked.files]) else 1


if __name__ == "__main__":
    sys.exit(main(sys.argv[1:]))
