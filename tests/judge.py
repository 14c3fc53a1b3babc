"""What is wrong with an image or a capsule, after docs/FORMATS.md alone: apart from the program, for what cases want.

Each rule is looked at in its turn, and the first that is broken is Refused with its word in a report.
"""

from __future__ import annotations

from collections import namedtuple

import maker
import restorer
from maker import PAGE
from restorer import numbers

FORM1_MAGIC, FORM2_MAGIC = 0xB6EAFD19, restorer.FORM2_MAGIC
LONGEST_BLOCK = 8320
CAPSULE_CONSTANTS = (0x5F504243, 2, PAGE, 1, 0xFF)
MANIFEST_MAGIC = 0x02B3CE1D
MOST_ENTRIES = 64
SLOTS = range(0, 2048, 256)
OLD_FLOORS = {"bmc": 0x800, "pch": 0x810}
OLD_CANCELLED = {1: 0x900, 2: 0x910, 3: 0x920, 4: 0x930}

# What a platform holds against a signature: its root's hash, the cancelled ids of each type, and the engine's rows.
Keys = namedtuple("Keys", "root cancelled rows")
Region = namedtuple("Region", "mask digest start end")
# What a key entry says of its key: what it may sign, and by which number it may be cancelled.
Grant = namedtuple("Grant", "permissions key_id")


class Refused(Exception):
    """A rule is broken: its word."""


def need(holds, word):
    if not holds:
        raise Refused(word)


def within(part, judge, *given):
    """What a judgement of a part gives; its word stands behind the part's."""
    try:
        return judge(*given)
    except Refused as refused:
        raise Refused(f"{part}:{refused}") from None


def cause_of(judge, *given):
    """The word of a judgement, or nothing where all is well."""
    try:
        judge(*given)
    except Refused as refused:
        return str(refused)
    return ""


# ---- the store


def provision_cause(store):
    """Why a store isn't provisioned, or nothing."""
    if any(store[slot + 255] != 0xFF for slot in SLOTS):
        return ""
    return "unprovisioned" if maker.blank(256) in [store[slot : slot + 256] for slot in SLOTS] else "slots-spent"


def root_of(store):
    """The root's hash of the first slot whose gate is set."""
    return next(store[slot : slot + 32] for slot in SLOTS if store[slot + 255] != 0xFF)


def cleared(row):
    """The numbers of the bits of a row of fuses that are cleared."""
    return {bit for bit in range(8 * len(row)) if not row[bit // 8] >> bit % 8 & 1}


def is_old(store):
    """Whether the store is of profile 1, whose fuses stand in sector 0 and are half as long."""
    return store[maker.PROFILE_GATE] == 0xFF


def floor_row(store, name):
    return store[OLD_FLOORS[name] :][:8] if is_old(store) else store[maker.FLOORS[name] :][:16]


def floor_of(store, name):
    """A bank's floor: one plus the highest cleared bit's number."""
    return max(cleared(floor_row(store, name)), default=-1) + 1


def cancelled_row(store, kind):
    return store[OLD_CANCELLED[kind] :][:16] if is_old(store) else store[maker.CANCELLED[kind] :][:32]


def keys_of(store, rows):
    return Keys(root_of(store), {kind: cleared(cancelled_row(store, kind)) for kind in maker.CANCELLED}, rows)


def moved_fuses(store):
    """What stands in sector 7 once the fuses of profile 1 were moved there."""
    floors = [maker.up_to(floor_row(store, name), 16) for name in maker.BANKS]
    return b"".join(floors + [maker.up_to(cancelled_row(store, kind), 32) for kind in sorted(maker.CANCELLED)])


def areas_of(layout):
    """Where the three areas begin and end."""
    lengths = (layout.manifest_len, layout.area_len, layout.area_len)
    return [(at, at + count) for at, count in zip((layout.manifest_at, layout.recovery_at, layout.staging_at), lengths)]


def layout_cause(layout, size):
    """Why a layout doesn't fit a bank, or nothing."""
    areas = sorted(areas_of(layout))
    if any(value % PAGE for value in layout) or not layout.manifest_len or not layout.area_len:
        return "align"
    if any(end > size for _, end in areas):
        return "outside"
    return "overlap" if any(end > start for (_, end), (start, _) in zip(areas, areas[1:])) else ""


# ---- signature blocks


def accepts(keys, curve, key, message, signature):
    """Whether the engine accepts a signature of form 1."""
    words = [curve.to_bytes(4, "big"), key[:48], key[48:], maker.signed_digest(curve, message), signature[:48], signature[48:]]
    return " ".join(word.hex() for word in words) in keys.rows


def accepts_long(keys, scheme, key, message, signature):
    """Whether the engine accepts a signature of form 2."""
    words = [scheme.to_bytes(4, "big"), key, maker.sha384(message), signature]
    return " ".join(["long"] + [word.hex() for word in words]) in keys.rows


def judge_grant(grant, kind, keys):
    """Whether a key may sign a type."""
    need(grant.key_id <= 255, "key-id")
    need(grant.permissions >> (kind - 1) & 1, "permission")
    need(grant.key_id not in keys.cancelled[kind], "cancelled")


def judge_root(block, keys):
    """Judges Block 1 of form 1 up to the root entry: gives the curve, the magic of its signatures, and the key."""
    need(numbers(block, 128, 1) == (0xF27F28D7,), "block1-magic")
    magic, curve, permissions, key_id = numbers(block, 144, 4)
    known = magic == 0xA757A046 and curve in maker.CURVES.values()
    need(known and permissions == key_id == maker.ANY, "root-entry")
    root = block[160:256]
    need(maker.sha256(root) == keys.root, "root-hash")
    return curve, next(maker.SIGNATURE_MAGICS[size] for size, number in maker.CURVES.items() if number == curve), root


def judge_entries(block, kind, keys):
    """Judges Block 1 of form 1."""
    curve, signing, root = judge_root(block, keys)
    key = block[292:388]
    magic, key_curve, *grant = numbers(block, 276, 4)
    need(magic == 0x14711C2F and key_curve == curve and numbers(block, 408, 1) == (signing,), "key-entry")
    judge_grant(Grant(*grant), kind, keys)
    need(accepts(keys, curve, root, block[280:408], block[412:508]), "key-signature")
    need(numbers(block, 508, 2) == (0x15364367, signing), "block0-entry")
    need(accepts(keys, curve, key, block[:128], block[516:612]), "block0-signature")


class Entries:
    """Reads the entries of a block of form 2 one field after another; a field that passes the block is refused."""

    def __init__(self, block, at):
        self.block, self.at, self.word = block, at, ""

    def begin(self, word):
        """From here on it is the entry of this word."""
        self.word = word

    def take(self, count):
        need(self.at + count <= len(self.block), self.word)
        self.at += count
        return self.block[self.at - count : self.at]

    def numbers(self, count):
        return numbers(self.take(4 * count), 0, count)

    def counted(self, most):
        """A length and so many bytes."""
        (count,) = self.numbers(1)
        need(4 <= count <= most and count % 4 == 0, self.word)
        return self.take(count)


def judge_long_root(block, keys):
    """Judges Block 1 of form 2 up to the root entry: gives the entries behind it, the scheme, and the key."""
    need(numbers(block, 128, 1) == (0xF27F28D8,), "block1-magic")
    entries = Entries(block, 144)
    entries.begin("root-entry")
    magic, permissions, key_id, scheme = entries.numbers(4)
    root = entries.counted(256)
    need(magic == 0xA757A047 and permissions == key_id == maker.ANY, "root-entry")
    need(maker.long_root_hash(scheme, root) == keys.root, "root-hash")
    return entries, scheme, root


def judge_long_entries(block, kind, keys):
    """Judges Block 1 of form 2."""
    entries, scheme, root = judge_long_root(block, keys)
    entries.begin("key-entry")
    signed_at = entries.at + 4
    magic, permissions, key_id, key_scheme = entries.numbers(4)
    key = entries.counted(256)
    message, signature = block[signed_at : entries.at], entries.counted(8000)
    need(magic == 0x14711C30 and key_scheme == scheme, "key-entry")
    judge_grant(Grant(permissions, key_id), kind, keys)
    need(accepts_long(keys, scheme, root, message, signature), "key-signature")
    entries.begin("block0-entry")
    (magic,), signature = entries.numbers(1), entries.counted(8000)
    need(magic == 0x15364368, "block0-entry")
    need(accepts_long(keys, scheme, key, block[:128], signature), "block0-signature")


def judge_content(data, kind, wanted=None):
    """Judges Block 0, with which the data begin, and the content, which may have to be so long: gives where this begins and ends."""
    need(len(data) >= maker.BLOCK, "short-block")
    magic, length, found, block_length = numbers(data, 0, 4)
    need(magic in (FORM1_MAGIC, FORM2_MAGIC), "block0-magic")
    need(found == kind, "type")
    begin = maker.BLOCK
    if magic == FORM2_MAGIC:
        begin = block_length
        may_be = begin % 128 == 0 and maker.BLOCK <= begin <= LONGEST_BLOCK
        need(may_be and begin <= len(data), "block-length")
    need(0 < length <= len(data) - begin and wanted in (None, length), "length")
    content = data[begin : begin + length]
    need(maker.sha256(content) == data[16:48], "digest256")
    need(maker.sha384(content) == data[48:96], "digest384")
    return begin, begin + length


def judge_block(data, kind, keys):
    """Judges the signature block with which the data begin, and the content behind it: gives where this begins and ends."""
    begin, end = judge_content(data, kind)
    judge = judge_entries if numbers(data, 0, 1) == (FORM1_MAGIC,) else judge_long_entries
    judge(data[:begin], kind, keys)
    return begin, end


# ---- manifests


def entry_length(content, at):
    """How many bytes an entry of a manifest takes; a region whose hash isn't known counts as one without."""
    if content[at] == 2:
        return 40
    return 16 + restorer.HASH_SIZES.get(int.from_bytes(content[at + 2 : at + 4], "little"), 0)


def judge_region(region, info, number, before, bounds):
    """Judges a region of a manifest by the one before it, and by the bank's size and areas."""
    size, areas = bounds
    need(info in restorer.HASH_SIZES, f"hash-info:{number}")
    need(not info or not region.mask & 2, f"writable-hashed:{number}")
    need(region.start % PAGE == region.end % PAGE == 0, f"align:{number}")
    shared = any(region.start < end and start < region.end for start, end in areas)
    need(region.start < region.end <= size and not shared, f"range:{number}")
    need(before is None or region.start >= before.start, f"order:{number}")
    need(before is None or region.start >= before.end, f"overlap:{number}")


def region_at(content, at, length):
    start, end = numbers(content, at + 8, 2)
    return Region(content[at + 1], content[at + 16 : at + length], start, end)


def judge_entry_list(content, bounds):
    """Judges the entries of a manifest, each in its turn: gives the regions, and where the tail begins."""
    regions, rules, at = [], 0, 32
    while at < len(content) and content[at] != 0xFF:
        kind, length = content[at], entry_length(content, at)
        need(kind == 2 or kind == 1 and not rules, f"entry-type:{at}")
        need(at + length <= len(content), f"entry-type:{at}")
        need((len(regions) if kind == 1 else rules) < MOST_ENTRIES, "too-many")
        if kind == 1:
            info = int.from_bytes(content[at + 2 : at + 4], "little")
            regions.append(region_at(content, at, length))
            judge_region(regions[-1], info, len(regions) - 1, regions[-2] if regions[1:] else None, bounds)
        rules += kind == 2
        at += length
    return regions, at


def judge_manifest(content, size, layout):
    """Judges a manifest: gives its regions."""
    need(len(content) >= 32 and numbers(content, 0, 1) == (MANIFEST_MAGIC,), "magic")
    need(content[4] <= 127, "svn")
    need(numbers(content, 28, 1) == (len(content),) and len(content) % 128 == 0, "length")
    regions, tail_at = judge_entry_list(content, (size, areas_of(layout)))
    tail = content[tail_at:]
    need(tail == maker.blank(len(tail)) and len(tail) < 128, "tail")
    return regions


def has_digest(region, data):
    """Whether the bytes of a region have its digest; without one all have it."""
    found = {0: lambda _: b"", 32: maker.sha256, 48: maker.sha384}[len(region.digest)]
    return found(data) == region.digest


# ---- images and capsules


def judge_image(image, name, store, rows):
    """Judges a bank's active image: gives its manifest."""
    layout = restorer.layout_of(store, name)
    area = image[layout.manifest_at : layout.manifest_at + layout.manifest_len]
    begin, end = within("chain", judge_block, area, maker.TYPES[name, "manifest"], keys_of(store, rows))
    content = area[begin:end]
    regions = within("manifest", judge_manifest, content, len(image), layout)
    need(content[4] >= floor_of(store, name), "svn-floor")
    for number, region in enumerate(regions):
        need(has_digest(region, image[region.start : region.end]), f"region-hash:{number}")
    return content


def judge_payload(body, at, regions, size):
    """Judges what stands behind the manifest in a capsule's body: its header, both maps, and the pages."""
    need(len(body) >= at + 128 and numbers(body, at, 5) == CAPSULE_CONSTANTS, "pbc-header")
    bits, payload_length = numbers(body, at + 20, 2)
    need(bits == size // PAGE, "map-bits")
    maps = at + 128
    payload = maps + bits // 8 * 2
    need(len(body) == payload + payload_length, "body-length")
    erased, copied = (restorer.pages_of(body, place, bits) for place in (maps, maps + bits // 8))
    first = min(set(copied) - set(erased), default=None)
    need(first is None, f"copy-not-erase:{first}")
    covered = {page for region in regions for page in range(region.start // PAGE, region.end // PAGE)}
    first = min(set(erased) - covered, default=None)
    need(first is None, f"page-outside:{first}")
    need(payload_length == PAGE * len(copied), "payload-length")
    judge_static(restorer.Capsule(b"", [], set(erased), copied, payload), body, regions)


def judge_static(capsule, body, regions):
    """Judges whether the pages of a capsule give each static region the bytes of its digest."""
    static = [(number, region) for number, region in enumerate(regions) if region.digest]
    pages = {number: range(region.start // PAGE, region.end // PAGE) for number, region in static}
    for number, _ in static:
        need(capsule.erased.issuperset(pages[number]), f"static-not-covered:{number}")
    for number, region in static:
        data = b"".join(restorer.page_bytes(body, capsule, page) for page in pages[number])
        need(has_digest(region, data), f"incoherent:{number}")


def judge_capsule(image, at, name, store, rows):
    """Judges the capsule of an area of a bank: gives its manifest."""
    layout, keys = restorer.layout_of(store, name), keys_of(store, rows)
    area = image[at : at + layout.area_len]
    begin, end = within("chain", judge_block, area, maker.TYPES[name, "capsule"], keys)
    body = area[begin:end]
    inner = body[: layout.manifest_len]
    begin, end = within("manifest-chain", judge_block, inner, maker.TYPES[name, "manifest"], keys)
    content = body[begin:end]
    regions = within("manifest", judge_manifest, content, len(image), layout)
    need(content[4] >= floor_of(store, name), "svn-floor")
    judge_payload(body, end, regions, len(image))
    return content
