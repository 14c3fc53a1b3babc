"""What a restore and an update make of a bank, after docs/FORMATS.md alone: apart from the program, for what cases want.

What is done with a bank is told by a word: `1` to `3` for a restore at that level, `active` and `full` for an update.
"""

from __future__ import annotations

import struct
from collections import namedtuple

import maker
from maker import PAGE

PIECE = 256
HASH_SIZES = {0: 0, 1: 32, 2: 48}
FORM2_MAGIC = 0xB6EAFD1A
FORM1_BLOCK = 1024
HEADER_LENGTH = 128
LAYOUTS_AT = {"bmc": 32, "pch": 52}
UPDATES = ("active", "full")

Layout = namedtuple("Layout", maker.LAYOUT)
Region = namedtuple("Region", "mask hashed start end")
Capsule = namedtuple("Capsule", "signed_manifest regions erased copied payload")


def numbers(data, at, count):
    return struct.unpack_from("<%dI" % count, data, at)


def layout_of(store, bank):
    """The bank's layout of the first slot whose gate is set."""
    for slot in range(0, 2048, PIECE):
        if store[slot + 255] != 0xFF:
            return Layout(*numbers(store, slot + LAYOUTS_AT[bank], 5))
    raise ValueError("the store isn't provisioned")


def block_length(data, at):
    """How many bytes the signature block at a place has."""
    magic, _, _, length = numbers(data, at, 4)
    return length if magic == FORM2_MAGIC else FORM1_BLOCK


def content_of(data, at):
    """Where the content of the signed bytes at a place begins and ends."""
    begin = at + block_length(data, at)
    return begin, begin + numbers(data, at + 4, 1)[0]


def regions_of(manifest):
    """The regions of a manifest, which stand in front of its SMBus rules."""
    regions, at = [], 32
    while at < len(manifest) and manifest[at] == 1:
        mask, info = struct.unpack_from("<BH", manifest, at + 1)
        start, end = numbers(manifest, at + 8, 2)
        regions.append(Region(mask, info != 0, start, end))
        at += 16 + HASH_SIZES[info]
    return regions


def pages_of(image, at, bits):
    """The pages whose bits a map has set, the highest bit of a byte first."""
    return [page for page in range(bits) if image[at + page // 8] >> (7 - page % 8) & 1]


def capsule_at(image, place):
    """The capsule that stands at a place of an image, which is well formed."""
    body, _ = content_of(image, place)
    begin, end = content_of(image, body)
    bits = numbers(image, end + 20, 1)[0]
    maps = end + HEADER_LENGTH
    copied_at = maps + bits // 8
    payload = copied_at + bits // 8
    erased, copied = pages_of(image, maps, bits), pages_of(image, copied_at, bits)
    return Capsule(image[body:end], regions_of(image[begin:end]), set(erased), copied, payload)


def page_bytes(image, capsule, page):
    """What the capsule gives for a page that it doesn't keep."""
    if page not in capsule.copied:
        return maker.blank(PAGE)
    at = capsule.payload + PAGE * capsule.copied.index(page)
    return image[at : at + PAGE]


def source_of(layout, work):
    """The area whose capsule is copied."""
    return layout.staging_at if work in UPDATES else layout.recovery_at


def is_written(region, work):
    """Whether a region's pages are among those that are written: one with a hash always, others by their mask or by the intent."""
    if region.hashed or work in UPDATES:
        return region.hashed or work == "full"
    return region.mask >> (int(work) + 1) & 1


def new_pages(image, layout, work):
    """The pages that are written, in rising order, and what each is to hold."""
    capsule = capsule_at(image, source_of(layout, work))
    text = maker.up_to(capsule.signed_manifest, layout.manifest_len)
    pages = {(layout.manifest_at + at) // PAGE: text[at : at + PAGE] for at in range(0, layout.manifest_len, PAGE)}
    for region in capsule.regions:
        if is_written(region, work):
            taken = set(range(region.start // PAGE, region.end // PAGE)) & capsule.erased
            pages.update({page: page_bytes(image, capsule, page) for page in taken})
    return sorted(pages.items())


def operations(page, content):
    """How a page is written: it is erased, and each of its pieces is programmed that isn't all 0xFF."""
    done = [(PAGE * page, None)]
    for at in range(0, PAGE, PIECE):
        piece = content[at : at + PIECE]
        done += [(PAGE * page + at, piece)] if piece != maker.blank(PIECE) else []
    return done


def done_to(image, at, piece):
    """The image once an operation is done: an erase where it has no bytes, or a program of these."""
    if piece is None:
        return maker.place(image, at, maker.blank(PAGE))
    old, new = (int.from_bytes(part, "little") for part in (image[at : at + len(piece)], piece))
    return maker.place(image, at, (old & new).to_bytes(len(piece), "little"))


def torn_to(image, at, piece, tear):
    """The image once an operation is torn."""
    if piece is None:
        return maker.place(image, at, maker.up_to(tear, PAGE)[:PAGE])
    tear = maker.up_to(tear, len(piece))[: len(piece)]
    return done_to(image, at, bytes(a | b for a, b in zip(piece, tear)))


def strokes(image, store, bank, work="1"):
    """The operations of a restore or an update, in order."""
    written = new_pages(image, layout_of(store, bank), work)
    return [operation for page, content in written for operation in operations(page, content)]


def restored(image, store, bank, work="1"):
    """The image as a whole restore or update leaves it."""
    for at, piece in strokes(image, store, bank, work):
        image = done_to(image, at, piece)
    return image


def cut_restore(image, store, bank, nth, tear, work="1"):
    """The image where the nth operation of it was torn, and the last that was done."""
    begun = strokes(image, store, bank, work)[:nth]
    for at, piece in begun[:-1]:
        image = done_to(image, at, piece)
    return torn_to(image, *begun[-1], tear)
