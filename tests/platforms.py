"""The platforms that cases begin with, tiny, small and wide, and what differs in them: made by maker.py."""

from __future__ import annotations

import functools

import maker
from case_reader import CaseFault

KEYS = {"manifest_key": (5, "33", "44"), "capsule_key": (6, "55", "66")}
SMALL = {
    "size": 0x100000,
    "layout": (0, 0x2000, 0x40000, 0x80000, 0x40000),
    "filled": (0x10000, 0x22000),
    "regions": "0x10000-0x20000:1:sha256:copy,0x20000-0x22000:11:none:copy,0x22000-0x28000:11:none:erase",
}
TINY = {
    "size": 0x20000,
    "layout": (0, 0x2000, 0x8000, 0x10000, 0x8000),
    "filled": (0x2000, 0x5000),
    "regions": "0x2000-0x4000:1:sha256:copy,0x4000-0x5000:1:sha384:copy,0x5000-0x6000:11:none:erase",
}
# As many regions as a manifest may have, of a page each and every second page.
WIDE = {
    "size": 0x400000,
    "layout": (0, 0x2000, 0x40000, 0x80000, 0x40000),
    "filled": (0x100000, 0x180000),
    "regions": "0x100000-0x180000/0x1000/0x2000",
}
# A 64 MiB BMC and a 32 MiB PCH of eight regions each, of which 18 MiB and 8 MiB have digests.
DAY_BMC = {
    "size": 0x4000000,
    "layout": (0, 0x10000, 0x100000, 0x1700000, 0x1600000),
    "filled": (0x2D00000, 0x3F00000),
    "regions": "0x2d00000-0x3100000:1:sha256:copy,0x3100000-0x3500000:1:sha384:copy,0x3500000-0x3900000:1:sha256:copy,"
    "0x3900000-0x3d00000:1:sha256:copy,0x3d00000-0x3f00000:1:sha256:copy,0x3f00000-0x3f40000:11:none:erase,"
    "0x3f40000-0x3f80000:19:none:erase,0x3f80000-0x4000000:3:none:keep",
}
DAY_PCH = {
    "size": 0x2000000,
    "layout": (0, 0x10000, 0x100000, 0xB00000, 0xA00000),
    "filled": (0x1600000, 0x1E00000),
    "regions": "0x1600000-0x1800000:1:sha256:copy,0x1800000-0x1a00000:1:sha256:copy,0x1a00000-0x1c00000:1:sha256:copy,"
    "0x1c00000-0x1d00000:1:sha256:copy,0x1d00000-0x1e00000:1:sha384:copy,0x1e00000-0x1e40000:11:none:erase,"
    "0x1e40000-0x1e80000:19:none:erase,0x1e80000-0x2000000:3:none:keep",
}
# What the BMC's bank is like, and the PCH's.
PLATFORMS = {"small": (SMALL, SMALL), "tiny": (TINY, TINY), "wide": (WIDE, TINY), "day": (DAY_BMC, DAY_PCH)}
PERIOD = 251
# What a part of a bank is made with in place of what is right; the bank's name stands before it, or the BMC is meant.
PARTS = ("active", "active_block", "inner", "inner_block", "capsule", "capsule_block")


def regions_of(text):
    """The regions of a list: `start-end:mask:hash:pages`, or `start-end/length/apart` for as many as there is room for."""
    regions = []
    for each in text.split(",") if text else []:
        span, _, rest = each.partition(":")
        mask, kind, pages = rest.split(":") if rest else ("11", "none", "keep")
        span, *steps = span.split("/")
        first, last = (int(word, 0) for word in span.split("-"))
        length = int(steps[0], 0) if steps else last - first
        starts = range(first, last, int(steps[-1], 0)) if steps else [first]
        regions += [
            {"start": at, "end": at + length, "mask": int(mask, 0), "hash": kind, "pages": pages} for at in starts
        ]
    return regions


def counted(begin, end):
    """The bytes of a filled part of an image: byte i is i modulo 251."""
    first = begin % PERIOD
    return (bytes(range(PERIOD)) * ((end - begin) // PERIOD + 2))[first : first + end - begin]


def shifted(image, more):
    """The image with another filling: each of its bytes so many more, modulo 251."""
    return image.translate(bytes((byte + more) % PERIOD for byte in range(PERIOD)) + bytes(range(PERIOD, 256)))


def bank_of(shape):
    """A bank of a platform's shape, as a description has it."""
    begin, end = shape["filled"]
    size = shape["size"]
    image = maker.blank(begin) + counted(begin, end) + maker.blank(size - end)
    bank = {"image": image, "size": size, "svn": 3, "bkc": 1, "revision": "0100", "oem": "00" * 16}
    bank.update(zip(maker.LAYOUT, shape["layout"]))
    for name, (key_id, x, y) in KEYS.items():
        bank[name] = {"id": key_id, "permissions": 15, "x": x * 48, "y": y * 48}
    bank["regions"] = regions_of(shape["regions"])
    bank["smbus"] = [{"bus": 1, "rule": 0, "address": 0x2E, "commands": "0000010001" + "00" * 27}]
    return bank


def description_of(name):
    if name not in PLATFORMS:
        raise CaseFault(f"no platform {name}")
    bmc, pch = PLATFORMS[name]
    root = {"x": "11" * 48, "y": "22" * 48}
    return {"curve": 256, "form": 1, "root": root, "bmc": bank_of(bmc), "pch": bank_of(pch)}


def spans_of(text):
    """The numbers of a list as `2,4-6`."""
    spans = [[int(word) for word in span.split("-")] for span in text.split(",") if span]
    return [number for span in spans for number in range(span[0], span[-1] + 1)]


def value_of(text):
    """What an option gives: bytes behind `hex:`, numbers of pages behind `pages:`, or a number."""
    kind, _, rest = text.rpartition(":")
    if kind == "hex":
        return bytes.fromhex(rest)
    return spans_of(rest) if kind == "pages" else int(text, 0)


def set_option(description, parts, path, text):
    """Takes one option: a key of the description, or a field of a part that is made."""
    names = path.split(".")
    bank = names.pop(0) if names[0] in maker.BANKS else None
    if names[0] in PARTS:
        parts[bank or "bmc"][names[0]][names[1]] = value_of(text)
        return
    table = description[bank] if bank else description
    for name in names[:-1]:
        table = table[int(name) if name.isdigit() else name]
    if names[-1] == "regions":
        table["regions"] = regions_of(text)
    elif names[-1] == "smbus":
        table["smbus"] = [dict(rule) for rule in table["smbus"] * int(text)]
    elif names[-1] == "shift":
        table["image"] = shifted(table["image"], int(text))
    elif names[-1] == "commands":
        table["commands"] = text.ljust(64, "0")
    elif names[-1] in ("x", "y", "revision", "oem", "pages"):
        table[names[-1]] = text
    else:
        table[names[-1]] = int(text, 0)


def whole(fields, make):
    """A content that is made of fields. `keep` of them is how many of its bytes are kept, `turned` a byte that is turned."""
    fields = dict(fields)
    keep, turned = fields.pop("keep", None), fields.pop("turned", None)
    content = make(fields)
    return (content if turned is None else maker.flip(content, turned, 0xFF))[:keep]


def made_bank(description, name, parts, staged, engine):
    """A bank's image and capsule, of which some parts are made with other fields. What the image alone has is signed first."""
    bank = description[name]
    keys = {kind: maker.keys_of(description, name, kind) for kind in ("manifest", "capsule")}

    def manifest(which):
        content = whole(parts[which], lambda fields: maker.manifest_bytes(bank, **fields))
        return maker.signed(content, *keys["manifest"], engine, **parts[which + "_block"])

    active = manifest("active")
    differs = any(parts[which] for which in ("active", "active_block", "inner", "inner_block"))
    inner = manifest("inner") if differs else active
    body = whole(parts["capsule"], lambda fields: maker.capsule_body(bank, inner, **fields))
    capsule = maker.signed(body, *keys["capsule"], engine, **parts["capsule_block"])
    staged = capsule if staged == "own" else staged
    return maker.bank_image(bank, active, capsule, staged), capsule


@functools.lru_cache(maxsize=64)
def made_platform(name, options, staged):
    """The files of a platform by name, of these options, and with this staged for the BMC: nothing, `own`, or bytes."""
    description = description_of(name)
    parts = {bank: {part: {} for part in PARTS} for bank in maker.BANKS}
    for option in options:
        path, _, text = option.partition("=")
        try:
            set_option(description, parts, path, text)
        except (KeyError, ValueError, IndexError) as error:
            raise CaseFault(f"option {option}: {error!r}") from None
    engine, files = maker.Engine(), {}
    for bank in maker.BANKS:
        image, capsule = made_bank(description, bank, parts[bank], staged if bank == "bmc" else b"", engine)
        files.update({bank: image, bank + ".capsule": capsule})
    files.update(nv=maker.provision(description), engine=engine.text(), script=b"power\n")
    return files


def made_certificate(bank, part, key_id, options):
    """A certificate by the platforms' root, and its row. Options: `form`, `curve`, `body`, bytes of the body from its begin on, and fields of the block."""
    given = dict(option.split("=", 1) for option in options)
    form, curve = int(given.pop("form", "1")), int(given.pop("curve", "256"))
    body = maker.certificate_body(key_id)
    body = maker.place(body, 0, bytes.fromhex(given.pop("body"))) if "body" in given else body
    engine, root = maker.Engine(), maker.key_of(description_of("tiny")["root"])
    fields = {name: value_of(text) for name, text in given.items()}
    kind = maker.CANCELS + maker.TYPES[bank, part]
    return maker.signed(body, kind, root, None, form, curve, engine, **fields), engine.text()
