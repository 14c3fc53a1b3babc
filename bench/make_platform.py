#!/usr/bin/env python3
"""Makes the five files of a platform, and one of all bytes that a power-on hashes.

    make_platform.py <platform> <folder>

writes <folder>/bmc, pch, nv, blank.nv, engine, power and hashed. The platform is `ordinary` (a 64 MiB BMC bank with
18 MiB of hashed regions, a 32 MiB PCH bank with 8 MiB), `capsule` (a 64 MiB BMC bank whose capsule has 16 MiB, and a
PCH bank of 1 MiB), `restore` (a 64 MiB BMC bank with 24 MiB of hashed regions, and that PCH bank), `filter` (a 4 MiB BMC bank
with 64 writable regions of a page each, and that PCH bank), `small` (two banks of 1 MiB) or `tiny` (two of 128 KiB). The
formats are those of docs/FORMATS.md.
Beside the active image each bank's recovery area holds an update capsule. The signatures are marks that protect nothing:
they are digests of the public key and the message.
"""

import hashlib
import os
import struct
import sys
from dataclasses import dataclass, field

PAGE = 4096
MIB = 1024 * 1024
STORE = 32768
CURVE = 0xC7B88C74
SIGNATURE = 0xDE64437D
ANY = 0xFFFFFFFF
BMC_TYPES = (3, 4)
PCH_TYPES = (1, 2)


@dataclass
class Key:
    """A public key on the curve of 256 bits: X and Y of 48 bytes each."""

    x: bytes
    y: bytes
    id: int = ANY
    permissions: int = ANY


@dataclass
class Region:
    start: int
    end: int
    mask: int
    hash: str  # "none", "sha256" or "sha384"
    pages: str  # what its pages are in a capsule: "copy", "erase" or "keep"


@dataclass
class Bank:
    """A bank: its layout, its manifest's numbers, its regions, and the part of it that isn't 0xFF."""

    size: int
    svn: int
    manifest_len: int
    recovery_at: int
    staging_at: int
    area_len: int
    regions: list[Region]
    filled: tuple[int, int]
    rules: list[tuple[int, int, bytes]] = field(default_factory=list)
    manifest_at: int = 0


ROOT = Key(b"\x11" * 48, b"\x22" * 48)
MANIFEST_KEY = Key(b"\x33" * 48, b"\x44" * 48, 5, 15)
CAPSULE_KEY = Key(b"\x55" * 48, b"\x66" * 48, 6, 15)
ONE_RULE = [(1, 0x2E, b"\0\0\1\0\1" + bytes(27))]


def sha256(data):
    return hashlib.sha256(data).digest()


def sha384(data):
    return hashlib.sha384(data).digest()


def blank(count):
    return b"\xff" * count


def up_to(data, count):
    """The data, and 0xFF behind it up to a length."""
    if len(data) > count:
        sys.exit(f"{len(data)} bytes do not fit an area of {count}")
    return data + blank(count - len(data))


def sign(key, message, rows):
    """The mark of a message under a key: its two halves. Adds the engine's row for it."""
    digest = sha256(message)
    r, s = (sha384(bytes([first]) + key.x + key.y + digest) for first in (0x52, 0x53))
    words = (struct.pack(">I", CURVE), key.x, key.y, digest, r, s)
    rows.append(" ".join(word.hex() for word in words) + "\n")
    return r + s


def signed(content, kind, key, rows):
    """The content behind a signature block of form 1, signed by a key that the root signs."""
    block0 = struct.pack("<4I", 0xB6EAFD19, len(content), kind, 0) + sha256(content) + sha384(content) + bytes(32)
    root = struct.pack("<4I", 0xA757A046, CURVE, ANY, ANY) + ROOT.x + ROOT.y + bytes(20)
    of_key = struct.pack("<3I", CURVE, key.permissions, key.id) + key.x + key.y + bytes(20)
    key_mark = sign(ROOT, of_key, rows)
    block_mark = sign(key, block0, rows)
    block = block0 + struct.pack("<I", 0xF27F28D7) + bytes(12) + root
    block += struct.pack("<I", 0x14711C2F) + of_key + struct.pack("<I", SIGNATURE) + key_mark
    block += struct.pack("<2I", 0x15364367, SIGNATURE) + block_mark
    return block + bytes(1024 - len(block)) + content


def manifest_of(bank, image):
    """The manifest: a header, the regions with their digests, the rules, and 0xFF up to a multiple of 128."""
    entries = b""
    for region in bank.regions:
        info = ("none", "sha256", "sha384").index(region.hash)
        content = image[region.start : region.end]
        digest = (b"", sha256(content), sha384(content))[info] if info else b""
        entries += struct.pack("<BBH4x2I", 1, region.mask, info, region.start, region.end) + digest
    for bus, address, commands in bank.rules:
        entries += struct.pack("<B4x3B", 2, bus, 0, address) + commands
    length = -(-(32 + len(entries)) // 128) * 128
    header = struct.pack("<I2B2s4x16xI", 0x02B3CE1D, bank.svn, 1, b"\1\0", length)
    return up_to(header + entries, length)


def capsule_body(bank, image, signed_manifest):
    """The body of an update capsule: signed manifest, header, the maps of erased and copied pages, and the copied pages."""
    pages = bank.size // PAGE
    erased, copied, payload = bytearray(pages // 8), bytearray(pages // 8), []
    for region in bank.regions:
        for page in range(region.start // PAGE, region.end // PAGE):
            bit = 1 << (7 - page % 8)
            if region.pages != "keep":
                erased[page // 8] |= bit
            if region.pages == "copy":
                copied[page // 8] |= bit
                payload.append(image[page * PAGE : (page + 1) * PAGE])
    payload = b"".join(payload)
    header = struct.pack("<7I", 0x5F504243, 2, PAGE, 1, 0xFF, pages, len(payload)) + bytes(100)
    return signed_manifest + header + bytes(erased) + bytes(copied) + payload


def make_bank(bank, kinds):
    """A bank's image, the rows of its signatures, and the bytes of it that a power-on hashes for the digests of regions."""
    begin, end = bank.filled
    filled = (bytes(range(251)) * ((end + 250) // 251))[begin:end]
    image = blank(begin) + filled + blank(bank.size - end)
    rows = []
    manifest = signed(manifest_of(bank, image), kinds[0], MANIFEST_KEY, rows)
    capsule = signed(capsule_body(bank, image, manifest), kinds[1], CAPSULE_KEY, rows)
    hashed = b"".join(image[it.start : it.end] for it in bank.regions if it.hash != "none")
    image = bytearray(image)
    for at, count, content in (
        (bank.manifest_at, bank.manifest_len, manifest),
        (bank.recovery_at, bank.area_len, capsule),
        (bank.staging_at, bank.area_len, b""),
    ):
        image[at : at + count] = up_to(content, count)
    return bytes(image), "".join(rows), hashed + manifest[1024:]


def layout_of(bank):
    return struct.pack("<5I", bank.manifest_at, bank.manifest_len, bank.recovery_at, bank.staging_at, bank.area_len)


def store_of(bmc, pch):
    """A store of profile 2 that is provisioned by its first slot, with no floor and nothing cancelled."""
    store = bytearray(blank(STORE))
    slot = sha256(ROOT.x + ROOT.y) + layout_of(bmc) + layout_of(pch)
    store[: len(slot)] = slot
    store[255] = store[0xA00] = 0
    return bytes(store)


def ordinary():
    def static(first, count, size):
        return [Region(first + k * size, first + (k + 1) * size, 1, "sha256", "copy") for k in range(count)]

    def dynamic(first, count, size):
        return [Region(first + k * size, first + (k + 1) * size, 0x0B, "none", "erase") for k in range(count)]

    bmc = Bank(
        size=64 * MIB,
        svn=12,
        manifest_len=0x10000,
        recovery_at=20 * MIB,
        staging_at=42 * MIB,
        area_len=22 * MIB,
        regions=static(MIB, 6, 3 * MIB) + dynamic(19 * MIB, 2, MIB // 2),
        filled=(MIB, 19 * MIB),
    )
    pch = Bank(
        size=32 * MIB,
        svn=7,
        manifest_len=0x10000,
        recovery_at=12 * MIB,
        staging_at=22 * MIB,
        area_len=10 * MIB,
        regions=static(MIB, 4, 2 * MIB) + dynamic(9 * MIB, 4, MIB // 2),
        filled=(MIB, 9 * MIB),
    )
    return bmc, pch


def capsule():
    """A BMC whose capsule has 16 MiB with its block: 4,094 pages of four hashed regions."""
    starts = [MIB + 4 * MIB * k for k in range(5)]
    regions = [Region(start, end, 1, "sha256", "copy") for start, end in zip(starts, starts[1:])]
    regions[3].end -= 2 * PAGE
    bmc = Bank(
        size=64 * MIB,
        svn=12,
        manifest_len=0x10000,
        recovery_at=20 * MIB,
        staging_at=42 * MIB,
        area_len=22 * MIB,
        regions=regions,
        filled=(MIB, 17 * MIB),
    )
    return bmc, small()[1]


def restore():
    """A BMC with 24 MiB of hashed regions behind its manifest area. Its capsule brings 19 MiB of them, for two areas with
    room for all 24 don't fit the bank beside them; the first 5 MiB are blank, so they are erased alone."""
    starts = [0x10000 + MIB * k for k in range(24)]
    bmc = Bank(
        size=64 * MIB,
        svn=12,
        manifest_len=0x10000,
        recovery_at=25 * MIB,
        staging_at=25 * MIB + 39 * MIB // 2,
        area_len=39 * MIB // 2,
        regions=[Region(at, at + MIB, 1, "sha256", "copy" if k >= 5 else "erase") for k, at in enumerate(starts)],
        filled=(starts[5], starts[-1] + MIB),
    )
    return bmc, small()[1]


def filtered():
    """A BMC with as many regions as a manifest can have, each of one page that may be written, one behind another."""
    bmc = Bank(
        size=4 * MIB,
        svn=12,
        manifest_len=0x2000,
        recovery_at=2 * MIB,
        staging_at=3 * MIB,
        area_len=MIB,
        regions=[Region(MIB + PAGE * k, MIB + PAGE * (k + 1), 3, "none", "keep") for k in range(64)],
        filled=(0, 0),
    )
    return bmc, small()[1]


def small():
    bank = Bank(
        size=MIB,
        svn=3,
        manifest_len=0x2000,
        recovery_at=0x40000,
        staging_at=0x80000,
        area_len=0x40000,
        regions=[
            Region(0x10000, 0x20000, 1, "sha256", "copy"),
            Region(0x20000, 0x22000, 0x0B, "none", "copy"),
            Region(0x22000, 0x28000, 0x0B, "none", "erase"),
        ],
        filled=(0x10000, 0x22000),
        rules=ONE_RULE,
    )
    return bank, bank


def tiny():
    bank = Bank(
        size=0x20000,
        svn=3,
        manifest_len=0x2000,
        recovery_at=0x8000,
        staging_at=0x10000,
        area_len=0x8000,
        regions=[
            Region(0x2000, 0x4000, 1, "sha256", "copy"),
            Region(0x4000, 0x5000, 1, "sha384", "copy"),
            Region(0x5000, 0x6000, 0x0B, "none", "erase"),
        ],
        filled=(0x2000, 0x5000),
        rules=ONE_RULE,
    )
    return bank, bank


PLATFORMS = {
    "ordinary": ordinary,
    "capsule": capsule,
    "restore": restore,
    "filter": filtered,
    "small": small,
    "tiny": tiny,
}


def main():
    if len(sys.argv) != 3 or sys.argv[1] not in PLATFORMS:
        sys.exit(f"usage: make_platform.py {'|'.join(PLATFORMS)} <folder>")
    bmc, pch = PLATFORMS[sys.argv[1]]()
    folder = sys.argv[2]
    os.makedirs(folder, exist_ok=True)
    bmc_image, bmc_rows, bmc_hashed = make_bank(bmc, BMC_TYPES)
    pch_image, pch_rows, pch_hashed = make_bank(pch, PCH_TYPES)
    files = {
        "bmc": bmc_image,
        "pch": pch_image,
        "nv": store_of(bmc, pch),
        "blank.nv": blank(STORE),
        "engine": (bmc_rows + pch_rows).encode(),
        "power": b"power\n",
        "hashed": bmc_hashed + pch_hashed,
    }
    for name, content in files.items():
        with open(os.path.join(folder, name), "wb") as file:
            file.write(content)


if __name__ == "__main__":
    main()
