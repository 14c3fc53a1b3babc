"""Scripts of frames that nobody wrote down: sweeps over all opcodes, pages, lengths and commands, and drawn ones.

A drawn script is fixed by its number. foreseer.py plays it while it is drawn, so that power comes back where no bank runs; one
that goes beyond what the model foresees is drawn anew.
"""

from __future__ import annotations

import random
from collections import namedtuple

import foreseer
import framer
import maker
import restorer
from maker import PAGE
from platforms import made_platform

SEED = "frames 1"
SMALL_OPTIONS = (
    (),
    ("bmc.staging_at=0x88000", "bmc.regions=0x80000-0x88000:2:none:keep,0xc8000-0xd8000:3:none:erase"),
    ("bmc.regions=0x10000-0x20000:1:sha384:copy,0x20000-0x3f000:3:none:keep,0x3f000-0x40000:1:none:keep", "bmc.smbus=3"),
)
# Where a bank ends, what begins or ends in it, what can be written, and its rules.
Shape = namedtuple("Shape", "size edges pages blocks rules")


# ---- platforms


def drawn_platform(rng):
    """The files of a platform: small, wide, or of a description that is drawn."""
    kind = rng.randrange(10)
    if kind < 3:
        return made_platform("small", rng.choice(SMALL_OPTIONS), rng.choice((b"", "own")))
    if kind < 5:
        return made_platform("wide", (), b"")
    description = maker.random_description(rng)
    files = {name: content for name, content in maker.make(description).items() if "." not in name}
    return dict(files, nv=maker.provision(description))


def shape_of(image, store, name):
    """What there is in a bank."""
    layout = restorer.layout_of(store, name)
    manifest = framer.active_manifest(image, layout)
    seat = framer.Seat("running", manifest, layout)
    areas = [(layout.manifest_at, layout.manifest_len), (layout.recovery_at, layout.area_len), (layout.staging_at, layout.area_len)]
    edges = {at for begin, count in areas for at in (begin, begin + count)} | {0, len(image)}
    edges |= {at for region in manifest.regions for at in (region.start, region.end)}
    pages = [page for page in range(len(image) // PAGE) if framer.is_writable(seat, page)]
    blocks = [page for page in pages if page % 16 == 0 and set(range(page, page + 16)) <= set(pages)]
    return Shape(len(image), sorted(edges), pages, blocks, manifest.rules)


def with_faulty_bit(rng, image, store, name):
    """The image with a bit of a region turned over that has a hash, where there is one."""
    manifest = framer.active_manifest(image, restorer.layout_of(store, name))
    static = [region for region in manifest.regions if region.hashed]
    if not static:
        return image
    region = rng.choice(static)
    return maker.flip(image, rng.randrange(region.start, region.end), 1 << rng.randrange(8))


# ---- frames that are drawn


def drawn_address(rng, shape, opcode):
    """Mostly of a page that can be written, else near an edge, or anywhere."""
    kind = rng.randrange(20)
    if kind < 11 and shape.pages:
        pages = shape.blocks if opcode == framer.BLOCK_ERASE and shape.blocks else shape.pages
        return rng.choice(pages) * PAGE + rng.choice((0, 255, 256, PAGE - 1, rng.randrange(PAGE)))
    if kind < 17:
        return max(0, rng.choice(shape.edges) + rng.choice((-PAGE, -256, -1, 0, 1, 255)))
    return rng.choice((rng.randrange(shape.size), rng.randrange(1 << 32), (1 << 32) - 1))


def drawn_data(rng):
    """1 to 256 bytes: few bits are cleared, many, all or none."""
    count = rng.choice((1, 2, 16, 255, 256, rng.randrange(1, 257)))
    return rng.choice((maker.drawn_bytes(rng, count), bytes(count), maker.blank(count), b"\xfe" * count))


def drawn_opcode(rng):
    words = (0x06, 0x02, 0x20, 0xD8, 0x03, 0x0B, 0x05, 0x9F, 0x04, 0xC7, rng.randrange(256))
    return rng.choices(words, (30, 24, 12, 9, 4, 3, 2, 2, 3, 2, 4))[0]


def drawn_frame(rng, shape):
    """A frame of the SPI bus, in one of twelve too short or with more than it needs."""
    opcode = drawn_opcode(rng)
    frame = bytes([opcode])
    if opcode not in (0x06, 0x04, 0x05, 0x9F, 0xC7):
        frame += drawn_address(rng, shape, opcode).to_bytes(4, "big")
        frame += drawn_data(rng) if opcode == framer.PROGRAM else bytes(opcode == 0x0B)
    kind = rng.randrange(24)
    if kind == 0:
        return frame[: rng.randrange(1, len(frame) + 1)]
    return frame + (maker.drawn_bytes(rng, rng.randrange(1, 262 - len(frame))) if kind == 1 and len(frame) < 261 else b"")


def drawn_smbus_frame(rng, shape):
    """A frame of the SMBus, mostly by one of the rules, or nearly."""
    frame = maker.drawn_bytes(rng, 3)
    if shape.rules and rng.randrange(8):
        rule = rng.choice(shape.rules)
        allowed = [command for command in range(256) if rule.commands[command // 8] >> command % 8 & 1]
        command = rng.choice(allowed) if allowed and rng.randrange(3) else rng.randrange(256)
        frame = bytes([rule.bus, rng.choice((rule.address, rule.address, rule.address % 128)), command])
    return rng.choice((frame, frame, frame, frame[: rng.randrange(1, 4)], frame + maker.drawn_bytes(rng, rng.randrange(33))))


# ---- items that are drawn


def drawn_tear(rng):
    count = rng.choice((0, 1, 8, 256, 300, PAGE))
    tear = rng.choice((maker.drawn_bytes(rng, count), bytes(count), b"\x5a" * count))
    return tear.hex() or "-"


def drawn_arm(rng):
    """A cut or a fault, mostly of one of the next operations."""
    nth = rng.choice((1, 1, 2, 3, 16, rng.randrange(1, 20), rng.randrange(1, 400)))
    device = rng.choice(("bmc", "bmc", "pch", "pch", "nv"))
    if not rng.randrange(8):
        return f"readfault {device} 1"
    return f"{rng.choice(('cut', 'fault'))} {device} {nth} {drawn_tear(rng)}"


def drawn_item(rng, platform, shapes, slot):
    """The next item of a script, by what runs then."""
    if all(seat.line != "running" for seat in platform.seats.values()) and rng.randrange(3):
        return "power"
    kind = rng.randrange(100)
    name = rng.choice(("bmc", "bmc", "pch"))
    if kind < 78:
        enabled = platform.seats[name].latch or rng.randrange(2)
        return f"spi {name} {drawn_frame(rng, shapes[name]).hex() if enabled else '06'}"
    if kind < 90:
        return f"smbus {name} {drawn_smbus_frame(rng, shapes[name]).hex()}"
    if kind < 96:
        return drawn_arm(rng)
    return "power" if kind < 98 else rng.choice(("off", f"provision {slot.hex()}"))


def faulty(rng, files):
    """The files with a faulty bit in a bank, which is restored then, and an item that may meet the restore."""
    name = rng.choice(maker.BANKS)
    arm = f"{rng.choice(('cut', 'fault'))} {name} {rng.randrange(1, 300)} {drawn_tear(rng)}"
    return dict(files, **{name: with_faulty_bit(rng, files[name], files["nv"], name)}), rng.choice(([], [arm]))


def drawn_script(rng):
    """The files of a platform, and a script over them that the model foresees."""
    files, lines = drawn_platform(rng), []
    shapes = {name: shape_of(files[name], files["nv"], name) for name in maker.BANKS}
    if not rng.randrange(4):
        files, lines = faulty(rng, files)
    platform = foreseer.platform_of(files)
    for line in lines:
        platform.take(line)
    for _ in range(rng.choice((20, 60, 200))):
        lines.append(drawn_item(rng, platform, shapes, files["nv"][:72]))
        platform.take(lines[-1])
    return dict(files, script="".join(line + "\n" for line in lines).encode())


def drawn_files(number):
    """The files of the drawn script of a number."""
    rng = random.Random(f"{SEED} {number}")
    while True:
        try:
            return drawn_script(rng)
        except foreseer.Unforeseen:
            continue


# ---- sweeps, over the platform small


def with_latch(frame):
    return [b"\x06", frame]


def opcodes():
    """Every opcode with one to seven bytes, with the latch off and on."""
    frames = []
    for opcode in range(256):
        for count in range(1, 8):
            frame = bytes([opcode, 0, 2, 0x21, opcode, 0x5A, 0xA5])[:count]
            frames += [b"\x04", frame, b"\x06", frame]
    return "spi", frames


def pages():
    """Writes at both ends of every page, and of the first page behind the bank."""
    frames = []
    for page in range(257):
        for at in (page * PAGE, page * PAGE + PAGE - 1):
            place = at.to_bytes(4, "big")
            frames += with_latch(b"\x02" + place + b"\x0f\xf0") + with_latch(b"\x20" + place)
            frames += with_latch(b"\x02" + place + b"\xa5\x5a") + with_latch(b"\x03" + place)
    return "spi", frames


def blocks():
    """Block erases at both ends of every block, behind a program in each of its pages."""
    frames = []
    for page in range(256):
        frames += with_latch(b"\x02" + (page * PAGE + 77).to_bytes(4, "big") + b"\x00\x00")
    for block in range(17):
        for at in (block << 16, (block << 16) + 0xFFFF):
            frames += with_latch(b"\xd8" + at.to_bytes(4, "big"))
    return "spi", frames


def offsets():
    """Programs from every place of a page on, each in a page of its own: of one byte, up to the page's end, over it, and of 256."""
    frames = []
    for offset in range(256):
        for turn, count in enumerate((1, 256 - offset, 257 - offset, 256)):
            at = 0x80000 + 1024 * offset + 256 * turn + offset
            frames += with_latch(b"\x02" + at.to_bytes(4, "big") + bytes(range(256))[:count])
    return "spi", frames


def lengths():
    """Frames of 1 to 261 bytes, of each opcode that needs something."""
    frames = []
    for opcode in sorted(framer.OPCODES):
        for count in range(1, 262):
            frames += with_latch((bytes([opcode, 0, 2, 0x30, 0x80]) + bytes(range(256, 0, -1)[1:]) + b"\0")[:count])
    return "spi", frames


def commands():
    """Every command by the rule, and a command at every address of four buses."""
    frames = [bytes([1, 0x2E, command]) for command in range(256)]
    frames += [bytes([bus, address, command]) for bus in range(4) for address in range(256) for command in (0x10, 0x11)]
    return "smbus", frames + [bytes([1, 0x2E, 0x10] * 12)[:count] for count in range(1, 36)]


SWEEPS = {each.__name__: each for each in (opcodes, pages, blocks, offsets, lengths, commands)}


def sweep_script(name):
    """A script that is begun with a power-on, and then gives the BMC each frame of a sweep."""
    word, frames = SWEEPS[name]()
    return b"power\n" + b"".join(f"{word} bmc {frame.hex()}\n".encode() for frame in frames)
