"""Scripts of days that nobody wrote down: boots, ticks, updates and frames, cuts and faults, over drawn platforms.

A drawn script is fixed by its number. foreseer.py plays it while it is drawn, so that ticks come near to what is left of a stage,
and power comes back where no bank runs; one that goes beyond what the model foresees is drawn anew.
"""

from __future__ import annotations

import random

import foreseer
import frame_scripts
import framer
import maker
import restorer
from maker import PAGE
from platforms import made_platform
from watcher import STAGES

SEED = "days 1"
# Other versions of the platforms, by what differs in a bank.
VERSIONS = {
    "small": (
        ("svn=4", "shift=7"),
        ("svn=0", "shift=200"),
        ("svn=3", "shift=1", "regions.1.mask=1", "regions.2.pages=copy"),
        ("svn=2", "shift=90", "regions=0x18000-0x20000:1:sha384:copy,0x20000-0x28000:31:none:copy,0x30000-0x38000:3:none:keep"),
        ("svn=127", "regions=", "smbus=0"),
    ),
    "tiny": (
        ("svn=4", "shift=7"),
        ("svn=1", "shift=77"),
        ("svn=5", "shift=30", "regions.2.mask=31"),
        ("svn=2", "regions=0x2000-0x3000:1:sha256:erase,0x3000-0x6000:31:none:copy,0x6000-0x7000:3:none:erase", "smbus=3"),
    ),
    "wide": (
        ("svn=4", "shift=7"),
        ("svn=2", "regions.2.mask=31", "regions.2.pages=erase"),
    ),
}
# What makes a capsule bad that is signed well.
FAULTS = (
    "capsule.extra=hex:00",
    "capsule.map_bits=1",
    "capsule.erased=pages:2-3",
    "capsule.magic=0",
    "capsule_block.key_permissions=0",
    "inner_block.type=2",
    "inner.magic=0",
    "inner.svn=128",
)
# How often an item of each kind is drawn.
KINDS = {"tick": 24, "boot": 18, "update": 22, "spi": 18, "smbus": 3, "arm": 8, "power": 5, "off": 1, "provision": 1}


# ---- platforms


def prefixed(name, options):
    return tuple(f"{name}.{option}" for option in options)


def known_platform(rng):
    """The small, the tiny or the wide platform, and capsules for both banks: of other versions, and badly formed."""
    kind = rng.choice(("small", "small", "tiny", "tiny", "tiny", "wide"))
    masks = [rng.choice(((), (f"{name}.regions.2.mask={rng.randrange(256)}",))) for name in maker.BANKS]
    files = dict(made_platform(kind, sum(masks, ()), b""))
    capsules = {name: [files[name + ".capsule"]] for name in maker.BANKS}
    for _ in range(2):
        name = rng.choice(maker.BANKS)
        options = prefixed(name, rng.choice(VERSIONS[kind])) + prefixed(name, rng.choice(((), (), (rng.choice(FAULTS),))))
        other = made_platform(kind, options, b"")
        files["engine"] += other["engine"]
        capsules[name].append(other[name + ".capsule"])
    return files, capsules


def other_version(rng, bank):
    """A bank's description with another image and version; its regions are of other kinds."""
    other = dict(bank, image=maker.drawn_image(rng, bank["size"]), svn=rng.randrange(128))
    other["regions"] = [dict(region) for region in bank["regions"] if rng.randrange(6)]
    for region in other["regions"]:
        region["mask"] = region["mask"] if region["hash"] != "none" else rng.randrange(256)
        region["pages"] = rng.choice(("copy", "erase"))
    return maker.shortened(rng, other)


def described_platform(rng):
    """A platform of a description that is drawn, and capsules of another version."""
    description = maker.random_description(rng)
    made = maker.make(description)
    files = dict(made, nv=maker.provision(description))
    capsules = {name: [made[name + ".capsule"]] for name in maker.BANKS}
    for name in maker.BANKS:
        engine = maker.Engine()
        other = dict(description, **{name: other_version(rng, description[name])})
        capsules[name].append(maker.make_bank(other, name, engine)[1])
        files["engine"] += engine.text()
    return files, capsules


def with_staged(rng, image, layout, capsules):
    """The image with a capsule in the staging area, which may have a faulty bit, or with none."""
    if not rng.randrange(5):
        return image
    capsule = rng.choice(capsules[-2:])
    if not rng.randrange(6):
        capsule = maker.flip(capsule, rng.choice((rng.randrange(128), rng.randrange(len(capsule)))), 1 << rng.randrange(8))
    return maker.place(image, layout.staging_at, capsule)


def with_noise(rng, image, layout):
    """The image with drawn bytes in the regions that have no hash."""
    begin, end = restorer.content_of(image, layout.manifest_at)
    for region in restorer.regions_of(image[begin:end]):
        if not region.hashed and rng.randrange(2):
            image = maker.place(image, region.start + rng.randrange(PAGE - 16), maker.drawn_bytes(rng, 16))
    return image


def drawn_platform(rng):
    """The files of a platform that has something staged, here and there with a floor or a faulty bit."""
    files, capsules = rng.choice((known_platform, known_platform, described_platform))(rng)
    files = {name: content for name, content in files.items() if "." not in name}
    for name in maker.BANKS:
        layout = restorer.layout_of(files["nv"], name)
        image = with_noise(rng, with_staged(rng, files[name], layout, capsules[name]), layout)
        if not rng.randrange(8):
            at = layout.recovery_at
            image = maker.flip(image, at + rng.randrange(len(capsules[name][0])), 1 << rng.randrange(8))
        files[name] = image
        if not rng.randrange(4):
            svn = framer.active_manifest(image, layout).svn
            files["nv"] = maker.with_floor(files["nv"], name, max(1, svn + rng.choice((-1, -1, 0, 0, 0, 0, 1))))
    return files if rng.randrange(6) else frame_scripts.faulty(rng, files)[0]


# ---- items that are drawn


def drawn_ticks(rng, platform):
    """Ticks near to what a bank has left, or any."""
    left = [watch.left for name, watch in platform.watches.items() if platform.boots(name)]
    if left and rng.randrange(4):
        return f"tick {max(1, rng.choice(left) + rng.choice((-1, -1, 0, 0, 1)))}"
    return f"tick {rng.choice((1, 499, 500, 1499, 65535, rng.randrange(1, 65536)))}"


def drawn_boot(rng, platform):
    """A boot, mostly of a bank that boots, and mostly passed: often up to its end at once."""
    booting = [name for name in maker.BANKS if platform.boots(name)] or list(maker.BANKS)
    name = rng.choice(booting if rng.randrange(6) else maker.BANKS)
    if not rng.randrange(3):
        return [f"boot {name} fail"]
    return [f"boot {name} pass"] * rng.choice((1, 1, len(STAGES[name])))


def drawn_frames(rng, platform, shapes):
    """A frame with the latch on before it, if it isn't already."""
    name = rng.choice(maker.BANKS)
    frame = f"spi {name} {frame_scripts.drawn_frame(rng, shapes[name]).hex()}"
    return [frame] if platform.seats[name].latch or not rng.randrange(4) else [f"spi {name} 06", frame]


def drawn_arm(rng, platform):
    """A cut or a fault of an operation of an update or a restore; its tear may be what stands there already."""
    if not rng.randrange(8):
        return f"readfault {rng.choice(maker.BANKS)} 1"
    name = rng.choice(maker.BANKS)
    device = platform.devices[name]
    layout = restorer.layout_of(platform.stored(), name)
    nth = rng.choice((1, 1, 2, 7, rng.randrange(1, 30), rng.randrange(1, 400)))
    tear = frame_scripts.drawn_tear(rng)
    if nth == 1 and rng.randrange(2):
        tear = bytes(device.image[layout.manifest_at : layout.manifest_at + PAGE]).hex()
    return f"{rng.choice(('cut', 'fault'))} {rng.choice((name, name, name, 'nv'))} {nth} {tear}"


def drawn_items(rng, platform, shapes, slot):
    """The next items of a script, by what runs then."""
    if not any(platform.runs(name) for name in maker.BANKS) and rng.randrange(4):
        return ["power"]
    kind = rng.choices(list(KINDS), KINDS.values())[0]
    name = rng.choice(maker.BANKS)
    if kind == "boot":
        return drawn_boot(rng, platform)
    if kind == "spi":
        return drawn_frames(rng, platform, shapes)
    return {
        "tick": lambda: [drawn_ticks(rng, platform)],
        "update": lambda: [f"update {name} {rng.choice(('active', 'full'))}"],
        "smbus": lambda: [f"smbus {name} {frame_scripts.drawn_smbus_frame(rng, shapes[name]).hex()}"],
        "arm": lambda: [drawn_arm(rng, platform)],
        "provision": lambda: [f"provision {slot.hex()}"],
    }.get(kind, lambda: [kind])()


def drawn_script(rng):
    """The files of a platform, and a script over them that the model foresees."""
    files = drawn_platform(rng)
    shapes = {name: frame_scripts.shape_of(files[name], files["nv"], name) for name in maker.BANKS}
    platform, lines = foreseer.platform_of(files), []
    for _ in range(rng.choice((20, 40, 80))):
        for line in drawn_items(rng, platform, shapes, files["nv"][:72]):
            lines.append(line)
            platform.take(line)
    return dict(files, script="".join(line + "\n" for line in lines).encode())


def drawn_files(number):
    """The files of the drawn script of a number."""
    rng = random.Random(f"{SEED} {number}")
    while True:
        try:
            return drawn_script(rng)
        except foreseer.Unforeseen:
            continue
