"""Scripts of updates that nobody wrote down: of all four intents, with cuts and faults, over stores whose logs of jobs are drawn too.

A drawn script is fixed by its number. foreseer.py plays it while it is drawn, as day_scripts.py has it, and one that goes beyond what
the model foresees is drawn anew.
"""

from __future__ import annotations

import random

import certifier
import day_scripts
import foreseer
import frame_scripts
import jobber
import maker
import restorer
from day_scripts import prefixed
from maker import PAGE
from platforms import description_of, made_platform

SEED = "jobs 1"
# The wide platform with something to copy: its bank's groups have eight pages.
WIDE = "regions=0x100000-0x109000:1:sha256:copy,0x109000-0x110000:15:none:copy,0x118000-0x11a000:1:sha384:copy,0x11a000-0x120000:11:none:erase"
# Other capsules for what runs, with the same manifest: of other pages, and with another reserved field.
SIBLINGS = {
    "small": (("regions.2.pages=copy",), ("regions.1.pages=erase",), ("capsule.reserved=hex:" + "5a" * 100,)),
    "tiny": (("regions.2.pages=copy",), ("regions.2.pages=keep",), ("capsule.reserved=hex:" + "5a" * 100,)),
    "wide": (("regions.1.pages=erase",), ("regions.3.pages=keep",), ("capsule.reserved=hex:" + "5a" * 100,)),
}
SIZES = {"small": 256, "tiny": 32, "wide": 1024}
INTENTS = ("active", "active", "full", "recovery", "recovery", "recovery", "recovery")
# How often an item of each kind is drawn.
KINDS = {"tick": 10, "boot": 12, "update": 40, "spi": 12, "smbus": 1, "arm": 26, "power": 8, "off": 1, "provision": 1}
# How often a log of each kind is drawn.
LOGS = {"blank": 3, "open": 7, "random": 1, "alike": 1, "spent": 2, "full": 2, "forged": 2}


# ---- platforms


def known_options(rng, kind, form):
    """What the platform of a kind is made with: its form, and whose keys sign the images."""
    options = (f"form={form}",) + (("bmc." + WIDE,) if kind == "wide" else ())
    for name in maker.BANKS:
        if not rng.randrange(4):
            options += (f"{name}.active_block.key_id={rng.choice((9, 127, 200))}",)
    return options


def known_platform(rng, form):
    """The small, the tiny or the wide platform, with capsules for both banks, and its description."""
    kind = rng.choice(("small", "tiny", "tiny", "tiny", "tiny", "wide"))
    options = known_options(rng, kind, form)
    files = dict(made_platform(kind, options, b""))
    capsules = {name: [files[name + ".capsule"]] for name in maker.BANKS}
    for name in maker.BANKS:
        shape = kind if name == "bmc" or kind != "wide" else "tiny"
        siblings, versions = SIBLINGS[shape], day_scripts.VERSIONS[shape]
        faults = tuple((fault,) for fault in day_scripts.FAULTS)
        for choices in (siblings, versions, versions, siblings + versions + faults):
            other = made_platform(kind, options + prefixed(name, rng.choice(choices)), b"")
            files["engine"] += other["engine"]
            capsules[name].append(other[name + ".capsule"])
    return files, capsules, dict(description_of(kind), form=form)


def described_platform(rng, form):
    """A platform of a description that is drawn, with capsules of other versions, and the description."""
    description = maker.random_description(rng, form)
    made = maker.make(description)
    files = dict(made, nv=maker.provision(description))
    capsules = {name: [made[name + ".capsule"]] for name in maker.BANKS}
    for name in maker.BANKS:
        engine = maker.Engine()
        other = dict(description, **{name: day_scripts.other_version(rng, description[name])})
        capsules[name].append(maker.make_bank(other, name, engine)[1])
        files["engine"] += engine.text()
    return files, capsules, description


def drawn_certificate(rng, description, engine):
    """A certificate for a key of either bank, here and there badly formed; mostly of a key that signs nothing here."""
    name, part = rng.choice(list(maker.TYPES))
    used = [description[each][f"{kind}_key"]["id"] for each, kind in maker.TYPES]
    key_id = rng.choice((*used, 5, 9, 9, 127, 127, 200, 200, 255, rng.randrange(256), rng.randrange(256, 70000)))
    content_type, root, _, form, curve = maker.keys_of(description, name, part)
    body = maker.certificate_body(key_id)
    overrides = {}
    kind = rng.randrange(12)
    if kind == 0:
        body = maker.flip(body, rng.randrange(4, 128), 1 << rng.randrange(8))
    elif kind == 1:
        body = body[: rng.choice((4, 127))] if rng.randrange(2) else body + b"\0"
    elif kind == 2:
        overrides = rng.choice(({"entry_magic": 0}, {"root_id": 0}, {"block1_magic": 1}, {"digest256": bytes(32)}, {"type": 3}))
    made = maker.signed(body, maker.CANCELS + content_type, root, None, form, curve, engine, **overrides)
    return made if rng.randrange(10) else maker.flip(made, rng.randrange(len(made)), 1 << rng.randrange(8))


def with_staged(rng, image, layout, offered):
    """The image with what is staged: mostly one of the capsules and certificates, which may have a faulty bit."""
    if not rng.randrange(12):
        return image
    content = rng.choice(offered)
    if not rng.randrange(10):
        content = maker.flip(content, rng.choice((rng.randrange(128), rng.randrange(len(content)))), 1 << rng.randrange(8))
    return maker.place(image, layout.staging_at, content[: layout.area_len])


def with_recovery(rng, image, layout, capsules):
    """The image with another capsule in its recovery area here and there, or with a faulty one."""
    kind = rng.randrange(12)
    if kind < 2:
        return maker.place(image, layout.recovery_at, rng.choice(capsules)[: layout.area_len])
    if kind == 2:
        return maker.flip(image, layout.recovery_at + rng.randrange(len(capsules[0])), 1 << rng.randrange(8))
    if kind == 3:
        return maker.place(image, layout.recovery_at, maker.blank(layout.area_len))
    return image


def with_faulty_bits(rng, files, name):
    """A bank with a faulty bit in its image, here and there."""
    image = files[name]
    if not rng.randrange(4):
        image = frame_scripts.with_faulty_bit(rng, image, files["nv"], name)
    if not rng.randrange(12):
        image = maker.flip(image, restorer.layout_of(files["nv"], name).manifest_at + rng.randrange(1300))
    return image


def with_fuses(rng, store, name, description):
    """The store with a floor near the image's version, with a key cancelled, or of profile 1 with neither."""
    if not rng.randrange(4):
        store = maker.with_floor(store, name, max(1, min(127, description[name]["svn"] + rng.choice((-2, -1, 0, 0, 1)))))
    if not rng.randrange(6):
        kind = rng.choice(("manifest", "capsule"))
        key_id = rng.choice((description[name][kind + "_key"]["id"], 9, 127, 200))
        store = maker.with_cancelled(store, maker.TYPES[name, kind], key_id)
    return store if rng.randrange(12) else maker.place(store, maker.PROFILE_GATE, b"\xff")


# ---- logs that are drawn


def drawn_marks(rng, size):
    """Sixteen bytes of marks: none, all, some, or all up to a group."""
    groups = min(jobber.GROUPS, size // PAGE)
    upto = rng.randrange(groups + 1)
    row = ((1 << 128) - 1) & ~((1 << upto) - 1)
    return rng.choice((maker.blank(16), bytes(16), maker.drawn_bytes(rng, 16), row.to_bytes(16, "little"), row.to_bytes(16, "little")))


def drawn_slot(rng, image, layout):
    """An open job, mostly of the capsule in its source area."""
    work = rng.choice(list(jobber.WORKS))
    digests = [maker.drawn_bytes(rng, 32)]
    for area in 4 * [jobber.area_of(work)] + ["recovery_at", "staging_at"]:
        try:
            digests.append(jobber.capsule_digest(image, getattr(layout, area)))
        except Exception:  # no block stands there
            continue
    body = jobber.body_of(work, rng.choice(digests[1:] or digests) if rng.randrange(12) else digests[0])
    if not rng.randrange(12):
        body = bytes([rng.choice((0, 1, 2, 3, 4, 255)), rng.randrange(5)]) + body[2:]
    if not rng.randrange(4):
        body = body[:2] + maker.drawn_bytes(rng, 1) + body[3:]
    rest = rng.choice((maker.blank(11), maker.blank(11), maker.drawn_bytes(rng, 11)))
    return bytes([rng.choice((0, 0, 0, 0x7F, 0xFE))]) + body + drawn_marks(rng, len(image)) + rest + b"\xff"


def closed(rng, slot):
    return slot[:-1] + rng.choice((b"\0", b"\0", b"\x7f", b"\xfe"))


def ungated(slot):
    return b"\xff" + slot[1:]


def drawn_page(rng, image, layout, count, last):
    """A page with so many used slots, of which the last is given."""
    slots = [closed(rng, drawn_slot(rng, image, layout)) for _ in range(count - 1)] + [last]
    for number in range(len(slots) - 1):
        kind = rng.randrange(12)
        if kind == 0:
            slots[number] = maker.blank(64)
        elif kind == 1:
            slots[number] = ungated(slots[number])
        elif kind == 2:
            slots[number] = slots[number][:-1] + b"\xff"
    return maker.up_to(b"".join(slots), PAGE)


def drawn_selector(rng, page, is_spent):
    """A selector by which a page is the current one, mostly with few bytes used."""
    used = rng.choice((0, 0, 1, 2, 3, rng.randrange(4000), 4093)) // 2 * 2 + page
    selector = bytearray(maker.blank(PAGE))
    if is_spent:
        return bytes(PAGE)
    for at in rng.sample(range(PAGE), used) if rng.randrange(3) == 0 else range(used):
        selector[at] = rng.choice((0, 0, 0x5A, 0xFE))
    return bytes(selector)


def with_log(rng, store, name, image):
    """The store with a bank's log: blank, random, spent, full, with a job that is open, or with one that is forged."""
    kind = rng.choices(list(LOGS), LOGS.values())[0]
    at, layout = jobber.LOGS[name], restorer.layout_of(store, name)
    if kind == "blank":
        return store
    if kind in ("random", "alike"):
        data = rng.choice((bytes(3 * PAGE), b"\x5a" * 3 * PAGE, b"\0\xff" * (3 * PAGE // 2)))
        return maker.place(store, at, maker.drawn_bytes(rng, 3 * PAGE) if kind == "random" else data)
    page = 0 if kind == "spent" else rng.randrange(2)
    last = drawn_slot(rng, image, layout)
    if kind != "open" or not rng.randrange(5):
        last = rng.choice((closed(rng, last), closed(rng, last), ungated(last), last))
    count = 64 if kind in ("spent", "full") else rng.choice((1, 1, 2, 5, 62, 63, 64))
    pages = [maker.blank(PAGE), maker.blank(PAGE)]
    pages[page] = drawn_page(rng, image, layout, count, last)
    if kind == "forged" or not rng.randrange(4):
        pages[1 - page] = drawn_page(rng, image, layout, rng.choice((1, 64)), drawn_slot(rng, image, layout))
    return maker.place(store, at, b"".join(pages) + drawn_selector(rng, page, kind == "spent"))


def drawn_platform(rng):
    """The files of a platform."""
    make = rng.choice((known_platform, known_platform, known_platform, described_platform))
    files, capsules, description = make(rng, rng.choice((1, 2)))
    engine = maker.Engine()
    certificates = [drawn_certificate(rng, description, engine) for _ in range(6)]
    files = {name: content for name, content in files.items() if "." not in name}
    files["engine"] += engine.text()
    for name in maker.BANKS:
        layout = restorer.layout_of(files["nv"], name)
        files[name] = with_faulty_bits(rng, files, name)
        files[name] = with_recovery(rng, files[name], layout, capsules[name])
        offered = [capsules[name][0]] * 4 + capsules[name] * 2 + certificates
        files[name] = with_staged(rng, files[name], layout, offered)
        files["nv"] = with_fuses(rng, with_log(rng, files["nv"], name, files[name]), name, description)
    return files, certificates, capsules


# ---- items that are drawn


def drawn_tear(rng, platform, name):
    """A tear: of any bytes, of what stands there already, or a slot with a job that is open."""
    device, layout = platform.devices[name], restorer.layout_of(platform.stored(), name)
    kind = rng.randrange(5)
    if kind == 0:
        at = rng.choice((layout.manifest_at, layout.recovery_at, layout.staging_at))
        return bytes(device.image[at : at + PAGE]).hex()
    if kind == 1:
        return drawn_slot(rng, bytes(device.image), layout).hex()
    return frame_scripts.drawn_tear(rng)


def drawn_arm(rng, platform):
    """A cut or a fault of an operation of what may come next, in the bank or in the store."""
    name = rng.choice(maker.BANKS)
    if not rng.randrange(12):
        return f"readfault {name} 1"
    device = rng.choice((name, "nv"))
    nth = rng.choice((1, 1, 2, 7, rng.randrange(1, 40), rng.randrange(1, 400)))
    if device == "nv":
        nth = rng.choice((1, 2, 3, 4, rng.randrange(1, 16)))
    return f"{rng.choice(('cut', 'cut', 'fault'))} {device} {nth} {drawn_tear(rng, platform, name)}"


def drawn_update(rng, platform, name):
    """An update, of an intent that mostly fits what is staged."""
    at = platform.place(name, "staging_at")
    is_certificate = restorer.numbers(platform.devices[name].image, at + 8, 1)[0] in certifier.CANCELLING
    fits = rng.randrange(8) > 0
    return f"update {name} {'cert' if is_certificate == fits else rng.choice(INTENTS)}"


def drawn_items(rng, platform, shapes, slot):
    """The next items of a script, by what runs then."""
    if not any(platform.runs(name) for name in maker.BANKS) and rng.randrange(6):
        return ["power"]
    kind = rng.choices(list(KINDS), KINDS.values())[0]
    name = rng.choice(maker.BANKS)
    if kind == "update":
        return [drawn_update(rng, platform, name)]
    if kind == "arm":
        return [drawn_arm(rng, platform)] + [drawn_update(rng, platform, name)] * rng.randrange(2)
    if kind == "boot":
        return day_scripts.drawn_boot(rng, platform)
    if kind == "spi":
        return day_scripts.drawn_frames(rng, platform, shapes)
    return {
        "tick": lambda: [day_scripts.drawn_ticks(rng, platform)],
        "smbus": lambda: [f"smbus {name} {frame_scripts.drawn_smbus_frame(rng, shapes[name]).hex()}"],
        "provision": lambda: [f"provision {slot.hex()}"],
    }.get(kind, lambda: [kind])()


def staging_frames(name, image, layout, content):
    """The frames by which a bank's processor puts a short content at the staging area's begin."""
    lines = [f"spi {name} 06", f"spi {name} 20{layout.staging_at:08x}"]
    for at in range(0, len(content), restorer.PIECE):
        piece = content[at : at + restorer.PIECE]
        if piece.strip(b"\xff"):
            lines += [f"spi {name} 06", f"spi {name} 02{layout.staging_at + at:08x}{piece.hex()}"]
    return lines


def drawn_script(rng):
    """The files of a platform, and a script over them that the model foresees."""
    files, certificates, capsules = drawn_platform(rng)
    shapes = {name: shape_of(files, name) for name in maker.BANKS}
    platform, lines = foreseer.platform_of(files), []
    for _ in range(rng.choice((6, 12, 24, 40))):
        name = rng.choice(maker.BANKS)
        if platform.runs(name) and not rng.randrange(12):
            layout = restorer.layout_of(files["nv"], name)
            items = staging_frames(name, files[name], layout, rng.choice(certificates)) + [f"update {name} cert"]
        else:
            items = drawn_items(rng, platform, shapes, files["nv"][:72])
        for line in items:
            lines.append(line)
            platform.take(line)
    return dict(files, script="".join(line + "\n" for line in lines).encode())


def shape_of(files, name):
    """What frames are drawn by. Where no manifest stands in an image it is that of the recovery area, or none."""
    try:
        return frame_scripts.shape_of(files[name], files["nv"], name)
    except Exception:  # the bytes spell no manifest
        size = len(files[name])
        return frame_scripts.Shape(size, [0, size], [], [], [])


def drawn_files(number):
    """The files of the drawn script of a number."""
    rng = random.Random(f"{SEED} {number}")
    while True:
        try:
            return drawn_script(rng)
        except foreseer.Unforeseen:
            continue
