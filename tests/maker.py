"""Makes banks, stores, capsules, certificates and engine rows from docs/FORMATS.md alone, apart from the program.

A description is a dictionary with the keys of a description's text. Digits are strings here too, and only the two files are
given as what they hold: `image` and `staged` of a bank are bytes. `description_text` writes it as the program reads it, and
`description_files` gives the files that this text names.

Whole files: make, provision, certificate. For badly formed ones that are signed well there are the pieces: manifest_bytes,
capsule_body, block, signed and place. Each takes overrides by the names of its fields; lengths, digests and signatures are
made of what the overrides leave, and each signature's row has just what the block asks the engine for. So a bad image is
refused for its form and not for its signatures. To have the engine refuse, leave the engine out. compare_makers compares
what is made here with what the program makes.
"""

import hashlib
import json
import struct
from collections import namedtuple

PAGE = 4096
BLOCK = 1024
STORE = 32768
ANY = 0xFFFFFFFF
BANKS = ("bmc", "pch")
LAYOUT = ("manifest_at", "manifest_len", "recovery_at", "staging_at", "area_len")
TYPES = {("pch", "manifest"): 1, ("pch", "capsule"): 2, ("bmc", "manifest"): 3, ("bmc", "capsule"): 4}
CANCELS = 0x100
CURVES = {256: 0xC7B88C74, 384: 0x08F07B47}
SIGNATURE_MAGICS = {256: 0xDE64437D, 384: 0xEA2A50E9}
HASH_INFO = {"none": 0, "sha256": 1, "sha384": 2}
PROFILE_GATE = 0xA00
FLOORS = {"bmc": 0x7000, "pch": 0x7010}
CANCELLED = {1: 0x7020, 2: 0x7040, 3: 0x7060, 4: 0x7080}

# Digests and small pieces


def sha256(data):
    return hashlib.sha256(data).digest()


def sha384(data):
    return hashlib.sha384(data).digest()


def digest_of(name, data):
    """The digest that a region's `hash` names: none has no bytes."""
    return {"none": lambda _: b"", "sha256": sha256, "sha384": sha384}[name](data)


def number(value):
    """A number of four bytes, the lowest first."""
    return struct.pack("<I", value)


def as_bytes(value):
    """What a field holds: bytes as they are, a number in four."""
    return number(value) if isinstance(value, int) else bytes(value)


def blank(count):
    return b"\xff" * count


def up_to(data, count, fill=b"\xff"):
    """The data, and a filling behind it up to a length."""
    return data + fill * (count - len(data))


def rounded(count, step):
    """The least multiple of a step that isn't below a count."""
    return -(-count // step) * step


def place(image, at, data):
    """The image with other bytes at a place."""
    assert at + len(data) <= len(image), "the bytes pass the image's end"
    return bytes(image[:at]) + bytes(data) + bytes(image[at + len(data) :])


def flip(image, at, mask=1):
    """The image with some bits of one byte turned over."""
    return place(image, at, bytes([image[at] ^ mask]))


# Keys and signatures

Key = namedtuple("Key", "x y id permissions")


def key_of(table):
    """The key of a description's table; the root has neither id nor permissions of its own."""
    x, y = bytes.fromhex(table["x"]), bytes.fromhex(table["y"])
    return Key(x, y, table.get("id", ANY), table.get("permissions", ANY))


def mark(key, digest):
    """The signature of a digest under a public key, as R and S: a mark that anybody can make."""
    return tuple(sha384(first + key + digest) for first in (b"R", b"S"))


def signed_digest(curve, message):
    """The digest that a signature of form 1 is of."""
    return sha256(message) if curve == CURVES[256] else sha384(message)


def is_length(value, most):
    """Whether a key or a signature of form 2 may have this length."""
    return 4 <= len(value) <= most and len(value) % 4 == 0


class Engine:
    """The rows of an engine file, in the order in which the signatures were made. Those that no file may have are left out."""

    def __init__(self, rows=()):
        self.rows = list(rows)

    def accept(self, curve, x, y, digest, r, s):
        """A row of form 1."""
        if curve not in CURVES.values():
            return
        words = [struct.pack(">I", curve), x, y, digest, r, s]
        self.rows.append(" ".join(word.hex() for word in words))

    def accept_long(self, scheme, key, message, signature):
        """A row of form 2, of the signed bytes themselves."""
        if not is_length(key, 256) or not is_length(signature, 8000):
            return
        words = [struct.pack(">I", scheme), key, sha384(message), signature]
        self.rows.append(" ".join(["long"] + [word.hex() for word in words]))

    def text(self):
        return "".join(row + "\n" for row in self.rows).encode()


# Signature blocks. A block is made as a list of fields, each with its name, so that any of them can be overridden.


def taken(fields, overrides):
    """The fields with their overrides as bytes, by name and in order. Takes those overrides out."""
    return {name: as_bytes(overrides.pop(name, value)) for name, value in fields}


def joined(fields):
    return b"".join(fields.values())


def block0_bytes(content_type, content, form, block_length, overrides):
    """The 128 bytes of Block 0. Fields: magic, length, type, block_length, digest256, digest384, reserved."""
    fields = (
        ("magic", 0xB6EAFD19 if form == 1 else 0xB6EAFD1A),
        ("length", len(content)),
        ("type", content_type),
        ("block_length", 0 if form == 1 else block_length),
        ("digest256", sha256(content)),
        ("digest384", sha384(content)),
        ("reserved", bytes(32)),
    )
    return joined(taken(fields, overrides))


def root_fields(root, form, curve, overrides):
    """The root entry. Fields: root_magic, root_curve, root_permissions, root_id, root_x, root_y, root_reserved; in form 2
    root_magic, root_permissions, root_id, root_scheme, root_key_length, root_key."""
    if form == 1:
        fields = [("root_magic", 0xA757A046), ("root_curve", CURVES[curve]), ("root_permissions", root.permissions)]
        fields += [("root_id", root.id), ("root_x", root.x), ("root_y", root.y), ("root_reserved", bytes(20))]
        return taken(fields, overrides)
    key = overrides.get("root_key", root.x + root.y)
    fields = [("root_magic", 0xA757A047), ("root_permissions", root.permissions), ("root_id", root.id)]
    fields += [("root_scheme", CURVES[curve]), ("root_key_length", len(key)), ("root_key", key)]
    return taken(fields, overrides)


def key_fields(key, form, curve, overrides):
    """The key entry up to its signature. Fields: as those of the root entry, with `key_` for `root_`."""
    if form == 1:
        fields = [("key_magic", 0x14711C2F), ("key_curve", CURVES[curve]), ("key_permissions", key.permissions)]
        fields += [("key_id", key.id), ("key_x", key.x), ("key_y", key.y), ("key_reserved", bytes(20))]
        return taken(fields, overrides)
    key_bytes = overrides.get("key_key", key.x + key.y)
    fields = [("key_magic", 0x14711C30), ("key_permissions", key.permissions), ("key_id", key.id)]
    fields += [("key_scheme", CURVES[curve]), ("key_key_length", len(key_bytes)), ("key_key", key_bytes)]
    return taken(fields, overrides)


Signer = namedtuple("Signer", "form curve number key")


def signer_of(entry, prefix, form, curve, number_of_signatures):
    """Who signs, as an entry of the block has it. All signatures are of the root's curve or scheme."""
    key = entry[prefix + "_x"] + entry[prefix + "_y"] if form == 1 else entry[prefix + "_key"]
    return Signer(form, curve, number_of_signatures, key)


def signature_fields(signer, message, prefix, engine, overrides):
    """A signature of a message, with its row. Fields: _signature_magic, _r and _s behind the prefix; in form 2
    _signature_length and _signature."""
    if signer.form == 1:
        digest = signed_digest(signer.number, message)
        r, s = mark(signer.key, digest)
        fields = [(prefix + "_signature_magic", SIGNATURE_MAGICS[signer.curve]), (prefix + "_r", r), (prefix + "_s", s)]
        made = taken(fields, overrides)
        engine.accept(signer.number, signer.key[:48], signer.key[48:], digest, made[prefix + "_r"], made[prefix + "_s"])
        return made
    signature = overrides.get(prefix + "_signature", b"".join(mark(signer.key, sha384(message))))
    fields = [(prefix + "_signature_length", len(signature)), (prefix + "_signature", signature)]
    made = taken(fields, overrides)
    engine.accept_long(signer.number, signer.key, message, made[prefix + "_signature"])
    return made


def key_entry(key, signer, engine, overrides):
    """The key entry's fields with its signature, which is of all behind the magic."""
    fields = key_fields(key, signer.form, signer.curve, overrides)
    message = joined({name: value for name, value in fields.items() if name != "key_magic"})
    return fields, joined(fields) + joined(signature_fields(signer, message, "key", engine, overrides))


def block0_entry(signer, block0, engine, overrides):
    """The block-0 entry. Fields: entry_magic, then a signature's behind `entry`."""
    fields = taken([("entry_magic", 0x15364367 if signer.form == 1 else 0x15364368)], overrides)
    return joined(fields) + joined(signature_fields(signer, block0, "entry", engine, overrides))


def block_bytes(before, form, overrides):
    """How many bytes a block has: 1,024, or in form 2 as many more as its entries need. `before` are those in front of the
    block-0 entry. Override: block_bytes."""
    entries = before + 8 + len(overrides.get("entry_signature", bytes(96)))
    return overrides.pop("block_bytes", BLOCK if form == 1 else max(BLOCK, rounded(entries, 128)))


def block(content_type, content, root, key, form=1, curve=256, engine=None, **overrides):
    """A signature block of a content; without a key it is a certificate's. Its rows go to the engine.

    Overrides: every field of block0_bytes, root_fields, key_fields, signature_fields (with `key` and `entry` before it) and
    block0_entry; block1_magic and block1_reserved; block_bytes, how many bytes the block has; and padding, its last bytes.
    Numbers have four bytes.
    """
    engine = Engine() if engine is None else engine
    block1 = joined(taken([("block1_magic", 0xF27F28D7 + form - 1), ("block1_reserved", bytes(12))], overrides))
    root_part = root_fields(root, form, curve, overrides)
    block1 += joined(root_part)
    curve_number = int.from_bytes(root_part["root_curve" if form == 1 else "root_scheme"], "little")
    signer = signer_of(root_part, "root", form, curve, curve_number)
    if key:
        fields, entry = key_entry(key, signer, engine, overrides)
        signer = signer_of(fields, "key", form, curve, curve_number)
        block1 += entry
    length = block_bytes(128 + len(block1), form, overrides)
    padding = overrides.pop("padding", None)
    block0 = block0_bytes(content_type, content, form, length, overrides)
    made = block0 + block1 + block0_entry(signer, block0, engine, overrides)
    assert not overrides, "a block of this form has no field %s" % ", ".join(overrides)
    return up_to(made, length, b"\0") if padding is None else made + padding


def signed(content, content_type, root, key, form=1, curve=256, engine=None, **overrides):
    """A signed content: the block with all of its overrides, and the content."""
    return block(content_type, content, root, key, form, curve, engine, **overrides) + content


def root_hash(root, form=1, curve=256):
    """What a platform is provisioned with."""
    return sha256(root.x + root.y) if form == 1 else long_root_hash(CURVES[curve], root.x + root.y)


def long_root_hash(scheme, key):
    """The root hash of form 2, of any scheme and key."""
    return sha256(b"\x02" + number(scheme) + key)


# Manifests


def region_bytes(region, image):
    """A region's definition, with the digest of its bytes in an image. Further keys of the region override its fields:
    type, hash_info, reserved, digest."""
    info = region.get("hash_info", HASH_INFO[region["hash"]])
    digest = region.get("digest", digest_of(region["hash"], image[region["start"] : region["end"]]))
    head = struct.pack("<BBH", region.get("type", 1), region["mask"], info)
    return head + as_bytes(region.get("reserved", 0)) + number(region["start"]) + number(region["end"]) + digest


def rule_bytes(rule):
    """An SMBus rule's definition. Further keys override its fields: type, reserved."""
    head = bytes([rule.get("type", 2)]) + as_bytes(rule.get("reserved", 0))
    return head + bytes([rule["bus"], rule["rule"], rule["address"]]) + bytes.fromhex(rule["commands"])


def active_image(bank):
    """The file `image`, with 0xFF in each region that has a hash and is erased."""
    image = bytearray(bank["image"])
    for region in bank.get("regions", ()):
        if region["hash"] != "none" and region["pages"] == "erase":
            image[region["start"] : region["end"]] = blank(region["end"] - region["start"])
    return bytes(image)


def definitions(bank, image):
    """All definitions of a bank's manifest, the regions before the rules."""
    regions = [region_bytes(region, image) for region in bank.get("regions", ())]
    return b"".join(regions + [rule_bytes(rule) for rule in bank.get("smbus", ())])


def manifest_bytes(bank, **overrides):
    """A bank's manifest. Overrides: the header's magic, svn, bkc (numbers), revision, reserved, oem (bytes) and length;
    definitions (all of their bytes), extra (bytes behind them), tail (the bytes behind these, in place of 0xFF)."""
    body = overrides.pop("definitions", None)
    body = definitions(bank, active_image(bank)) if body is None else body
    body += overrides.pop("extra", b"")
    whole = rounded(32 + len(body), 128)
    body += overrides.pop("tail", blank(whole - 32 - len(body)))
    fields = (
        ("magic", 0x02B3CE1D),
        ("svn", bytes([overrides.pop("svn", bank["svn"])])),
        ("bkc", bytes([overrides.pop("bkc", bank["bkc"])])),
        ("revision", bytes.fromhex(bank["revision"])),
        ("reserved", bytes(4)),
        ("oem", bytes.fromhex(bank["oem"])),
        ("length", 32 + len(body)),
    )
    header = joined(taken(fields, overrides))
    assert not overrides, "a manifest has no field %s" % ", ".join(overrides)
    return header + body


# Capsules


def page_map(pages, count):
    """The map of a bank's pages in which these pages have their bit."""
    bits = bytearray(count // 8)
    for page in pages:
        bits[page // 8] |= 1 << (7 - page % 8)
    return bytes(bits)


def pages_of(bank, kinds):
    """The pages of the regions of some kinds, in rising order."""
    regions = [region for region in bank.get("regions", ()) if region["pages"] in kinds]
    return [page for region in regions for page in range(region["start"] // PAGE, region["end"] // PAGE)]


def payload_of(image, pages):
    return b"".join(image[page * PAGE : (page + 1) * PAGE] for page in pages)


def capsule_header(page_count, payload_length, overrides):
    """Fields: magic, version, page_size, pattern_size, pattern, map_bits, payload_length, reserved."""
    fields = (
        ("magic", 0x5F504243),
        ("version", 2),
        ("page_size", PAGE),
        ("pattern_size", 1),
        ("pattern", 0xFF),
        ("map_bits", page_count),
        ("payload_length", payload_length),
        ("reserved", bytes(100)),
    )
    return joined(taken(fields, overrides))


def capsule_body(bank, signed_manifest, **overrides):
    """A capsule's body. Overrides: each field of capsule_header, as `reserved`; erased and copied (lists of pages), payload
    (bytes), erase_map and copy_map (bytes), and extra (bytes behind the payload)."""
    page_count = bank["size"] // PAGE
    erased = overrides.pop("erased", pages_of(bank, ("copy", "erase")))
    copied = overrides.pop("copied", pages_of(bank, ("copy",)))
    payload = overrides.pop("payload", payload_of(active_image(bank), copied))
    maps = overrides.pop("erase_map", page_map(erased, page_count))
    maps += overrides.pop("copy_map", page_map(copied, page_count))
    extra = overrides.pop("extra", b"")
    header = capsule_header(page_count, len(payload), overrides)
    assert not overrides, "a capsule has no field %s" % ", ".join(overrides)
    return signed_manifest + header + maps + payload + extra


# What `make`, `provision` and `cert` store


def keys_of(description, bank_name, kind):
    """What signs a content of a bank: its type, the root, the key, the form and the curve, as `signed` takes them."""
    key = key_of(description[bank_name][kind + "_key"])
    return TYPES[bank_name, kind], key_of(description["root"]), key, description.get("form", 1), description["curve"]


def signed_manifest(description, bank_name, engine, **overrides):
    """A bank's manifest behind its block; the overrides are those of the block."""
    manifest = manifest_bytes(description[bank_name])
    return signed(manifest, *keys_of(description, bank_name, "manifest"), engine, **overrides)


def capsule(description, bank_name, manifest, engine, **overrides):
    """A bank's capsule with a signed manifest; the overrides are those of the block."""
    body = capsule_body(description[bank_name], manifest)
    return signed(body, *keys_of(description, bank_name, "capsule"), engine, **overrides)


def bank_image(bank, manifest, made_capsule, staged=None):
    """A bank's image: the active image with the three areas, each with 0xFF behind what it begins with."""
    staged = bank.get("staged", b"") if staged is None else staged
    image = place(active_image(bank), bank["manifest_at"], up_to(manifest, bank["manifest_len"]))
    image = place(image, bank["recovery_at"], up_to(made_capsule, bank["area_len"]))
    return place(image, bank["staging_at"], up_to(staged, bank["area_len"]))


def make_bank(description, bank_name, engine):
    """A bank's image and its capsule alone. The four rows go to the engine."""
    manifest = signed_manifest(description, bank_name, engine)
    made_capsule = capsule(description, bank_name, manifest, engine)
    return bank_image(description[bank_name], manifest, made_capsule), made_capsule


def make(description):
    """What `make` stores, by what stands behind the prefix and the dot."""
    engine = Engine()
    bmc, bmc_capsule = make_bank(description, "bmc", engine)
    pch, pch_capsule = make_bank(description, "pch", engine)
    return {
        "bmc": bmc,
        "pch": pch,
        "bmc.capsule": bmc_capsule,
        "pch.capsule": pch_capsule,
        "engine": engine.text(),
    }


def layout_bytes(bank):
    return b"".join(number(bank[name]) for name in LAYOUT)


def slot_bytes(description):
    """The 72 bytes that a store is provisioned with."""
    hashed = root_hash(key_of(description["root"]), description.get("form", 1), description["curve"])
    return hashed + layout_bytes(description["bmc"]) + layout_bytes(description["pch"])


def provision(description):
    """What `provision` stores."""
    store = place(blank(STORE), 0, slot_bytes(description))
    return place(place(store, 255, b"\0"), PROFILE_GATE, b"\0")


def clear_fuse(store, row_at, bit):
    """The store with one more fuse cleared, of the row at a place."""
    at = row_at + bit // 8
    return place(store, at, bytes([store[at] & ~(1 << bit % 8)]))


def with_floor(store, bank_name, floor):
    """A store of profile 2 in which a bank's floor is at least a number over 0."""
    return clear_fuse(store, FLOORS[bank_name], floor - 1)


def with_cancelled(store, content_type, key_id):
    """A store of profile 2 in which a key id is cancelled for a type."""
    return clear_fuse(store, CANCELLED[content_type], key_id)


def certificate_body(key_id):
    return up_to(number(key_id), 128, b"\0")


def certificate(description, bank_name, kind, key_id):
    """What `cert` stores, by what stands behind the prefix and the dot; the kind is `manifest` or `capsule`."""
    engine = Engine()
    content_type, root, _, form, curve = keys_of(description, bank_name, kind)
    made = signed(certificate_body(key_id), CANCELS + content_type, root, None, form, curve, engine)
    return {"cert": made, "cert.engine": engine.text()}


# Descriptions as text


def plain_value(value):
    """A number, a string, or a table in one line."""
    if isinstance(value, dict):
        return "{ %s }" % ", ".join("%s = %s" % (name, plain_value(each)) for name, each in value.items())
    if isinstance(value, (list, tuple)):
        return "[%s]" % ", ".join(plain_value(each) for each in value)
    return json.dumps(value)


def with_file_names(description):
    """The description with the names of its files in place of what they hold."""
    named = dict(description)
    for bank_name in BANKS:
        if isinstance(named.get(bank_name), dict):
            bank = named[bank_name]
            named[bank_name] = {
                name: "%s.%s" % (bank_name, name) if isinstance(value, bytes) else value for name, value in bank.items()
            }
    return named


def description_files(description):
    """The files that the description's text names, with what they hold."""
    files = {}
    for bank_name in BANKS:
        bank = description[bank_name]
        files.update({"%s.%s" % (bank_name, name): bank[name] for name in ("image", "staged") if name in bank})
    return files


def table_lines(header, table, write):
    """A table under its header: first its plain keys, then its lists and tables under headers of their own."""
    lines = ["", "[%s]" % header] + ["%s = %s" % (name, write(value)) for name, value in table.items() if not is_list(value)]
    for name, rows in table.items():
        lines += list_lines(header + "." + name, rows, write) if is_list(rows) else []
    return lines


def is_list(value):
    """Whether a value is a list of tables that goes under headers in double brackets."""
    return isinstance(value, (list, tuple)) and bool(value) and all(isinstance(each, dict) for each in value)


def list_lines(header, rows, write):
    lines = []
    for row in rows:
        lines += ["", "[[%s]]" % header] + ["%s = %s" % (name, write(value)) for name, value in row.items()]
    return lines


def description_text(description, write=plain_value):
    """The description as TOML text. Its files are `bmc.image`, `bmc.staged`, `pch.image` and `pch.staged`, those that there
    are. Values may be of any kind, also of one that is refused. `write` spells a value."""
    named = with_file_names(description)
    lines = ["%s = %s" % (name, write(value)) for name, value in named.items() if not isinstance(value, dict)]
    for name, table in named.items():
        lines += table_lines(name, table, write) if isinstance(table, dict) else []
    return "\n".join(lines) + "\n"


# Descriptions that are drawn


def drawn_bytes(rng, count):
    return rng.getrandbits(8 * count).to_bytes(count, "little") if count else b""


def drawn_digits(rng, count):
    """Digits of either case that spell so many bytes."""
    return "".join(rng.choice((digit, digit.upper())) for digit in drawn_bytes(rng, count).hex())


def drawn_key(rng, content_type):
    """A signing key's table; its permissions have the type's bit."""
    permissions = rng.getrandbits(32) | 1 << (content_type - 1)
    key_id = rng.choice((0, 127, 128, 255, rng.randrange(256)))
    return {"id": key_id, "permissions": permissions, "x": drawn_digits(rng, 48), "y": drawn_digits(rng, 48)}


def drawn_image(rng, size):
    """Spans of bytes that are drawn, blank or zero."""
    pieces, left = [], size
    while left:
        count = min(left, rng.randrange(1, 5 * PAGE))
        pieces.append(rng.choice((drawn_bytes(rng, count), blank(count), bytes(count))))
        left -= count
    return b"".join(pieces)


def drawn_layout(rng, pages, area, manifest):
    """A layout with areas of so many pages, and the spans of pages that they leave free: the first and the one behind."""
    free = pages - 2 * area - manifest
    cuts = sorted(rng.randrange(free + 1) for _ in range(3))
    names = [("manifest_at", manifest), ("recovery_at", area), ("staging_at", area)]
    rng.shuffle(names)
    layout, spans, at, done = {}, [], 0, 0
    for (name, count), cut in zip(names, cuts):
        spans.append((at, at + cut - done))
        layout[name] = (at + cut - done) * PAGE
        at, done = at + cut - done + count, cut
    layout.update(manifest_len=manifest * PAGE, area_len=area * PAGE)
    return layout, spans + [(at, pages)]


def drawn_region(rng, start, end, kinds):
    """A region from one page to another. One with a hash can't be written and isn't kept."""
    kind = rng.choice(("none", "sha256", "sha384"))
    mask = rng.randrange(256) if kind == "none" else rng.randrange(256) & ~2
    pages = rng.choice([each for each in kinds if kind == "none" or each != "keep"])
    return {"start": start * PAGE, "end": end * PAGE, "mask": mask, "hash": kind, "pages": pages}


def drawn_regions(rng, spans, longest, skipped, kinds):
    """Regions of a few pages each, in rising order within the free spans. One span in so many as `skipped` stays free."""
    regions, places = [], [list(span) for span in spans if span[0] < span[1]]
    while places:
        start, last = places[0]
        end = min(last, start + rng.randrange(1, longest + 1))
        if rng.randrange(skipped):
            regions.append(drawn_region(rng, start, end, kinds))
        places[0][0] = end
        places = places[1:] if end == last else places
    return regions[:64]


def drawn_rule(rng):
    commands = rng.choice((bytes(32), blank(32), drawn_bytes(rng, 32))).hex()
    return {"bus": rng.randrange(256), "rule": rng.randrange(256), "address": rng.randrange(256), "commands": commands}


def fits(bank):
    """Whether the signed manifest and the capsule fit their areas."""
    manifest = BLOCK + rounded(32 + len(definitions(bank, b"")), 128)
    copied = len(pages_of(bank, ("copy",)))
    body = manifest + 128 + bank["size"] // PAGE // 4 + copied * PAGE
    return manifest <= bank["manifest_len"] and BLOCK + body <= bank["area_len"]


def shortened(rng, bank):
    """The bank without some of its regions and rules, so that it fits."""
    while not fits(bank):
        rows = rng.choice([bank[name] for name in ("regions", "smbus") if bank[name]])
        del rows[rng.randrange(len(rows))]
    return bank


def drawn_staged(rng, area_len):
    """What is staged: nothing, or a file of any length that fits."""
    if rng.randrange(2):
        return {}
    length = rng.choice((0, 1, area_len - 1, area_len, rng.randrange(area_len)))
    return {"staged": drawn_bytes(rng, length)}


def drawn_flash(rng):
    """A bank's size, its layout and its regions: as many regions as can be, or areas of any size and longer regions."""
    if not rng.randrange(10):
        layout, spans = drawn_layout(rng, 80, 2, 2)
        return 80 * PAGE, layout, drawn_regions(rng, spans, 1, 100, ("erase", "erase", "keep"))
    pages = 16 * rng.choice((1, 1, 2, 3, 4, 5))
    area = rng.randrange(1, (pages - 2) // 2)
    layout, spans = drawn_layout(rng, pages, area, rng.randrange(1, min(4, pages - 2 * area) + 1))
    regions = drawn_regions(rng, spans, rng.choice((1, 2, 8)), 3, ("copy", "copy", "erase", "keep"))
    return pages * PAGE, layout, regions


def drawn_bank(rng, bank_name):
    size, layout, regions = drawn_flash(rng)
    bank = {"image": drawn_image(rng, size), "size": size, "svn": rng.choice((0, 127, rng.randrange(128)))}
    bank.update(bkc=rng.randrange(256), revision=drawn_digits(rng, 2), oem=drawn_digits(rng, 16))
    bank.update({name: layout[name] for name in LAYOUT})
    bank["manifest_key"] = drawn_key(rng, TYPES[bank_name, "manifest"])
    bank["capsule_key"] = drawn_key(rng, TYPES[bank_name, "capsule"])
    bank.update(drawn_staged(rng, layout["area_len"]))
    bank["regions"] = regions
    bank["smbus"] = [drawn_rule(rng) for _ in range(rng.choice((0, 1, 5, 64)))]
    return shortened(rng, bank)


def random_description(rng, form=None, curve=None):
    """A description that is valid; the form and the curve are drawn too where they aren't given."""
    form = rng.choice((1, 2)) if form is None else form
    curve = rng.choice((256, 384)) if curve is None else curve
    root = {"x": drawn_digits(rng, 48), "y": drawn_digits(rng, 48)}
    top = {"curve": curve, "root": root}
    top.update({"form": form} if form != 1 or rng.randrange(2) else {})
    top.update({bank_name: drawn_bank(rng, bank_name) for bank_name in BANKS})
    return top

