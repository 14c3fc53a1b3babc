#!/usr/bin/env python3
"""Tests of inspect.py: on the examples, on files that tests/maker.py makes, and on files that are badly formed."""

import os
import sys

FOLDER = os.path.dirname(os.path.abspath(__file__))
if __name__ == "__main__":
    # Python's own module has the name of the file that is tested here.
    sys.path[:] = [each for each in sys.path if os.path.abspath(each or ".") != FOLDER]

import hashlib
import importlib.util
import random
import subprocess
import tempfile
import unittest

TOP = os.path.dirname(FOLDER)
PROGRAM = os.path.join(FOLDER, "inspect.py")


def module_of(name, path):
    """A module by its path, whatever its name is."""
    path_before = list(sys.path)
    found = importlib.util.spec_from_file_location(name, path)
    module = importlib.util.module_from_spec(found)
    found.loader.exec_module(module)
    sys.path[:] = path_before
    return module


inspect = module_of("nurghobi_inspect", PROGRAM)
maker = module_of("nurghobi_maker", os.path.join(TOP, "tests", "maker.py"))


def example(name):
    with open(os.path.join(TOP, "examples", *name.split("/")), "rb") as file:
        return file.read()


def lines_of(data, store=None, bank=None):
    """The lines of a file without its first, as they stand."""
    lines = inspect.file_lines("it", data, inspect.Store(store) if store else None, bank)
    return lines[0], [line[2:] for line in lines[1:]]


def small_description(form=1, curve=256, seed=0):
    return maker.random_description(random.Random("inspect %d" % seed), form, curve)


BLANK_STORE = """\
profile 1
slot 0: blank
slot 1: blank
slot 2: blank
slot 3: blank
slot 4: blank
slot 5: blank
slot 6: blank
slot 7: blank
unprovisioned
floor of bmc: 0
floor of pch: 0
cancelled for pch-manifest: none
cancelled for pch-capsule: none
cancelled for bmc-manifest: none
cancelled for bmc-capsule: none
job log of bmc: blank
job log of pch: blank"""

TINY_MANIFEST = """\
manifest svn 3, bkc 1, revision 0100, oem 00000000000000000000000000000000, 256 bytes
  region 0: 0x2000 to 0x4000, mask 0x01 (read), sha256 {first}{seen}
  region 1: 0x4000 to 0x5000, mask 0x01 (read), sha384 {second}{seen}
  region 2: 0x5000 to 0x6000, mask 0x0b (read write level-2), no hash
  rule 0: bus 1, rule 0, address 0x2e, commands 0x10 0x20"""

TINY_PAGES = """\
capsule of 32 pages: 4 erased, 3 copied, 28 kept, payload of 12288 bytes
  region 0: 2 erased, 2 copied, 0 kept right
  region 1: 1 erased, 1 copied, 0 kept right
  region 2: 1 erased, 0 copied, 0 kept"""


def tiny_manifest(bank, seen):
    """The lines of tiny's manifest; `seen` is what is told behind a digest."""
    first = hashlib.sha256(bank[0x2000:0x4000]).hexdigest()
    second = hashlib.sha384(bank[0x4000:0x5000]).hexdigest()
    return TINY_MANIFEST.format(first=first, second=second, seen=seen).split("\n")


def block_lines(data, at, base, first, key_id, root):
    """The lines of a good block of the examples."""
    length = int.from_bytes(data[at + 4 : at + 8], "little")
    content = data[at + 1024 : at + 1024 + length]
    return [
        "block at 0x%x: %s, content of %d bytes" % (at + base, first, length),
        "  sha256 %s right" % hashlib.sha256(content).hexdigest(),
        "  sha384 %s right" % hashlib.sha384(content).hexdigest(),
        "  " + root,
        "  key id %d, permissions 0x0000000f" % key_id,
    ]


def inside(lines):
    return ["  " + line for line in lines]


class Examples(unittest.TestCase):
    """The examples, line by line."""

    def whole_bank(self, form, types, root, store):
        """Compares a bank of an example with all of its lines."""
        folder = "tiny" if form == 1 else "tiny-form2"
        name = "bmc" if types == (3, 4) else "pch"
        bank = example("%s/%s" % (folder, name))
        kinds = zip(("manifest", "capsule"), types)
        said = ["form %d, 1024 bytes, %s-%s (%d)" % (form, name, each, kind) for each, kind in kinds]
        active = block_lines(bank, 0, 0, said[0], 5, root) + tiny_manifest(bank, " right")
        capsule = block_lines(bank, 0x8000, 0, said[1], 6, root)
        body = block_lines(bank, 0x8400, 0, said[0], 5, root) + tiny_manifest(bank, "") + TINY_PAGES.split("\n")
        wanted = ["image of %s" % name, "manifest area at 0x0 of 0x2000"] + inside(active)
        wanted += ["recovery area at 0x8000 of 0x8000"] + inside(capsule + inside(body))
        wanted += ["staging area at 0x10000 of 0x8000: blank"]
        first, lines = lines_of(bank, store)
        self.assertEqual(first, "it: bank image of 131072 bytes, 32 pages")
        self.assertEqual(lines, wanted)
        without = ["areas not known without a provisioned store (--store)"] + active + capsule + inside(body)
        self.assertEqual(lines_of(bank)[1], [line.replace(", the store's", "") for line in without])

    def test_form_1(self):
        hashed = hashlib.sha256(b"\x11" * 48 + b"\x22" * 48).hexdigest()
        root = "root curve 256, hash %s, the store's" % hashed
        for types in ((3, 4), (1, 2)):
            self.whole_bank(1, types, root, example("tiny/nv"))

    def test_form_2(self):
        hashed = hashlib.sha256(b"\x02\x47\x7b\xf0\x08" + b"\x11" * 48 + b"\x22" * 48).hexdigest()
        root = "root scheme 0x08f07b47, key of 96 bytes, hash %s, the store's" % hashed
        for types in ((3, 4), (1, 2)):
            self.whole_bank(2, types, root, example("tiny-form2/nv"))

    def test_another_store(self):
        lines = lines_of(example("tiny/bmc"), example("tiny-form2/nv"))[1]
        self.assertEqual(sum(line.endswith(", not the store's") for line in lines), 3)

    def test_changed_bit(self):
        before = lines_of(example("tiny/bmc"), example("tiny/nv"))[1]
        after = lines_of(example("tiny/static-bit.bmc"), example("tiny/nv"))[1]
        changed = [(old, new) for old, new in zip(before, after) if old != new]
        self.assertEqual(len(changed), 1)
        old, new = changed[0]
        self.assertTrue(old.strip().startswith("region 0: 0x2000"))
        self.assertEqual(old[: -len("right")] + "wrong", new)

    def test_stores(self):
        first, lines = lines_of(example("tiny/blank.nv"))
        self.assertEqual((first, "\n".join(lines)), ("it: store of 32768 bytes", BLANK_STORE))
        layout = "manifest at 0x0 of 0x2000, recovery at 0x8000, staging at 0x10000, both of 0x8000"
        hashed = hashlib.sha256(b"\x11" * 48 + b"\x22" * 48).hexdigest()
        slot = ["slot 0: gate set", "  root hash " + hashed, "  bmc " + layout, "  pch " + layout]
        wanted = ["profile 2"] + slot + BLANK_STORE.split("\n")[2:9] + ["provisioned by slot 0"] + BLANK_STORE.split("\n")[10:]
        self.assertEqual(lines_of(example("tiny/nv"))[1], wanted)


class Made(unittest.TestCase):
    """Files that the maker makes."""

    def test_everything_is_right(self):
        for seed in range(8):
            description = small_description(1 + seed % 2, (256, 384)[seed // 2 % 2], seed)
            made, store = maker.make(description), maker.provision(description)
            for bank in maker.BANKS:
                first, lines = lines_of(made[bank], store, bank)
                text = "\n".join(lines)
                self.assertEqual(lines[0], "image of %s" % bank)
                self.assertNotIn("wrong", text)
                self.assertNotIn("not the store's", text)
                hashed = sum(region["hash"] != "none" for region in description[bank]["regions"])
                self.assertEqual(text.count(" right"), 6 + 2 * hashed)

    def test_capsules(self):
        for form in (1, 2):
            description = small_description(form, 256, 20)
            for bank in maker.BANKS:
                capsule = maker.make(description)[bank + ".capsule"]
                first, lines = lines_of(capsule)
                self.assertEqual(first, "it: signed %s-capsule of %d bytes" % (bank, len(capsule)))
                copied = len(maker.pages_of(description[bank], ("copy",)))
                erased = copied + len(maker.pages_of(description[bank], ("erase",)))
                count = description[bank]["size"] // 4096
                wanted = (count, erased, copied, count - erased, 4096 * copied)
                line = "  capsule of %d pages: %d erased, %d copied, %d kept, payload of %d bytes" % wanted
                self.assertIn(line, lines)

    def test_certificates(self):
        for form in (1, 2):
            made = maker.certificate(small_description(form), "pch", "capsule", 200)["cert"]
            first, lines = lines_of(made)
            self.assertEqual(first, "it: signed pch-capsule-cancel of 1152 bytes")
            block = "block at 0x0: form %d, 1024 bytes, pch-capsule-cancel (258), content of 128 bytes"
            self.assertEqual(lines[0], block % form)
            self.assertEqual(lines[-1], "certificate cancels key id 200 for pch-capsule")
            self.assertFalse([line for line in lines if "key id" in line and "certificate" not in line])

    def test_floors_and_cancelled_keys(self):
        description = small_description(1, 384, 21)
        description["bmc"]["svn"], description["bmc"]["manifest_key"]["id"] = 6, 9
        store = maker.with_floor(maker.provision(description), "bmc", 7)
        store = maker.with_cancelled(maker.with_cancelled(store, 3, 9), 3, 255)
        lines = lines_of(store)[1]
        cancelled = ("cancelled for bmc-manifest: 9 255", "cancelled for bmc-capsule: none")
        for line in ("floor of bmc: 7", "floor of pch: 0") + cancelled:
            self.assertIn(line, lines)
        text = "\n".join(lines_of(maker.make(description)["bmc"], store)[1])
        self.assertEqual(text.count("manifest svn 6 (below the floor)"), 2)
        permissions = description["bmc"]["manifest_key"]["permissions"]
        self.assertEqual(text.count("key id 9, permissions 0x%08x, cancelled" % permissions), 2)

    def test_profile_1_and_spent_slots(self):
        store = maker.place(maker.blank(maker.STORE), 0x800, b"\x7f")
        store = maker.place(store, 0x930, b"\xfe")
        for slot in range(8):
            store = maker.place(store, 256 * slot + 100, b"\x00")
        store = maker.place(store, 5 * 4096, b"\x00\x00")
        lines = lines_of(store)[1]
        for line in ("profile 1", "slot 7: gate open", "slots spent", "floor of bmc: 8", "cancelled for bmc-capsule: 0"):
            self.assertIn(line, lines)
        self.assertEqual(lines[-2:], ["job log of bmc: blank", "job log of pch: page 0, 0 slots used, no job"])

    def test_logs_of_jobs(self):
        slot = b"\0\x03\0\0" + bytes(range(32)) + b"\xfe\x7f" + maker.blank(26)
        done = b"\0\x01\x02\0" + bytes(32) + bytes(16) + bytes(12)
        store = maker.place(maker.blank(maker.STORE), 0x1000, done + slot)
        store = maker.place(store, 0x4000, done)
        lines = lines_of(store)[1]
        digest = bytes(range(32)).hex()
        wanted = [
            "job log of bmc: page 0, 2 slots used, job at slot 1",
            "  job recovery-from-staging 0, of capsule " + digest,
            "  groups marked: 0 15",
            "job log of pch: page 0, 1 slots used, no job",
        ]
        self.assertEqual(lines[-4:], wanted)

    def test_other_pages_and_bad_jobs(self):
        bad = b"\0\x02\x02\0" + bytes(32) + maker.blank(28)
        store = maker.place(maker.blank(maker.STORE), 0x3000, b"\0")
        store = maker.place(store, 0x2000 + 63 * 64, bad)
        store = maker.place(store, 0x4000, bytes(4096))
        store = maker.place(store, 0x6000, bytes(4096))
        wanted = [
            "job log of bmc: page 1, 64 slots used, job at slot 63",
            "  job bad",
            "  groups marked: none",
            "job log of pch: page 0, 64 slots used, spent, no job",
        ]
        self.assertEqual(lines_of(store)[1][-4:], wanted)


class BadlyFormed(unittest.TestCase):
    """What hasn't its form is told, and nothing stops the tool."""

    def signed_manifest(self, manifest, **overrides):
        description = small_description(1, 256, 30)
        keys = maker.keys_of(description, "bmc", "manifest")
        return "\n".join(lines_of(maker.signed(manifest, *keys, maker.Engine(), **overrides))[1])

    def test_manifests(self):
        bank = dict(small_description(1, 256, 30)["bmc"], regions=[], smbus=[])
        for overrides, said in (
            ({"magic": 7}, "fault: the manifest's magic is 0x00000007"),
            ({"extra": b"\x09"}, "fault: a definition of type 9 stands at 32"),
            ({"extra": b"\x01", "tail": b""}, "fault: region 0 passes the end"),
            ({"extra": b"\x01\x01\x05\x00" + bytes(12)}, "fault: region 0 has the hash info 5"),
        ):
            self.assertIn(said, self.signed_manifest(maker.manifest_bytes(bank, **overrides)))
        self.assertIn("fault: a manifest has at least 32 bytes, not 5", self.signed_manifest(b"12345"))

    def test_blocks(self):
        manifest = maker.manifest_bytes(small_description(1, 256, 30)["bmc"])
        for overrides, said in (
            ({"block1_magic": 1}, "fault: block 1 has the magic 0x00000001, not 0xf27f28d7"),
            ({"root_magic": 1}, "fault: the root entry has the magic 0x00000001, not 0xa757a046"),
            ({"root_id": 1}, "fault: the root entry's permissions or key id aren't 0xffffffff"),
            ({"key_magic": 1}, "fault: the key entry has the magic 0x00000001, not 0x14711c2f"),
            ({"entry_magic": 1}, "fault: the block-0 entry has the magic 0x00000001, not 0x15364367"),
            ({"length": 1 << 20}, "fault: the content passes the end"),
            ({"digest256": bytes(32)}, "sha256 %s wrong" % ("00" * 32)),
            ({"digest384": bytes(48)}, "sha384 %s wrong" % ("00" * 48)),
            ({"type": 77}, "unknown (77)"),
        ):
            self.assertIn(said, self.signed_manifest(manifest, **overrides))

    def test_long_keys(self):
        description = small_description(2, 384, 31)
        keys = maker.keys_of(description, "bmc", "manifest")
        manifest = maker.manifest_bytes(description["bmc"])
        made = maker.signed(manifest, *keys, maker.Engine(), root_key=bytes(256), entry_signature=bytes(2000))
        self.assertIn("  root scheme 0x08f07b47, key of 256 bytes", "\n".join(lines_of(made)[1]))
        self.assertNotIn("fault", "\n".join(lines_of(made)[1]))
        made = maker.signed(manifest, *keys, maker.Engine(), block_length=1000)
        self.assertIn("fault: a block can't have this length", "\n".join(lines_of(made)[1]))

    def test_capsules(self):
        description = small_description(1, 256, 32)
        engine = maker.Engine()
        inner = maker.signed_manifest(description, "bmc", engine)
        for overrides, said in (
            ({"magic": 3}, "fault: the capsule's header has the magic 0x00000003, not 0x5f504243"),
            ({"version": 3}, "fault: the capsule's header has other numbers than 2, 4096, 1 and 255"),
            ({"extra": b"123"}, "fault: 3 bytes stand behind the payload"),
            ({"payload": b"123"}, "fault: the payload isn't 4096 bytes for each copied page"),
            ({"payload_length": 1 << 30}, "fault: the payload passes the end"),
        ):
            body = maker.capsule_body(description["bmc"], inner, **overrides)
            made = maker.signed(body, *maker.keys_of(description, "bmc", "capsule"), engine)
            self.assertIn(said, "\n".join(lines_of(made)[1]))

    def test_changed_bytes_never_stop_it(self):
        rng = random.Random("inspect, changed bytes")
        store = example("tiny/nv")
        files = [example("tiny/bmc")[:0x10000], example("tiny-form2/pch")[:0x10000], example("tiny/bmc")[0x8000:0xB988], store]
        for _ in range(400):
            data = rng.choice(files)
            for _ in range(rng.randrange(1, 4)):
                front = min(len(data), rng.choice((64, 1600, 1 << 20)))
                data = maker.place(data, rng.randrange(front), bytes([rng.randrange(256)]))
            inspect.file_lines("it", data[: rng.choice((len(data), rng.randrange(len(data))))], inspect.Store(store))


class Words(unittest.TestCase):
    """The tool as it is called."""

    def call(self, *words):
        done = subprocess.run([sys.executable, "-B", PROGRAM] + list(words), stdout=subprocess.PIPE, stderr=subprocess.DEVNULL)
        return done.returncode, done.stdout.decode()

    def test_files(self):
        tiny = os.path.join(TOP, "examples", "tiny")
        bmc, store = os.path.join(tiny, "bmc"), os.path.join(tiny, "nv")
        code, text = self.call("--store", store, bmc, store)
        self.assertEqual(code, 0)
        self.assertTrue(text.startswith("%s: bank image of 131072 bytes, 32 pages\n  image of bmc\n" % bmc))
        self.assertIn("\n%s: store of 32768 bytes\n  profile 2\n" % store, text)

    def test_exit_codes(self):
        with tempfile.TemporaryDirectory() as folder:
            name = os.path.join(folder, "text")
            with open(name, "wb") as file:
                file.write(b"text\n")
            self.assertEqual(self.call(name), (1, "%s: no image, capsule, store or certificate\n" % name))
            missing = os.path.join(folder, "missing")
            self.assertEqual(self.call(missing)[0], 1)
            self.assertEqual(self.call("--store", name, name)[0], 2)
            self.assertEqual(self.call("--store", missing, name)[0], 2)
        self.assertEqual(self.call()[0], 2)
        self.assertEqual(self.call("--help")[0], 0)


if __name__ == "__main__":
    unittest.main()
