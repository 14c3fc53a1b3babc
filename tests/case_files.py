"""The files of a case: its lines make them and edit them. A name that begins with `@` is kept apart and never written."""

from __future__ import annotations

import hashlib
import os
import re

import checker
import day_scripts
import foreseer
import frame_scripts
import job_scripts
import jobber
import maker
import restorer
from case_reader import CaseFault
from platforms import description_of, made_certificate, made_platform, spans_of

TOP = os.path.dirname(os.path.dirname(os.path.abspath(__file__)))
CHUNK = 1 << 20
COUNTED = re.compile(r"\{(\d+)\+(\d+)\}")


class Zeros:
    """So many zeros, that are written as a hole."""

    def __init__(self, count):
        self.count = count


def data_of(text):
    return text.encode("utf-8", "surrogateescape")


def block_text(block):
    """The bytes of lines of text, each with its newline."""
    return data_of("".join(line + "\n" for line in block))


class Files:
    """What the names of a case hold."""

    def __init__(self):
        self.held = {}
        self.folders = set()
        self.sealed = set()

    def get(self, name):
        """What a name holds; one that begins with `:` is of the repository."""
        if name.startswith(":"):
            with open(os.path.join(TOP, name[1:]), "rb") as file:
                return file.read()
        if name not in self.held:
            raise CaseFault(f"no file {name}")
        return self.held[name]

    def put_at(self, name, at, part):
        found = self.get(name)
        if at + len(part) > len(found):
            raise CaseFault(f"{len(part)} bytes at {at} pass the end of {name}")
        self.held[name] = found[:at] + part + found[at + len(part) :]

    # ---- the lines

    def platform(self, name, *options):
        """platform NAME [OPTION..]: the files of a platform. With `as=PREFIX` they are kept apart, as @PREFIX.bmc and so on."""
        given = [option for option in options if not option.startswith(("as=", "staged="))]
        named = dict(option.split("=", 1) for option in options if option not in given)
        staged = named.get("staged", "")
        staged = staged if staged == "own" else bytes(self.get(staged)) if staged else b""
        prefix = "@" + named["as"] + "." if "as" in named else ""
        for file, content in made_platform(name, tuple(given), staged).items():
            self.held[("" if prefix else "@" if "." in file else "") + prefix + file] = content

    def source(self, name):
        """source NAME: the images that a description of a platform names."""
        description = description_of(name)
        for bank in maker.BANKS:
            self.held[bank + ".image"] = description[bank]["image"]

    def copy(self, source, target):
        """copy FROM TO"""
        self.held[target] = self.get(source)

    def text(self, name, *words, block=()):
        """text NAME [TEXT]: the text of the word, or the lines of the block."""
        self.held[name] = data_of(words[0]) if words else block_text(block)

    def script(self, *words, block=()):
        """script [TEXT]: the same for the script."""
        self.text("script", *words, block=block)

    def fill(self, name, count, byte="ff"):
        """fill NAME COUNT [BYTE]: so many bytes that are alike."""
        self.held[name] = bytes.fromhex(byte) * int(count, 0)

    def zeros(self, name, count):
        """zeros NAME COUNT: the same of zeros, as a hole."""
        self.held[name] = Zeros(int(count, 0))

    def folder(self, name):
        """folder NAME: a folder has the name."""
        self.folders.add(name)

    def seal(self, name):
        """seal NAME: the file can be read, and nobody can write it."""
        self.get(name)
        self.sealed.add(name)

    def turn(self, name, at, bits):
        """turn NAME AT BITS: turns over bits of the bytes from a place on."""
        at, bits = int(at, 0), bytes.fromhex(bits)
        old = self.get(name)[at : at + len(bits)]
        self.put_at(name, at, bytes(a ^ b for a, b in zip(old, bits)))

    def put(self, name, at, part):
        """put NAME AT HEX: other bytes from a place on."""
        self.put_at(name, int(at, 0), bytes.fromhex(part))

    def number(self, name, at, value):
        """number NAME AT N: four bytes, the lowest first."""
        self.put_at(name, int(at, 0), maker.number(int(value, 0)))

    def into(self, source, begin, end, name, at):
        """into FROM BEGIN END NAME AT: bytes of another file from a place on."""
        self.put_at(name, int(at, 0), self.get(source)[int(begin, 0) : int(end, 0)])

    def append(self, name, source):
        """append NAME FROM"""
        self.held[name] = self.get(name) + self.get(source)

    def keep(self, name, count):
        """keep NAME COUNT: its first bytes alone."""
        self.held[name] = self.get(name)[: int(count, 0)]

    def change(self, name, old, new, *places):
        """change NAME OLD NEW [PLACE]: each such text; or the first one behind the first such place."""
        found, old, new = self.get(name), data_of(old), data_of(new)
        place = data_of(places[0]) if places else b""
        before, mark, rest = found.partition(place) if place else (b"", b"", found)
        if old not in rest or mark != place:
            raise CaseFault(f"{name} has no {old!r} behind {place!r}")
        self.held[name] = before + mark + rest.replace(old, new, 1 if place else -1)

    def repeat(self, name, count, text):
        """repeat NAME COUNT TEXT: so many times more at its end; `{4096+16}` is 4,096 times the number of the time, and 16."""

        def piece(time):
            return COUNTED.sub(lambda found: str(time * int(found.group(1)) + int(found.group(2))), text)

        pieces = "".join(piece(time) for time in range(int(count, 0)))
        self.held[name] = self.held.get(name, b"") + data_of(pieces)

    def restored(self, bank, target, level="1"):
        """restored BANK TARGET [LEVEL]: the bank's bytes as a restore at a level leaves them, 1 where none is told."""
        self.held[target] = restorer.restored(self.get(bank), self.get("nv"), bank, level)

    def updated(self, bank, target, intent):
        """updated BANK TARGET INTENT: the bank's bytes as an update leaves them, `active` or `full`."""
        self.restored(bank, target, intent)

    def cut_restore(self, bank, target, nth, tear):
        """cut_restore BANK TARGET N TEAR: the same where the nth operation was torn so, and nothing more was done."""
        tear = b"" if tear == "-" else bytes.fromhex(tear)
        self.held[target] = restorer.cut_restore(self.get(bank), self.get("nv"), bank, int(nth), tear)

    def frames(self, name, bank, source, at):
        """frames NAME BANK FROM AT: at a text's end the frames that program a file's bytes into the bank, from a place on."""
        at, data = int(at, 0), self.get(source)
        for begin in range(0, len(data), 256):
            piece = data[begin : begin + 256]
            lines = f"spi {bank} 06\nspi {bank} 02{at + begin:08x}{piece.hex()}\n"
            self.held[name] += data_of(lines) if piece.strip(b"\xff") else b""

    def certificate(self, name, bank, part, key_id, *options):
        """certificate NAME BANK PART ID [OPTION..]: a certificate that cancels a key of the manifests or capsules; its row goes to `engine`."""
        made, row = made_certificate(bank, part, int(key_id, 0), options)
        self.held[name] = made
        self.held["engine"] = self.held.get("engine", b"") + row

    def slot(self, name, at, work, source, *options):
        """slot NAME AT WORK FROM [OPTION..]: a job's slot at a place of a store, with the digest of a file's bytes."""
        given = dict(option.split("=", 1) for option in options)
        marks = bytearray(maker.blank(jobber.REST - jobber.MARKS))
        for group in spans_of(given.get("marks", "")):
            marks[group // 8] &= ~(1 << group % 8)
        head = bytes.fromhex(given.get("gate", "00")) + jobber.body_of(work, maker.sha256(self.get(source))) + bytes(marks)
        rest = maker.blank(jobber.END - jobber.REST) + bytes.fromhex(given.get("end", "ff"))
        self.put_at(name, int(at, 0), head + rest)

    def digits(self, name, source, begin="0", end=""):
        """digits NAME FROM [BEGIN END]: at a text's end the digits of a file's bytes."""
        data = self.get(source)
        self.held[name] += data[int(begin, 0) : int(end, 0) if end else len(data)].hex().encode()

    def drawn(self, number):
        """drawn N: the files of a platform and a script of frames, drawn from the number."""
        self.held.update(frame_scripts.drawn_files(int(number)))

    def drawn_day(self, number):
        """drawn_day N: the files of a platform and a script of boots, ticks, updates and frames, drawn from the number."""
        self.held.update(day_scripts.drawn_files(int(number)))

    def drawn_jobs(self, number):
        """drawn_jobs N: the same of updates of all intents, over stores whose logs are drawn too."""
        self.held.update(job_scripts.drawn_files(int(number)))

    def sweep(self, name):
        """sweep NAME: a script that gives the BMC all frames of a kind."""
        self.held["script"] = frame_scripts.sweep_script(name)

    def foresee(self, name, *words):
        """foresee NAME [BMC PCH NV SCRIPT [WEAR]]: what a script makes of a platform: its report, and what it leaves."""
        bmc, pch, nv, script, *wear = words or ("bmc", "pch", "nv", "script")
        images, texts = map(self.get, (bmc, pch, nv)), [self.get(name).decode() for name in ("engine", script)]
        found = foreseer.foreseen(*images, *texts, *map(int, wear))
        for part, content in zip(found._fields, found):
            self.held[f"{name}.{part}"] = content

    def verdicts(self, name, *words):
        """verdicts NAME [BMC PCH NV]: what `check` writes, and that it leaves all as it is."""
        images = [bytes(self.get(word)) for word in words or ("bmc", "pch", "nv")]
        self.held[name + ".report"] = checker.verdicts(*images, self.get("engine").decode()).encode()
        self.held.update({f"{name}.{part}": image for part, image in zip(("bmc", "pch", "nv"), images)})

    # ---- their use

    def take(self, line):
        """Takes a line of the case where it is one of the above."""
        word, *rest = line.words
        method = getattr(self, word, None)
        if word not in LINES:
            raise CaseFault(f"{line.place}: no line {word}")
        try:
            return method(*rest, block=line.block) if word in ("text", "script") else method(*rest)
        except (TypeError, ValueError, KeyError, CaseFault, foreseer.Unforeseen) as error:
            raise CaseFault(f"{line.place}: {error}") from None

    def written(self):
        """The names that stand in the folder."""
        return {name: held for name, held in self.held.items() if not name.startswith("@") and name not in self.sealed}


LINES = (
    "platform source copy text script fill zeros folder seal turn put number into append keep change repeat"
    " restored updated cut_restore frames certificate slot digits drawn drawn_day drawn_jobs sweep foresee verdicts".split()
)


def write_file(path, held):
    with open(path, "wb") as file:
        if isinstance(held, Zeros):
            file.truncate(held.count)
        else:
            file.write(held)


def is_held(path, held):
    """Whether the file at a path has these bytes."""
    count = held.count if isinstance(held, Zeros) else len(held)
    if os.path.getsize(path) != count:
        return False
    with open(path, "rb") as file:
        if not isinstance(held, Zeros):
            return file.read() == held
        return all(not any(piece) for piece in iter(lambda: file.read(CHUNK), b""))


def sha256(data):
    return hashlib.sha256(data).hexdigest()
