"""What a script makes of a platform, after docs/FORMATS.md alone: apart from the program, for what cases want.

`foreseen` plays a script over two banks and a store, and gives the report and the bytes that stand there afterwards. The
judgements are those of judge.py, the frames those of framer.py, the watches those of watcher.py, and what is written in a
restore and in an update is restorer.py's, the logs of jobs jobber.py's, and the certificates certifier.py's. Of what goes beyond
this nothing is told: it is Unforeseen.
"""

from __future__ import annotations

from collections import namedtuple

import certifier
import framer
import jobber
import judge
import maker
import restorer
from framer import Seat
from maker import PAGE
from watcher import SPENT, Watch

STORE_ROOM = 65536
NEVER_READ = 1 << 31

Foreseen = namedtuple("Foreseen", "report bmc pch nv")


class Unforeseen(Exception):
    """What this model doesn't know."""


class Fault(Exception):
    """A device fails a call: its name."""


class Lost(Exception):
    """The power is lost in a call."""


class Device:
    """A flash with what is armed on it."""

    def __init__(self, name, image, room):
        self.name, self.image, self.room = name, bytearray(image), room
        self.done = 0
        self.due = {}
        self.read_due = 0

    def arm(self, what, nth, tear):
        """Takes an arm, counted from now on, in the place of an earlier one."""
        if what == "readfault":
            self.read_due = nth
        else:
            self.due[what] = (self.done + nth, tear)

    def may_fault(self):
        """Whether a read fault is due that may be met."""
        return 0 < self.read_due < NEVER_READ

    def read(self):
        """Reads something of it. How many reads a judgement takes is nobody's to know, so only a fault at the first is foreseen."""
        if self.may_fault() and self.read_due > 1:
            raise Unforeseen("a fault of a later read")
        if self.read_due == 1:
            self.read_due = 0
            raise Fault(self.name)

    def operate(self, at, piece):
        """Does an operation, an erase where it has no bytes, as far as arms and room allow."""
        if self.done == self.room:
            raise Fault(self.name)
        self.done += 1
        met = {what: tear for what, (number, tear) in self.due.items() if number == self.done}
        self.due = {what: due for what, due in self.due.items() if what not in met}
        end = at + (PAGE if piece is None else len(piece))
        old = bytes(self.image[at:end])
        tear = met.get("cut", met.get("fault"))
        self.image[at:end] = restorer.done_to(old, 0, piece) if tear is None else restorer.torn_to(old, 0, piece, tear)
        if "cut" in met:
            raise Lost(self.name)
        if met:
            raise Fault(self.name)


class Platform:
    """Two banks and a store, and what was noted of them. `rows` are the engine's."""

    def __init__(self, bmc, pch, nv, rows, wear=8):
        images = {"bmc": bmc, "pch": pch}
        self.devices = {name: Device(name, image, 17 * wear * (len(image) // PAGE)) for name, image in images.items()}
        self.devices["nv"] = Device("nv", nv, STORE_ROOM)
        self.rows = rows
        self.seats = {name: Seat("off") for name in maker.BANKS}
        self.watches = {name: Watch(name) for name in maker.BANKS}
        self.item = 0
        self.notes = []

    def take(self, line):
        """Does the item of a line of a script."""
        self.item += 1
        word, *rest = line.split(" ")
        try:
            ITEMS[word](self, *([word] if word in ARMS else []), *rest)
        except Lost as lost:
            self.lose(f"lost {lost}")

    def say(self, text):
        self.notes.append(f"{self.item} {text}")

    def is_off(self):
        return all(seat.line == "off" for seat in self.seats.values())

    def runs(self, name):
        return self.seats[name].line == "running"

    def boots(self, name):
        """Whether a bank runs whose boot isn't done."""
        return self.runs(name) and not self.watches[name].is_done()

    def lose(self, text):
        """The power is gone: both banks are off."""
        self.say(text)
        self.seats = {name: Seat("off") for name in maker.BANKS}

    def lock(self, name, why):
        self.say(f"{name} locked {why}")
        self.seats[name] = Seat("locked")

    def lock_both(self, held):
        """The store has failed: both banks are locked, which a power-on holds first."""
        for name in maker.BANKS:
            if held:
                self.hold(name)
            self.lock(name, "store-fault")

    def hold(self, name):
        self.say(f"{name} held")
        self.seats[name] = Seat("held")

    def work(self, name, task, *given):
        """Does a task with a bank that is held; a fault of its device or of the store locks it."""
        self.hold(name)
        try:
            task(name, *given)
        except Fault as fault:
            self.lock(name, "store-fault" if str(fault) == "nv" else "flash-fault")

    def stored(self):
        return bytes(self.devices["nv"].image)

    def image(self, name):
        return bytes(self.devices[name].image)

    def place(self, name, area):
        """Where an area of a bank begins."""
        return getattr(restorer.layout_of(self.stored(), name), area)

    # ---- the items

    def arm(self, what, device, nth, tear="-"):
        self.devices[device].arm(what, int(nth), b"" if tear == "-" else bytes.fromhex(tear))

    def power(self):
        self.say("power")
        try:
            self.devices["nv"].read()
            self.migrate()
        except Fault:
            return self.lock_both(held=True)
        for name in maker.BANKS:
            self.watches[name].recoveries = 0
            self.work(name, self.bring_up)

    def off(self):
        if self.is_off():
            return self.say("ignored")
        self.lose("lost")

    def provision(self, _):
        """A provision, which a store that is provisioned refuses."""
        if self.is_off():
            return self.say("ignored")
        try:
            self.devices["nv"].read()
        except Fault:
            return self.lock_both(held=False)
        if judge.provision_cause(self.stored()):
            raise Unforeseen("a provision that may be taken")
        self.say("provision refused already-provisioned")

    def tick(self, count):
        """Ticks for both watches, and then what comes of it for one bank after the other."""
        due = [name for name in maker.BANKS if self.runs(name) and self.watches[name].tick(int(count))]
        for name in due:
            self.expire(name)

    def boot(self, name, how):
        if not self.boots(name):
            return self.say("ignored")
        if how == "fail":
            return self.expire(name)
        passed = self.watches[name].take_pass()
        self.say(f"{name} passed {passed}" if passed else f"{name} booted")

    def update(self, name, intent):
        if not self.runs(name):
            return self.say("ignored")
        self.work(name, self.renew, intent)

    def spi(self, name, digits):
        seat, frame = self.seats[name], bytes.fromhex(digits)
        if not self.runs(name):
            return self.say("ignored")
        cause = framer.spi_cause(seat, len(self.devices[name].image), frame)
        if cause:
            return self.say(f"{name} blocked {cause}")
        try:
            self.write(name, framer.operations_of(frame))
        except Fault:
            self.hold(name)
            return self.lock(name, "flash-fault")
        self.say(f"{name} pass {framer.OPCODES[frame[0]][0]}")
        self.seats[name] = seat._replace(latch=framer.latch_behind(seat, frame))

    def smbus(self, name, digits):
        if not self.runs(name):
            return self.say("ignored")
        cause = framer.smbus_cause(self.seats[name].manifest.rules, bytes.fromhex(digits))
        self.say(f"{name} smbus blocked {cause}" if cause else f"{name} smbus pass")

    # ---- work with a bank that is held

    def write(self, name, operations):
        for operation in operations:
            self.devices[name].operate(*operation)

    def migrate(self):
        """Moves the fuses of a store of profile 1."""
        store = self.stored()
        if judge.is_old(store) and not judge.provision_cause(store):
            fuses = maker.FLOORS["bmc"]
            self.write("nv", [(fuses, None), (fuses, judge.moved_fuses(store)), (maker.PROFILE_GATE, b"\0")])

    def copy(self, name, work, job=None):
        """Copies the pages of a good capsule; those of a job but for the groups that are marked."""
        for device, *operation in jobber.passed(self.image(name), self.stored(), name, work, job):
            self.write(device, [operation])

    def judged(self, name, area):
        """Why a bank's capsule in an area is bad, or nothing."""
        self.devices[name].read()
        return judge.cause_of(judge.judge_capsule, self.image(name), self.place(name, area), name, self.stored(), self.rows)

    def digest(self, name, area):
        """The digest of the good capsule in an area."""
        return jobber.capsule_digest(self.image(name), self.place(name, area))

    def bring_up(self, name):
        """A bank's turn in a power-on."""
        store = self.stored()
        cause = judge.provision_cause(store)
        if cause:
            return self.lock(name, cause)
        cause = judge.layout_cause(restorer.layout_of(store, name), len(self.devices[name].image))
        if cause:
            return self.lock(name, f"layout {cause}")
        job = jobber.job_of(store, name)
        if job:
            self.resume(name, job)
        self.settle(name)

    def settle(self, name):
        """Judges a bank: it is released, restored first where it has to be, or locked."""
        device, store = self.devices[name], self.stored()
        device.read()
        cause = judge.cause_of(judge.judge_image, bytes(device.image), name, store, self.rows)
        if cause:
            self.say(f"{name} untrusted {cause}")
            bad = self.judged(name, "recovery_at")
            if bad:
                return self.lock(name, f"no-good-image {cause} {bad}")
            self.do(name, "1")
        self.release(name, bytes(device.image), restorer.layout_of(store, name))

    def release(self, name, image, layout):
        manifest = framer.active_manifest(image, layout)
        self.say(f"{name} released svn {manifest.svn}")
        self.seats[name] = Seat("running", manifest, layout)
        self.watches[name].restart()

    def expire(self, name):
        """A boot has failed."""
        level = self.watches[name].expire()
        self.say(f"{name} watchdog {level}")
        self.work(name, self.recover, level)

    def recover(self, name, level):
        if level == SPENT:
            return self.lock(name, "watchdog-spent")
        self.know_store()
        bad = self.judged(name, "recovery_at")
        if bad:
            return self.lock(name, f"no-recovery {bad}")
        self.do(name, str(level))
        self.settle(name)

    def renew(self, name, intent):
        """Does an update by what is staged, or refuses it."""
        self.know_store()
        cause = self.cancel(name) if intent == "cert" else self.judged(name, "staging_at") or self.bar(name, intent)
        if cause:
            self.say(f"{name} refused {cause}")
        elif intent != "cert":
            self.do(name, intent)
        self.settle(name)

    # ---- jobs

    def is_spent(self, name):
        """Whether a work is done without a job."""
        return jobber.is_spent(self.stored(), name)

    def bar(self, name, intent):
        """Why an update isn't done although its capsule is good, or nothing: the recovery area takes what runs, and by a job alone."""
        if intent != "recovery":
            return ""
        image, store = self.image(name), self.stored()
        running = judge.judge_image(image, name, store, self.rows)
        staged = judge.judge_capsule(image, self.place(name, "staging_at"), name, store, self.rows)
        return "manifest-differs" if running != staged else "jobs-spent" if self.is_spent(name) else ""

    def do(self, name, work):
        """Does a work with a good capsule from its begin on."""
        job = None
        if not self.is_spent(name):
            self.write("nv", jobber.begun(self.stored(), name, work, self.digest(name, jobber.area_of(work))))
            job = jobber.job_of(self.stored(), name)
        self.carry_out(name, work, job)

    def resume(self, name, job):
        """Goes on with a job that a power-on finds open, or gives it up."""
        area = jobber.area_of(job.work)
        if not job.work or self.judged(name, area) or self.digest(name, area) != job.digest:
            self.write("nv", [jobber.finished(job)])
            return self.say(f"{name} job abandoned")
        self.say(f"{name} resumed {jobber.name_of(job)}")
        self.carry_out(name, job.work, job)

    def carry_out(self, name, work, job):
        """Copies what a work copies, closes its job, and notes it."""
        self.copy(name, work, job)
        area = jobber.area_of(work)
        if work == "recovery":
            area = "recovery_at"
            if self.judged(name, area) or self.digest(name, area) != job.digest:
                self.copy(name, work)
        svn = jobber.capsule_svn(self.image(name), self.place(name, area))
        if work == "recovery":
            self.write("nv", jobber.raised(self.stored(), name, svn))
        if job:
            self.write("nv", [jobber.finished(job)])
        told = {"recovery": f"recovery updated svn {svn}", **{update: f"updated {update} svn {svn}" for update in restorer.UPDATES}}
        self.say(f"{name} {told.get(work, f'restored level {work}')}")

    def cancel(self, name):
        """Cancels a key by the certificate that is staged, or gives why it doesn't."""
        self.devices[name].read()
        given = self.image(name), name, self.stored()
        cause = judge.cause_of(certifier.judge_certificate, *given, self.rows)
        if cause:
            return cause
        certificate = certifier.judge_certificate(*given, self.rows)
        cause = judge.cause_of(certifier.judge_use, certificate, *given, not self.judged(name, "recovery_at"))
        if not cause:
            self.write("nv", [jobber.fuse(maker.CANCELLED[certificate.kind], certificate.key_id)])
            self.say(f"cancelled {certifier.WORDS[certificate.kind]} {certificate.key_id}")
        return cause

    # ---- what isn't known

    def know_store(self):
        """Whether the store is read again behind a power-on is nobody's to know."""
        if self.devices["nv"].may_fault():
            raise Unforeseen("a fault of a read of the store that may not be made")


ARMS = ("cut", "fault", "readfault")
ITEMS = {
    "power": Platform.power,
    "off": Platform.off,
    "provision": Platform.provision,
    "tick": Platform.tick,
    "boot": Platform.boot,
    "update": Platform.update,
    "spi": Platform.spi,
    "smbus": Platform.smbus,
    **{what: Platform.arm for what in ARMS},
}


def items_of(script):
    """The lines of a script that are items."""
    return [line for line in script.split("\n") if line and not line.startswith("#")]


def rows_of(engine):
    """The rows of an engine file."""
    return set(engine.lower().split("\n"))


def platform_of(files):
    """The platform of some files by name."""
    return Platform(files["bmc"], files["pch"], files["nv"], rows_of(files["engine"].decode()))


def foreseen(bmc, pch, nv, engine, script, wear=8):
    """The report of a script, and the images and the store that it leaves."""
    platform = Platform(bmc, pch, nv, rows_of(engine), wear)
    for line in items_of(script):
        platform.take(line)
    report = "".join(note + "\n" for note in platform.notes).encode()
    return Foreseen(report, *(bytes(platform.devices[name].image) for name in ("bmc", "pch", "nv")))
