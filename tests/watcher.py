"""The watch over a bank's boot, after docs/FORMATS.md alone: apart from the program, for what cases want."""

from __future__ import annotations

# The stages of a bank's boot, and how many ticks each may take.
STAGES = {
    "bmc": (("bmc", 1500),),
    "pch": (("me", 500), ("acm", 500), ("ibb", 1000), ("obb", 2000)),
}
SPENT = 4


class Watch:
    """At which stage a boot is, the ticks that are left of it, and how often it expired since a boot was done."""

    def __init__(self, name):
        self.stages = STAGES[name]
        self.recoveries = 0
        self.restart()

    def restart(self):
        """A boot begins. What expired before isn't forgotten."""
        self.begin(0)

    def begin(self, number):
        self.number = number
        self.left = 0 if self.is_done() else self.stages[number][1]

    def is_done(self):
        return self.number == len(self.stages)

    def tick(self, count):
        """Takes ticks, and says whether the stage has had all of its own."""
        if self.is_done():
            return False
        if self.left <= count:
            return True
        self.left -= count
        return False

    def take_pass(self):
        """The stage is passed: its name, or nothing where the boot is done now."""
        name = self.stages[self.number][0]
        self.begin(self.number + 1)
        if not self.is_done():
            return name
        self.recoveries = 0
        return ""

    def expire(self):
        """The boot failed once more: at which level its bank is restored."""
        self.recoveries = min(self.recoveries + 1, SPENT)
        return self.recoveries
