#!/usr/bin/env python3
"""Times a restore and an update by a program's runs against the host's own tools: measure_restore.py <program> <folder> <runs>.

The folder has the files of the platform `restore` of make_platform.py. For the restore a bit of the last static region is turned
over, so that the run looks at all of them before it restores the bank. For the update the same firmware with the next version is
staged: so both runs hash the same regions in two checks, judge a capsule of the same length, and write the same pages.
"""

import dataclasses
import os
import shutil
import struct
import sys

import make_platform
from measure import IMAGES, MIB, measured, processor, timed

BLOCK = 1024
TRUSTED = "1 power\n1 bmc held\n1 bmc released svn 12\n1 pch held\n1 pch released svn 3\n"


UPDATED = TRUSTED + "2 bmc held\n2 bmc updated active svn 13\n2 bmc released svn 13\n"


def read(folder, name):
    with open(os.path.join(folder, name), "rb") as file:
        return file.read()


def write(folder, name, content):
    with open(os.path.join(folder, name), "wb") as file:
        file.write(content)


def make_files(folder, bank):
    """Writes what is timed beside the platform's files: the image that isn't trusted, and the bytes that are looked at."""
    image = read(folder, "bmc")
    last = bank.regions[-1]
    damaged = bytearray(image)
    damaged[last.start + 0x123] ^= 1
    capsule = BLOCK + struct.unpack_from("<I", image, bank.recovery_at + 4)[0]
    write(folder, "made", image)
    write(folder, "damaged", damaged)
    write(folder, "static", image[bank.regions[0].start : last.end])
    # the manifest area and the static regions behind it: what a restore writes
    write(folder, "written", image[: last.end])
    write(folder, "capsule", image[bank.recovery_at : bank.recovery_at + capsule])


def make_update(folder, bank):
    """Writes what an update is timed with: the image with the next version staged, what it is to become, both versions' rows."""
    newer, rows, _ = make_platform.make_bank(dataclasses.replace(bank, svn=bank.svn + 1), make_platform.BMC_TYPES)
    staged = bytearray(read(folder, "made"))
    staged[bank.staging_at : bank.staging_at + bank.area_len] = newer[bank.recovery_at : bank.recovery_at + bank.area_len]
    write(folder, "staged", staged)
    manifest = slice(bank.manifest_at, bank.manifest_at + bank.manifest_len)
    staged[manifest] = newer[manifest]
    write(folder, "newer", staged)
    write(folder, "both.engine", read(folder, "engine") + rows.encode())
    write(folder, "update", b"power\nupdate bmc active\n")


def changed(words, folder, report, old, new):
    """Runs the words on a bank that has the bytes of `old`, and looks whether it has those of `new` then."""
    path = lambda name: os.path.join(folder, name)
    shutil.copyfile(path(old), path("bmc"))
    took = timed(words, report)
    if read(folder, "bmc") != read(folder, new):
        sys.exit(f"bench: the run left other bytes than those of {new}")
    return took


def trusted(words, folder):
    path = lambda name: os.path.join(folder, name)
    shutil.copyfile(path("made"), path("bmc"))
    return timed(words, TRUSTED)


def all_timed(commands):
    """The seconds of several commands together, the processor's seconds, and the peak memory of them."""
    took, used, memory = zip(*(timed(words) for words in commands))
    return sum(took), sum(used), max(memory)


def tries_of(program, folder, report):
    """What is timed, by name. Each of them can be done again and again."""
    path = lambda name: os.path.join(folder, name)
    copies = path("copies")
    os.makedirs(copies, exist_ok=True)
    run = lambda engine, script: [program, "run", *(path(name) for name in (*IMAGES, engine, script))]
    dd = lambda source, target, *rest: ["dd", f"if={path(source)}", f"of={os.path.join(copies, target)}", "status=none", *rest]
    # the images are loaded and stored, each store synced; then the restored pages take their places
    moved = [dd(name, name, "bs=1M", "conv=fsync") for name in ("made", "pch", "nv")]
    moved.append(dd("written", "made", "bs=64K", "conv=notrunc"))
    # the regions in both checks and once as the capsule gives them; the capsule by both digests and once for its name
    hashed = [path("static")] * 3 + [path("capsule")] * 3
    return {
        "restore": lambda: changed(run("engine", "power"), folder, report, "damaged", "made"),
        "update": lambda: changed(run("both.engine", "update"), folder, UPDATED, "staged", "newer"),
        "power": lambda: trusted(run("engine", "power"), folder),
        "dd": lambda: all_timed(moved),
        "sum": lambda: timed(["sha256sum", *hashed]),
    }


def main():
    program, folder, runs = sys.argv[1], sys.argv[2], int(sys.argv[3])
    bank, _ = make_platform.restore()
    make_files(folder, bank)
    make_update(folder, bank)
    cause = f"untrusted region-hash:{len(bank.regions) - 1}"
    report = TRUSTED.replace("1 bmc released", f"1 bmc {cause}\n1 bmc restored level 1\n1 bmc released")
    least, work, peak = measured(tries_of(program, folder, report), runs)
    size = lambda name: os.path.getsize(os.path.join(folder, name)) / MIB
    line = lambda name: f"{least[name]:.3f} ({work[name]:.3f})"
    ratio = lambda name: least[name] / (least["dd"] + least["sum"])
    images = sum(size(name) for name in IMAGES)
    cores = os.cpu_count()
    print(f"machine    {processor()}, {cores} cores; the least of {runs} runs, in seconds of the clock (of the processor)")
    print(f"restore    {line('restore')}: {images:.1f} MiB loaded and stored, {size('written'):.1f} MiB of pages written")
    print(f"update     {line('update')}: the same bank is checked and released, and updated from its staging area")
    print(f"power      {line('power')}: the same bank where its image is trusted, which is hashed once and not written")
    print(f"dd         {line('dd')}: reads and writes the images, synced, and those pages")
    print(f"sha256sum  {line('sum')}: over the {3 * size('static') + 3 * size('capsule'):.1f} MiB that each of both hashes")
    print(f"ratio      {ratio('restore'):.2f} of restore, {ratio('update'):.2f} of update, to dd and sha256sum together")
    print(f"memory     {peak['restore'] / MIB:.0f} MiB at the peak of the restore, {peak['update'] / MIB:.0f} of the update")
    print("for docs/SPEED.md:")
    seconds = " | ".join(f"{least[name]:.3f}" for name in ("restore", "update", "power", "dd", "sum"))
    most = max(peak["restore"], peak["update"]) / MIB
    print(f"| {processor()} | {cores} | {seconds} | {ratio('restore'):.2f} | {ratio('update'):.2f} | {most:.0f} MiB |")


if __name__ == "__main__":
    main()
