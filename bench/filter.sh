#!/usr/bin/env bash
# Times the judgement of frames on an SPI bus by a manifest of 64 regions, and prints how many of them a second are judged on one
# core, by kind: reads, programs of a page of 256 bytes, and erases of 64 KiB. Their addresses are drawn, the same in each turn, and
# each frame passes. It is no part of the gate, and asks nothing of the figures.
#
#     bench/filter.sh
#
# The program is filter.rt.txt. A copy of the crates gets it as one more crate, and `rt run` there proves and builds
# it, which takes minutes. BENCH_TURNS is how often a million frames of each kind are judged (5 where it isn't set); the least time
# counts.
set -u
# shellcheck source=bench/scratch.sh
. "$(dirname "$0")/scratch.sh"

new_crate filter_speed filter.rt.txt "pfr_flash pfr_shelf pfr_manifest pfr_filter"
# The proofs that aren't found by themselves: which ledger the count of steps is of, and that a manifest that was read has a table.
mkdir "$crate/proofs/turn" "$crate/proofs/read_table" || exit 1
cat >"$crate/proofs/turn/Invariants.antt" <<'ANTT'
use Rattle.filter_speed.proofs.turn.Given as goal

abbrev pub ghosts-judge_frames : goal.ghosts-judge_frames
ghosts-judge_frames a = record { name = a.blank.name; parts = a.blank.parts }
ANTT
cat >"$crate/proofs/read_table/Answers.antt" <<'ANTT'
use Rattle.pfr_manifest.proofs.StretchLemmas.{manifest_table}
use Rattle.filter_speed.proofs.read_table.Goals as goal

pub new-requires : goal.new-requires
new-requires c = manifest_table _ _ _ _ c.in-Ok.ensures.ok
ANTT
build_crate

python3 "$top/bench/make_platform.py" filter "$room/platform" || exit 1
turns="$(seq "${BENCH_TURNS:-5}" | tr '\n' ' ')"
# shellcheck disable=SC2086
found="$(cd "$room/platform" && "$program" $turns)" || {
    echo "bench: the program ended with $?"
    exit 1
}
python3 - "$found" <<'PY'
import os
import sys

FRAMES = 1_000_000
KINDS = ("reads", "programs", "erases")
*lines, regions = sys.argv[1].splitlines()
times = [[int(word) for word in line.split()] for line in lines]
if int(regions) != 64 or any(passed != FRAMES for _, passed, _ in times):
    sys.exit(f"bench: not all frames passed, or not by 64 regions:\n{sys.argv[1]}")
print(f"machine    {os.cpu_count()} cores; the least time of a million frames of each kind, on one core")
for kind, (micros, _, _) in zip(KINDS, times):
    print(f"{kind:10} {FRAMES / micros:.1f} million frames a second, {micros * 1000 / FRAMES:.0f} ns for each")
PY
