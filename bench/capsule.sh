#!/usr/bin/env bash
# Times the judgement of a good capsule of 16 MiB against hashing, in one call each, the bytes that it has to hash, and
# prints the ratio. Both are timed in one run of one program, in turn, and the least time of each counts. It is no part
# of the gate, and asks nothing of the figures.
#
#     bench/capsule.sh
#
# The program is capsule_speed.txt. A copy of the crates gets it as one more crate, and `rt run` there proves and builds
# it, which takes minutes. BENCH_TURNS is how often each is timed (5 where it isn't set).
set -u
# shellcheck source=bench/scratch.sh
. "$(dirname "$0")/scratch.sh"

new_crate capsule_speed capsule_speed.txt "pfr_flash pfr_shelf pfr_engine pfr_chain pfr_manifest pfr_fuses pfr_capsule sha2"
build_crate
python3 "$top/bench/make_platform.py" capsule "$room/platform" || exit 1
turns="$(seq "${BENCH_TURNS:-5}" | tr '\n' ' ')"
# shellcheck disable=SC2086
found="$(cd "$room/platform" && "$program" $turns)" || {
    echo "bench: the program ended with $?"
    exit 1
}
python3 - "$found" <<'PY'
import os
import sys

length, judged, hashed, digest, _ = (int(it) for it in sys.argv[1].split())
MIB = 1024 * 1024
print(f"machine   {os.cpu_count()} cores; the least of each, in milliseconds of the clock")
print(f"judge     {judged / 1000:.1f}: a good capsule of {length / MIB:.1f} MiB")
print(f"hash      {hashed / 1000:.1f}: what both chains and the static regions ask for, in one call each")
print(f"digest    {digest / 1000:.1f}: the SHA-256 of the whole capsule, which the judgement gives too")
print(f"ratio     {judged / (hashed + digest):.2f} of judge to hash and digest; {judged / hashed:.2f} to hash alone")
PY
