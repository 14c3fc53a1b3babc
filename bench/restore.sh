#!/usr/bin/env bash
# Times `run` where it restores a bank of 64 MiB with 24 MiB of static regions at a power-on, and where it updates that bank
# from its staging area, against the host's own tools in the same run and in turn: dd, which reads and writes the bytes that
# each run does, and sha256sum over those that it hashes. It prints the ratio of each to both together. It is no part of the
# gate, and asks nothing of the figures.
#
#     bench/restore.sh [program]
#
# With no program it builds crates/nurghobi by `rt run`, which on a fresh checkout also proves it and takes minutes.
# BENCH_RUNS is how often each is run (7 where it isn't set); the least time counts.
set -u
tools="python3 sha256sum dd"
# shellcheck source=bench/program.sh
. "$(dirname "$0")/program.sh"

python3 "$top/bench/make_platform.py" restore "$room/restore" || exit 1
python3 "$top/bench/measure_restore.py" "$program" "$room/restore" "${BENCH_RUNS:-7}"
