#!/usr/bin/env bash
# Times `run` with the script `power` on an ordinary day's platform against sha256sum over as many bytes as the run hashes
# and cp of the three images that it stores, in one run and in turn, and prints the ratio to both together and the peak
# memory. It is no part of the gate, and asks nothing of the figures.
#
#     bench/run.sh [program]
#
# With no program it builds crates/nurghobi by `rt run`, which on a fresh checkout also proves it and takes minutes.
# BENCH_RUNS is how often each is run (7 where it isn't set); the least time counts.
set -u
tools="python3 sha256sum cp sync"
# shellcheck source=bench/program.sh
. "$(dirname "$0")/program.sh"

python3 "$top/bench/make_platform.py" tiny "$room/tiny" || exit 1
for file in bmc pch nv engine power; do
    if [ -f "$top/examples/tiny/$file" ] && ! cmp -s "$room/tiny/$file" "$top/examples/tiny/$file"; then
        echo "bench: make_platform.py makes another $file than the sample platform's"
        exit 1
    fi
done
python3 "$top/bench/make_platform.py" ordinary "$room/ordinary" || exit 1
python3 "$top/bench/measure.py" "$program" "$room/ordinary" "${BENCH_RUNS:-7}"
