# shellcheck shell=bash
# What the scripts that time the program begin with. Each sources it, with its own words and with the names of the tools that
# it measures by in `tools`. It sets `top`, `program` (the one that is named, or else the one that it builds by `rt run`) and
# `room`, a folder that goes when the script ends.
top="$(cd "$(dirname "${BASH_SOURCE[0]}")/.." && pwd)" || exit 1

for tool in ${tools:?}; do
    if ! command -v "$tool" >/dev/null; then
        echo "bench: skipped, since there is no $tool"
        exit 0
    fi
done

if [ $# -gt 0 ]; then
    program="$(realpath "$1")"
else
    program="$top/crates/nurghobi/out/nurghobi"
    if ! command -v rt >/dev/null; then
        echo "bench: skipped, since there is no rt to build the program with; name a built one"
        exit 0
    fi
    if [ ! -d "$top/crates/nurghobi" ]; then
        echo "bench: skipped, since there is no crate nurghobi"
        exit 0
    fi
    sample="$top/examples/tiny"
    if ! (cd "$top/crates/nurghobi" && rt run -- run "$sample/bmc" "$sample/pch" "$sample/nv" "$sample/engine" "$sample/power") >/dev/null 2>&1; then
        echo "bench: the program did not build, or did not run on the sample platform"
        exit 1
    fi
fi
if [ ! -x "$program" ]; then
    echo "bench: there is no program $program"
    exit 1
fi

room="$(mktemp -d)" || exit 1
trap 'rm -rf "$room"' EXIT
