# shellcheck shell=bash
# What the scripts begin with that time a program of their own. Each sources it. It sets `top` and `room`, a folder that goes when
# the script ends. `new_crate` makes a crate in a copy of the crates there, of a name, a source of bench/ and the libraries that it
# uses; `build_crate` proves and builds it by `rt run`, which takes minutes. They set `crate`, its folder, and `program`.
top="$(cd "$(dirname "${BASH_SOURCE[0]}")/.." && pwd)" || exit 1

for tool in python3 rt tar; do
    if ! command -v "$tool" >/dev/null; then
        echo "bench: skipped, since there is no $tool"
        exit 0
    fi
done

room="$(mktemp -d)" || exit 1
trap 'rm -rf "$room"' EXIT

new_crate() {
    tar -C "$top" --exclude=out -cf - crates crates.txt | tar -C "$room" -xf - || exit 1
    if [ -f "$top/HANDLES" ]; then
        cp "$top/HANDLES" "$room"
    fi
    crate="$room/crates/$1"
    program="$crate/out/$1"
    mkdir -p "$crate/src" "$crate/specs" "$crate/proofs" || exit 1
    cp "$top/bench/$2" "$crate/src/main.rt" || exit 1
    touch "$crate/specs/Lib.antt" "$crate/proofs/Lib.antt" "$crate/stdin" "$crate/stdout"
    echo "$1: $3" >>"$room/crates.txt"
}

# Without its files the program ends with 1, once it is built.
build_crate() {
    (cd "$crate" && rt run) >/dev/null 2>&1
    if [ ! -x "$program" ]; then
        echo "bench: the program did not build"
        exit 1
    fi
}
