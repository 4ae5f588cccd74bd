# Builds a small program over the crates in a copy of them, so that the workspace keeps its own list of crates. To be sourced.
#
#     build_beside NAME CRATE..
#
# builds bench/NAME.rt.txt, which uses these crates. Then `program` is the path of what was built, and `work` a folder that goes when the
# caller ends. What the program stands on is proved first, in the copy.

bench=$(dirname -- "$(readlink -f -- "${BASH_SOURCE[0]}")")
work=$(mktemp -d)
trap 'rm -rf -- "$work"' EXIT

# Copies a crate and those that it uses, each once. Libraries of the toolchain are no crates of this repository.
copy_crate() {
    local line name
    [ ! -d "$work/crates/$1" ] || return 0
    line=$(grep "^$1:" "$bench/../crates.txt") || return 0
    mkdir -p "$work/crates/$1"
    for name in ${line#*:}; do
        copy_crate "$name"
    done
    for name in src specs proofs; do
        [ ! -d "$bench/../crates/$1/$name" ] || cp -r -- "$bench/../crates/$1/$name" "$work/crates/$1/$name"
    done
    printf '%s\n' "$line" >>"$work/crates.txt"
}

build_beside() {
    local name
    for name in "${@:2}"; do
        copy_crate "$name"
    done
    echo "$1: ${*:2}" >>"$work/crates.txt"
    cp -- "$bench/../HANDLES" "$work/HANDLES"
    mkdir -p "$work/crates/$1/src"
    cp -- "$bench/$1.rt.txt" "$work/crates/$1/src/main.rt"
    (cd -- "$work/crates/$1" && rt run) >"$work/log" 2>&1 </dev/null || { cat -- "$work/log" >&2; exit 1; }
    program=$work/crates/$1/out/$1
}
