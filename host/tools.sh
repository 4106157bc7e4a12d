# shellcheck shell=sh disable=SC2154
# Shared by compare-model, compare-hex, compare-plain, soak and benchmark, which
# read it in with the dot command after setting $host to this folder. Takes their
# first two arguments:
#   [build folder] [static library]
# An empty or missing one has its default, from the repository: host/build and
# crates/m58/out/libm58.a

fail() {
    echo "${0##*/}: $*" >&2
    exit 1
}

repository=$(dirname -- "$host")
build=${1:-$repository/host/build}
library=${2:-$repository/crates/m58/out/libm58.a}

command -v rustc >/dev/null 2>&1 || fail "rustc not found"
mkdir -p -- "$build" || fail "cannot make the build folder: $build"

# build_rust NAME [ARGUMENT..]: host/NAME.rs, with more arguments for rustc.
build_rust() {
    name=$1
    shift
    rustc -O --edition 2021 -o "$build/$name" "$@" "$host/$name.rs" ||
        fail "$name.rs does not build"
}

need_library() {
    [ -f "$library" ] || fail "static library not found: $library"
}

# build_with_library NAME [ARGUMENT..]: the same with the static library. It is
# named to rustc by folder and file, so that it need not be called libm58.a.
build_with_library() {
    need_library
    build_rust "$@" -L "native=$(dirname -- "$library")" \
        -l "static:+verbatim=$(basename -- "$library")"
}

# compile_c ARGUMENT..: the C compiler with the warnings that are wanted.
compile_c() {
    if command -v cc >/dev/null 2>&1; then
        cc=cc
    elif command -v gcc >/dev/null 2>&1; then
        cc=gcc
    else
        fail "no C compiler found: neither cc nor gcc"
    fi
    "$cc" -std=c11 -O2 -Wall -Wextra -Wpedantic -I "$host" "$@"
}

# compile_plain: the plain C model as an object, $build/plain.o
compile_plain() {
    compile_c -c -o "$build/plain.o" "$host/plain/plain.c" ||
        fail "plain.c does not build"
}
