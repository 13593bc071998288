#!/bin/sh
# Builds the static library and the harness, calls the library from C by its header, compares it with the plain Rust version,
# and measures speed and stack. Needs the Rattle kit, gcc and rustc; with libboost-dev and libgeos++-dev, their line simplification is timed too.
#
#     sh harness/run.sh             everything
#     sh harness/run.sh cases 7     only the cases, with the seed 7 (also: speed, stack)
#     sh harness/run.sh c           only the calls from C
set -eu
cd "$(dirname "$0")/.."
made=target/harness
sh tools/static_library.sh
mkdir -p "$made"
# a controller may have no C library: nothing but memset is needed from outside
outside=$(nm -u target/staticlib/libcontroller.a | awk '$1 == "U" { print $2 }' | sort -u | tr '\n' ' ')
if [ "$outside" != "memset " ]; then
    echo "libcontroller.a needs from outside: $outside"
    exit 1
fi
gcc -std=c99 -Wall -Wextra -Werror -pedantic -I crates/controller harness/controller.c -o "$made/controller" \
    -L target/staticlib -lcontroller
"$made/controller"
case "${1:-all}" in c) exit 0 ;; esac
rustc -O --edition 2021 harness/src/main.rs -o "$made/harness" -L target/staticlib -l static=controller
"$made/harness" "$@"
case "${1:-all}" in all | speed) ;; *) exit 0 ;; esac

echo
if g++ -O3 -std=c++17 harness/others.cpp -o "$made/others" -lgeos 2>"$made/others.log"; then
    "$made/harness" lines "$made"
    echo "Other libraries on the same flat lines, 4096 vertices, tolerance 8, microseconds, best of 15:"
    echo
    echo "| library | line | time | kept |"
    echo "|---|---|---|---|"
    "$made/others" "$made/smooth_curve.txt" "$made/noise.txt" "$made/zigzag.txt"
else
    echo "libboost-dev and libgeos++-dev are not installed: their line simplification is not timed."
fi
