#!/bin/sh
# Makes the library for C for Linux on aarch64, from the sources of this checkout, or runs hosts over one.
#
# usage: tools/aarch64.sh FOLDER [ARCHIVE]    makes FOLDER/libwitcall-aarch64.a, of the toolchain's ARCHIVE if it is given
#        tools/aarch64.sh --test FOLDER       runs hosts over FOLDER/libwitcall-aarch64.a
#        tools/aarch64.sh --versions          prints the version of what compiles its heap
#
# The library is proved and compiled by the toolchain, as for x86-64. Its heap is packaging/aarch64/heap.c over the C
# library of the machine that it is linked on, compiled by Debian's aarch64-linux-gnu-gcc. The libraries below
# crates/witcall_c have to be built, as the gate or `rt lib` leaves them.
#
# --test builds hosts of examples/c, and runs them under qemu-aarch64. What each prints has to be its expected file.
set -eu
cross=aarch64-linux-gnu
usage='usage: tools/aarch64.sh FOLDER [ARCHIVE] | --test FOLDER | --versions'

need() {
    command -v "$1" >/dev/null || { echo "tools/aarch64.sh: no $1, which is of Debian's package $2" >&2; exit 1; }
}

# Builds hosts over an archive, and runs them.
run_hosts() {
    for host in host lists hostile; do
        "$cross-gcc" -std=gnu11 -O2 -Wall -Wextra -Werror -static -Iinclude -Iexamples/c -o "$work/$host" \
            "examples/c/$host.c" "$1"
        (cd examples/c && qemu-aarch64 "$work/$host") | diff "examples/c/$host.expected" - || {
            echo "FAILED aarch64 $host"
            exit 1
        }
        echo "ok aarch64 $host"
    done
}

need "$cross-gcc" "gcc-$cross"
case "${1:?"$usage"}" in
    --versions)
        "$cross-gcc" --version | head -n 1
        exit ;;
    --test) folder=$(cd "${2:?"$usage"}" && pwd) ;;
    *) folder=$(cd "$1" && pwd) ;;
esac
given=${2-}
[ "$1" = --test ] || [ -z "$given" ] || given=$(cd "$(dirname "$given")" && pwd)/$(basename "$given")
cd "$(dirname "$0")/.."
work=$(mktemp -d)
trap 'rm -rf "$work"' EXIT
if [ "$1" = --test ]; then
    need qemu-aarch64 qemu-user
    run_hosts "$folder/libwitcall-aarch64.a"
    exit
fi
if [ -n "$given" ]; then
    cp "$given" "$work/library.a"
else
    python3 -B tools/build_library.py --target aarch64-unknown-linux-gnu "$work/library.a"
fi
"$cross-gcc" -std=gnu11 -O2 -Wall -Wextra -Werror -fPIC -c -o "$work/heap.o" packaging/aarch64/heap.c
"$cross-ar" rD "$work/library.a" "$work/heap.o"
mv "$work/library.a" "$folder/libwitcall-aarch64.a"
