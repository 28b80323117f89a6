#!/bin/sh
# Prints the checksum of what a crate is built from: its sources and those of the crates that it stands on, with their
# proofs, their lines of crates.txt and HANDLES.
#
# usage: tools/sources.sh NAME
#        tools/sources.sh NAME --names      prints the crate and those below it, one a line
#        tools/sources.sh --shipped         prints a line `CHECKSUM  FILE` for each file that is shipped
#
# A library's checksum has that of the scripts that build it, of its header, and of its heap.
set -eu
cd "$(dirname "$0")/.."
usage='usage: tools/sources.sh NAME [--names] | --shipped'

# The crate and those below it, one a line.
below() {
    awk -v top="$1" '
        function walk(name, count, deps, i) {
            if (name in seen || !(name in line)) return
            seen[name] = 1
            count = split(line[name], deps, " ")
            for (i = 1; i <= count; i++) walk(deps[i])
        }
        { sub(/#.*/, "") }
        /:/ { name = $1; sub(/:$/, "", name); line[name] = substr($0, index($0, ":") + 1) }
        END { walk(top); for (name in seen) print name }' crates.txt | LC_ALL=C sort
}

# The checksum of what is read.
sum() {
    sha256sum | cut -d ' ' -f 1
}

# The checksum of a crate's sources.
of_crate() {
    names=$(below "$1")
    [ -n "$names" ] || { echo "tools/sources.sh: crates.txt has no crate $1" >&2; exit 2; }
    {
        for name in $names; do
            grep -E "^$name( staticlib)?:" crates.txt
        done
        for name in $names; do
            for part in src specs proofs; do
                [ ! -d "crates/$name/$part" ] || find "crates/$name/$part" -type f
            done
        done | LC_ALL=C sort | tr '\n' '\0' | xargs -0 sha256sum HANDLES
    } | sum
}

# The checksum of the library's sources, and of the files and folders that it is built with.
of_library() {
    { echo "$library"; find "$@" -type f | LC_ALL=C sort | tr '\n' '\0' | xargs -0 sha256sum; } | sum
}

case "${1:?"$usage"} ${2-}" in
    '--shipped ')
        library=$(of_crate witcall_c)
        shared=$(of_library include/witcall.h tools/build_library.py tools/shared.sh)
        echo "$(of_crate program)  witcall"
        echo "$(of_crate explain)  wit-explain"
        echo "$(of_crate vectors)  vectors"
        echo "$library  libwitcall_c.a"
        echo "$shared  libwitcall.so"
        echo "$(of_library include/witcall.h bindings/js/heap tools/build_library.py tools/wasm.sh)  witcall.wasm"
        echo "$(of_library packaging/aarch64 tools/build_library.py tools/aarch64.sh)  libwitcall-aarch64.a" ;;
    -*)
        echo "$usage" >&2
        exit 2 ;;
    *' --names') below "$1" ;;
    *' ') of_crate "$1" ;;
    *)
        echo "$usage" >&2
        exit 2 ;;
esac
