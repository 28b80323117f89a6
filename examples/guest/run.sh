#!/bin/sh
# Builds the guest of guest.c over its header club.h, without a C library, puts its world into it, makes a component of
# it, and calls it in Node by bindings/js.
#
# usage: examples/guest/run.sh [BUILD]
#
# BUILD is the folder that it builds in, else a temporary one. WIT_EXPLAIN is the program wit-explain, else that of the
# release. It needs clang, lld and Node. rustc's linker of components, wasm-component-ld, makes the component: without it
# the script says so. What Node prints is compared with guest.expected. The exit status is 1 if a step fails.
set -eu
here=$(cd "$(dirname "$0")" && pwd)
root=$(cd "$here/../.." && pwd)
if [ $# -gt 0 ]; then
    mkdir -p "$1"
    build=$(cd "$1" && pwd)
else
    build=$(mktemp -d)
    trap 'rm -rf "$build"' EXIT
fi
if [ -z "${WIT_EXPLAIN-}" ]; then
    WIT_EXPLAIN="$build/wit-explain"
    gzip -dc "$root/release/wit-explain.gz" >"$WIT_EXPLAIN"
    chmod +x "$WIT_EXPLAIN"
fi

# The guest, and an object whose section has its world.
clang --target=wasm32 -O2 -Wall -Wextra -Werror -c -o "$build/guest.o" "$here/guest.c"
"$WIT_EXPLAIN" encode --world club -o "$build/club.wasm" "$here/guest.wit"
printf '.section ".custom_section.component-type:club","",@\n.incbin "%s"\n' "$build/club.wasm" >"$build/world.s"
clang --target=wasm32 -c -o "$build/world.o" "$build/world.s"
wasm-ld --no-entry -o "$build/guest.wasm" "$build/guest.o" "$build/world.o"

# The module carries its world, which another tool finds there.
"$WIT_EXPLAIN" decode "$build/guest.wasm" >"$build/decoded.wit"
mkdir -p "$build/decoded"
mv "$build/decoded.wit" "$build/decoded/guest.wit"
"$WIT_EXPLAIN" encode --world club -o "$build/again.wasm" "$build/decoded"
cmp "$build/club.wasm" "$build/again.wasm"

linker=$(find "$(rustc --print sysroot 2>/dev/null)/lib/rustlib" -name wasm-component-ld 2>/dev/null | head -n 1)
if [ -n "$linker" ]; then
    "$linker" --wasm-ld-path "$(command -v wasm-ld)" --wasi-adapter none --no-entry -o "$build/guest.component.wasm" \
        "$build/guest.o" "$build/world.o"
    echo "ok component"
else
    echo "LEFT OUT: no component is made, since rustc has no wasm-component-ld here"
fi
node "$here/host.mjs" "$build/guest.wasm" >"$build/guest.out"
diff "$here/guest.expected" "$build/guest.out"
echo "ok guest"
