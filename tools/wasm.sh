#!/bin/sh
# Makes the library for C as one WebAssembly module without imports, from the sources of this checkout.
#
# usage: tools/wasm.sh FOLDER [MODULE]      makes FOLDER/witcall.wasm, of the LLVM module MODULE if it is given
#        tools/wasm.sh --versions           prints the versions of what makes it
#
# The library is proved and built for x86-64, and the LLVM module that the toolchain makes on the way is kept
# (tools/build_library.py). From there on nothing is proved:
#   1. The layout of data, the target and the processor of the module become those of wasm64. Both have 64-bit pointers.
#   2. The toolchain's clang compiles it, and the heap of bindings/js/heap.
#   3. The toolchain's lld links them.
#   4. wasm-opt of binaryen lowers the memory to one of 32 bits, which each engine has, and makes the code small.
# The libraries below crates/witcall_c have to be built, as the gate or `rt lib` leaves them.
set -eu
usage='usage: tools/wasm.sh FOLDER [MODULE] | --versions'
what=${1:?"$usage"}
given=${2-}
[ "$what" = --versions ] || what=$(cd "$what" && pwd)
[ -z "$given" ] || given=$(cd "$(dirname "$given")" && pwd)/$(basename "$given")
cd "$(dirname "$0")/.."

for tool in rt python3 wasm-opt; do
    command -v "$tool" >/dev/null || {
        echo "tools/wasm.sh: no $tool (wasm-opt is of Debian's package binaryen)" >&2
        exit 1
    }
done
kit=$(dirname "$(rt doc)")
work=$(mktemp -d)
trap 'rm -rf "$work"' EXIT
# The toolchain's clang is every tool of LLVM that it is called as.
for tool in clang llvm-nm wasm-ld; do
    ln -s "$kit/toolchain/bin/clang" "$work/$tool"
done
if [ "$what" = --versions ]; then
    "$work/clang" --version | head -n 1
    "$work/wasm-ld" --version
    wasm-opt --version
    exit
fi

# ---- 1. the LLVM module for wasm64

if [ -n "$given" ]; then
    cp "$given" "$work/library.bc"
else
    python3 -B tools/build_library.py --module "$work/library.bc" "$work/library.a"
fi
"$work/clang" --target=x86_64-unknown-linux-gnu --no-default-config -x ir -S -emit-llvm -Xclang -disable-llvm-passes \
    -o "$work/library.ll" "$work/library.bc"
layout='e-m:e-p:64:64-p10:8:8-p20:8:8-i64:64-i128:128-n32:64-S128-ni:1:10:20'
sed -E -i -e "s/^target datalayout = .*/target datalayout = \"$layout\"/" \
    -e 's/^target triple = .*/target triple = "wasm64-unknown-unknown"/' \
    -e 's/"probe-stack"="inline-asm" "stack-probe-size"="[0-9]*"//' \
    -e 's/"target-cpu"="[^"]*"/"target-cpu"="lime1"/' "$work/library.ll"

# ---- 2. and 3. one module with a memory of 64 bits

wasm64='--target=wasm64-unknown-unknown -mcpu=lime1 --no-default-config -ffunction-sections -fdata-sections'
# shellcheck disable=SC2086 # the flags are words
"$work/clang" $wasm64 -Wno-override-module -O3 -mllvm -trap-unreachable -mllvm -expand-div-rem-bits=64 \
    -mllvm -expand-fp-convert-bits=64 -x ir -c -o "$work/library.o" "$work/library.ll"
for part in heap memory multiply shift; do
    # shellcheck disable=SC2086 # the flags are words
    "$work/clang" $wasm64 -std=gnu11 -O2 -Wall -Wextra -Werror -ffreestanding -fno-builtin -c -o "$work/$part.o" \
        "bindings/js/heap/$part.c"
done
exports=$(sed -n -E 's/^(witcall_status|void|uint32_t) (witcall_[a-z_]+)\(.*/--export=\2/p' include/witcall.h)
# shellcheck disable=SC2086 # each export is a word
"$work/wasm-ld" -mwasm64 --no-entry --strip-all --stack-first -z stack-size=1048576 --gc-sections --fatal-warnings \
    $exports --export=malloc --export=free -o "$work/wide.wasm" "$work"/*.o

# ---- 4. a memory of 32 bits

wasm-opt --enable-memory64 --enable-bulk-memory --enable-sign-ext --enable-nontrapping-float-to-int \
    --enable-mutable-globals --enable-multivalue --memory64-lowering -Oz "$work/wide.wasm" -o "$what/witcall.wasm"
