#!/bin/sh
# Links the library for C as a shared library, which exports the functions of include/witcall.h and nothing else.
#
# usage: tools/shared.sh FOLDER      makes FOLDER/libwitcall.so of libwitcall_c.a and liblibc_c.a there
#
# The SONAME is libwitcall.so.N, for the number N of the binary interface in include/witcall.h. The toolchain's linker
# and its C library are taken, and not the machine's: so the same archives make the same bytes everywhere.
set -eu
folder=${1:?'usage: tools/shared.sh FOLDER'}
folder=$(cd "$folder" && pwd)
cd "$(dirname "$0")/.."
tools=$(dirname "$(rt doc)")/toolchain
exported=$(mktemp)
trap 'rm -f "$exported"' EXIT

abi=$(sed -n 's/^#define WITCALL_ABI \([0-9]*\)$/\1/p' include/witcall.h)
functions=$(sed -nE 's/^(witcall_status|void|uint32_t) (witcall_[a-z_]+)\(.*/\2;/p' include/witcall.h)
echo "{ global: $functions local: *; };" >"$exported"
"$tools/bin/ld.lld" -shared --soname "libwitcall.so.$abi" --version-script "$exported" --no-undefined-version \
    --fatal-warnings --strip-all --gc-sections --build-id=sha1 -z defs -z noexecstack -z relro -z now \
    -o "$folder/libwitcall.so" --whole-archive "$folder/libwitcall_c.a" --no-whole-archive "$folder/liblibc_c.a" \
    "$tools/lib/libc.so.6"
