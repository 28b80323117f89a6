#!/bin/sh
# Builds what is shipped from what `rt ci` proved in this checkout.
#
# usage: tools/build.sh FOLDER
#
# FOLDER gets
#   witcall, wit-explain, vectors      the programs that `rt ci` built
#   libwitcall_c.a                     the library for C (tools/build_library.py)
#   liblibc_c.a                        the toolchain's archive that the library calls
#   libwitcall.so                      both as a shared library (tools/shared.sh)
#   witcall.wasm                       the library as a WebAssembly module (tools/wasm.sh)
#   libwitcall-aarch64.a               the library for Linux on aarch64, with its heap (tools/aarch64.sh)
#   toolchain                          the versions of what built them
# Of the crates only witcall_c is checked again, since the check of a static library leaves no files to link.
set -eu
folder=${1:?'usage: tools/build.sh FOLDER'}
mkdir -p "$folder"
folder=$(cd "$folder" && pwd)
cd "$(dirname "$0")/.."
RT_JOBS=${RT_JOBS:-$(tools/jobs.sh)}
export RT_JOBS
work=$(mktemp -d)
trap 'rm -rf "$work"' EXIT

cp crates/program/out/program "$folder/witcall"
cp crates/explain/out/explain "$folder/wit-explain"
cp crates/vectors/out/vectors "$folder/vectors"

python3 -B tools/build_library.py "$folder/libwitcall_c.a"
cp "$(dirname "$(rt doc)")/c/liblibc_c.a" "$folder"
tools/shared.sh "$folder"

# The other two begin with what that check kept, each with a copy of its own.
for one in module aarch64; do
    cp -R crates/witcall_c/out/incremental "$work/$one"
done
python3 -B tools/build_library.py --kept "$work/aarch64" --target aarch64-unknown-linux-gnu "$work/aarch64.a" &
python3 -B tools/build_library.py --kept "$work/module" --module "$work/library.bc" "$work/library.a"
tools/wasm.sh "$folder" "$work/library.bc"
wait $!
tools/aarch64.sh "$folder" "$work/aarch64.a"

{
    rt version
    tools/wasm.sh --versions
    tools/aarch64.sh --versions
} >"$folder/toolchain"
ls -l "$folder"
