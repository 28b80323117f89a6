#!/bin/sh
# Installs Debian's packages that the tests need and this machine lacks.
#
# usage: tools/setup.sh
#
# Run by root where there is apt-get, it installs each missing package, with a line for it. Elsewhere it prints the one
# line of apt-get to run, and the exit status is 1. It is 1 also if a tool is still missing afterwards. The toolchain's
# rt is no package of Debian, and is not needed here.
set -eu
root=$(cd "$(dirname "$0")/.." && pwd)

# Whether there is what a package is for: a program, or what a command finds.
has() {
    case "$1" in
        headers-of-node) [ -f "$(dirname "$(dirname "$(command -v node)")")/include/node/node_api.h" ] ;;
        libfuzzer) has_library fuzzer ;;
        sanitizers-of-clang) has_library address ;;
        libc-for-wasm) [ -f /usr/lib/wasm32-wasi/libc.a ] ;;
        builtins-for-wasm) [ -f "$(clang --target=wasm32-wasi -print-libgcc-file-name)" ] ;;
        libc-for-aarch64) [ -f /usr/aarch64-linux-gnu/lib/libc.a ] ;;
        new-rustc) has_new_rustc ;;
        module-*) /usr/bin/python3 -c "import ${1#module-}" 2>/dev/null ;;
        *) command -v "$1" >/dev/null ;;
    esac
}

# Whether clang has one of its libraries.
has_library() {
    echo 'int LLVMFuzzerTestOneInput(const char *data, unsigned long size) { return !data && size; }' |
        clang -fsanitize="fuzzer,$1" -x c -o /dev/null - 2>/dev/null
}

# Whether rustc is as new as the crate asks.
has_new_rustc() {
    wanted=$(sed -n 's/^rust-version = "\(.*\)"$/\1/p' "$root/bindings/rust/Cargo.toml")
    there=$(rustc --version 2>/dev/null | cut -d' ' -f2)
    [ -n "$there" ] && [ "$(printf '%s\n' "$wanted" "$there" | sort -V | head -n 1)" = "$wanted" ]
}

# What is needed, each with its package. Debian 12 has a rustc that is too old, and a newer one in packages of its own.
needed() {
    if grep -q '^VERSION_ID="12"' /etc/os-release; then
        cargo=cargo-web clippy=rust-web-clippy rustfmt=rustfmt-web
    else
        cargo=cargo clippy=rust-clippy rustfmt=rustfmt
    fi
    cat <<END
cc gcc
c++ g++
ar binutils
make make
cmake cmake
pkg-config pkg-config
clang clang
wasm-ld lld
libfuzzer libclang-rt-14-dev
libc-for-wasm wasi-libc
builtins-for-wasm libclang-rt-dev-wasm32
valgrind valgrind
node nodejs
npm npm
headers-of-node libnode-dev
tsc node-typescript
wasm-opt binaryen
wasm2c wabt
aarch64-linux-gnu-gcc gcc-aarch64-linux-gnu
libc-for-aarch64 libc6-dev-arm64-cross
qemu-aarch64 qemu-user
chromium chromium
python3 python3
module-ensurepip python3-venv
module-setuptools python3-setuptools
module-wheel python3-wheel
mypy mypy
new-rustc $cargo
new-rustc $clippy
new-rustc $rustfmt
cargo $cargo
cargo-clippy $clippy
rustfmt $rustfmt
fish fish
zsh zsh
man man-db
tmux tmux
lintian lintian
fakeroot fakeroot
dpkg-deb dpkg
dpkg-parsechangelog dpkg-dev
unshare util-linux
git git
END
}

# The packages of what is missing, one a line.
missing() {
    needed | while read -r tool package; do
        has "$tool" || echo "$package"
    done | sort -u
}

packages=$(missing)
[ -n "$packages" ] || exit 0
line="apt-get install -y --no-install-recommends $(echo "$packages" | tr '\n' ' ')"
if [ "$(id -u)" != 0 ] || ! command -v apt-get >/dev/null; then
    echo "tools/setup.sh: the tests need more than is here. Run by root: $line" >&2
    exit 1
fi
log=$(mktemp)
trap 'rm -f "$log"' EXIT
for attempt in 1 2 3; do
    DEBIAN_FRONTEND=noninteractive
    export DEBIAN_FRONTEND
    # shellcheck disable=SC2086 # the packages are words
    { apt-get update && apt-get install -y --no-install-recommends $packages; } >"$log" 2>&1 && break
    [ "$attempt" = 3 ] || sleep 10
done
for package in $packages; do
    echo "$package"
done
packages=$(missing)
[ -z "$packages" ] || { cat "$log"; echo "tools/setup.sh: still missing: $packages" >&2; exit 1; }
