#!/bin/sh
# Checks tools/install.sh and tools/deb.sh: what they install is there and works, and what they remove is gone.
#
# usage: tools/check_install.sh [FOLDER]
#
# What is installed is the release, or what FOLDER has of tools/build.sh. In a git checkout the script makes a root with
# this machine's compilers and nothing else of it. There a user with an empty home installs witcall, and builds the hosts
# of docs/C.md, that of examples/rust, and the package for Python. The Debian package is installed and removed in a folder
# as the root.
#
# It needs root, and what tools/setup.sh installs. Each check says `ok`; the exit status is 1 if one fails.
set -eu
from=${1-}
[ -z "$from" ] || from=$(cd "$from" && pwd)
cd "$(dirname "$0")/.."
version=$(cat VERSION)
text=$(python3 -B tools/version.py --text)
[ -n "$from" ] || text="$(cat release/version)+$(cat release/commit)"
SOURCE_DATE_EPOCH=${SOURCE_DATE_EPOCH:-$(git log -1 --format=%ct 2>/dev/null || date +%s)}
export SOURCE_DATE_EPOCH
work=$(mktemp -d)
trap 'rm -rf "$work"' EXIT
failed=0

# Runs a command, and says whether it went well.
check() {
    name=$1
    shift
    if "$@" >"$work/log" 2>&1; then
        echo "ok $name"
    else
        echo "FAILED $name"
        cat "$work/log"
        failed=1
    fi
}

# Every file and folder below one.
tree() {
    (cd "$1" && find . | LC_ALL=C sort)
}

install_to() {
    tools/install.sh --prefix "$@" ${from:+--from "$from"}
}

# Whether the program in a folder makes its first call.
calls() {
    [ "$("$1" call examples/c.wit a:b/c f '[7]' '[8]')" = 8 ]
}

# Whether wit-explain in a folder finds no fault in a text, and the fault of a broken one.
explains() {
    printf 'package a:b;\ninterface c { f: func(x: strng); }\n' >"$work/broken.wit"
    [ "$("$1" --version)" = "wit-explain $text" ] && "$1" check examples/c.wit || return 1
    status=0
    "$1" check "$work/broken.wit" >"$work/faults" || status=$?
    [ "$status" = 1 ] && grep -q 'broken.wit:2:26: error 41 unknown strng$' "$work/faults"
}

# Whether a program in C is built over what is installed, and needs only the C library.
builds() {
    printf '%s\n' '#include <witcall.h>' 'int main(void) {' \
        '    witcall_status status = {WITCALL_REFUSED, 63, 0, 0};' \
        '    return witcall_status_line(status, 0, 0).count != 20;' '}' >"$work/host.c"
    # shellcheck disable=SC2046 # the flags are words
    "${CC:-cc}" -o "$work/host" "$work/host.c" \
        $(PKG_CONFIG_PATH="$1/lib/pkgconfig" pkg-config --cflags --libs witcall) &&
        "$work/host" && [ "$(PKG_CONFIG_PATH="$1/lib/pkgconfig" pkg-config --modversion witcall)" = "$version" ]
}

# Whether a call by witcall_call.h is built in C and in C++, and made. It carries a number through both memories.
calls_linked() {
    cat >"$work/linked.c" <<'END'
#include <witcall_call.h>
static uint32_t add_one(void *context, const witcall_value *handed, uint32_t count, witcall_value *answer) {
    (void)context;
    *answer = handed[0];
    answer->bits += 1;
    return count;
}
int main(void) {
    static const char text[] = "package a:b; interface c { f: func(x: u32) -> u32; }";
    witcall_package package = WITCALL_NONE;
    witcall_array_memory none = {0, 0, 0}, other = {0, 0, 0};
    witcall_guest caller = witcall_array_guest(&none), callee = witcall_array_guest(&other);
    witcall_body body = {0, add_one, 0};
    witcall_link link = {&package, 0, &caller, &callee, &body};
    witcall_value flats[] = {{0, 6}}, back = {0, 0};
    if (witcall_open((const uint8_t *)text, sizeof text - 1, &package).code != WITCALL_DONE)
        return 1;
    link.func = witcall_find(&package, (const uint8_t *)"a:b/c", 5, (const uint8_t *)"f", 1).count;
    witcall_status called = witcall_link_call(&link, flats, 1, &back);
    witcall_close(&package);
    return called.code != WITCALL_DONE || back.bits != 7;
}
END
    for compiler in "${CC:-cc} -x c -std=c11" "${CXX:-c++} -x c++ -std=c++17"; do
        # shellcheck disable=SC2046,SC2086 # the flags are words
        $compiler -Wall -Wextra -Werror -o "$work/linked" "$work/linked.c" -x none \
            $(PKG_CONFIG_PATH="$1/lib/pkgconfig" pkg-config --cflags --libs witcall) && "$work/linked" || return 1
    done
}

# Whether the shared library has its SONAME, and exports the functions of the header and nothing else.
is_shared() {
    abi=$(sed -n 's/^#define WITCALL_ABI //p' include/witcall.h)
    [ "$(readlink "$1/libwitcall.so")" = "libwitcall.so.$abi" ] || return 1
    objdump -p "$1/libwitcall.so" | grep -q "SONAME  *libwitcall.so.$abi\$" || return 1
    sed -nE 's/^(witcall_status|void|uint32_t) (witcall_[a-z_]+)\(.*/\2/p' include/witcall.h |
        LC_ALL=C sort >"$work/declared"
    nm -D --defined-only "$1/libwitcall.so" | sed 's/.* //' | LC_ALL=C sort | diff "$work/declared" -
}

# Whether a program in C is built over the shared library, and finds it when it is run.
builds_shared() {
    # shellcheck disable=SC2046 # the flags are words
    "${CC:-cc}" -o "$work/shared-host" "$work/host.c" \
        $(PKG_CONFIG_PATH="$1/lib/pkgconfig" pkg-config --cflags --libs witcall-shared) || return 1
    objdump -p "$work/shared-host" | grep -q 'NEEDED  *libwitcall' && LD_LIBRARY_PATH="$1/lib" "$work/shared-host"
}

# Whether the manifest lists what is there, and nothing else.
is_listed() {
    (cd "$1" && find . ! -type d | sed 's|^\./||' | LC_ALL=C sort) >"$work/found"
    grep -v '/$' "$1/share/doc/witcall/manifest" | LC_ALL=C sort | diff - "$work/found"
}

# Whether an installation over another one has the same files.
is_same_again() {
    tree "$work/prefix" >"$work/before" && install_to "$work/prefix" && tree "$work/prefix" | diff "$work/before" -
}

# Whether a removal leaves what was there before, and a file that someone else put between.
is_removed() {
    mkdir -p "$work/shared/lib"
    echo other >"$work/shared/lib/other"
    install_to "$work/shared"
    echo mine >"$work/shared/share/mine"
    tools/install.sh --uninstall --prefix "$work/shared"
    tree "$work/shared" >"$work/after"
    printf '%s\n' . ./lib ./lib/other ./share ./share/mine | diff - "$work/after"
}

check install install_to "$work/prefix"
check program calls "$work/prefix/bin/witcall"
check wit-explain explains "$work/prefix/bin/wit-explain"
check wit-explain-man cmp packaging/wit-explain.1 "$work/prefix/share/man/man1/wit-explain.1"
check wit-explain-zsh cmp packaging/completions/_wit-explain "$work/prefix/share/zsh/site-functions/_wit-explain"
check wit-explain-fish cmp packaging/completions/wit-explain.fish \
    "$work/prefix/share/fish/vendor_completions.d/wit-explain.fish"
check library builds "$work/prefix"
check call-header calls_linked "$work/prefix"
check shared-library is_shared "$work/prefix/lib"
check shared-library-host builds_shared "$work/prefix"
check manifest is_listed "$work/prefix"
check again is_same_again
check uninstall tools/install.sh --uninstall --prefix "$work/prefix"
check nothing-left [ ! -e "$work/prefix" ]
check others-files-stay is_removed
check destdir install_to /opt/tools --destdir "$work/stage"
check destdir-prefix grep -q '^prefix=/opt/tools$' "$work/stage/opt/tools/lib/pkgconfig/witcall.pc"
check destdir-uninstall tools/install.sh --uninstall --prefix /opt/tools --destdir "$work/stage"

# ---- a clean root

# What that user does.
cat >"$work/first.sh" <<'END'
set -eux
cd "$HOME/witcall"
prefix="$HOME/.local"
tools/install.sh --prefix "$prefix" "$@"
[ "$("$prefix/bin/witcall" call examples/c.wit a:b/c f '[7]' '[8]')" = 8 ]
"$prefix/bin/wit-explain" check examples/c.wit
export PKG_CONFIG_PATH="$prefix/lib/pkgconfig" CMAKE_PREFIX_PATH="$prefix"
cc -o host examples/c/host.c $(pkg-config --cflags --libs witcall)
./host | diff examples/c/host.expected -
cmake -S examples/c -B build
cmake --build build
build/host | diff examples/c/host.expected -
sed -i 's/witcall::witcall/witcall::shared/' examples/c/CMakeLists.txt
cmake -S examples/c -B shared
cmake --build shared
shared/host | diff examples/c/host.expected -
cargo run --quiet --offline --manifest-path examples/rust/Cargo.toml | diff examples/rust/host.expected -
python3 -m venv --system-site-packages python
python/bin/pip install --quiet --no-index --no-build-isolation ./bindings/python
released="$(cat release/version)+$(cat release/commit)"
[ "$(cd / && "$HOME/witcall/python/bin/python" -c 'import witcall; print(witcall.library_version())')" = "$released" ]
tools/install.sh --uninstall --prefix "$prefix"
[ ! -e "$prefix" ]
END

# Mounts what a root is to have of this machine, and runs a command there as a user.
cat >"$work/enter.sh" <<'END'
set -eu
clean=$1 rust=$2
shift 2
mount -t proc proc "$clean/proc"
mount --bind /dev/null "$clean/dev/null"
for folder in /usr /bin /lib /lib64 $rust; do
    to="$clean$folder"
    [ "$folder" != "$rust" ] || to="$clean/opt/rust"
    mount --bind "$folder" "$to"
    mount -o remount,bind,ro "$to"
done
exec chroot --userspec=1000:1000 "$clean" /usr/bin/env -i HOME=/home/user PATH=/opt/rust/bin:/usr/bin:/bin \
    RUSTFLAGS="${RUSTFLAGS-}" "$@"
END

# The user's steps.
works_in_clean_root() {
    clean="$work/clean"
    rust=$(rustc --print sysroot || true)
    for folder in usr bin lib lib64 opt/rust etc proc dev tmp home/user/witcall; do
        mkdir -p "$clean/$folder"
    done
    touch "$clean/dev/null"
    cp -a /etc/alternatives /etc/ld.so.cache "$clean/etc"
    git ls-files -z | xargs -0 cp --parents -t "$clean/home/user/witcall"
    cp "$work/first.sh" "$clean/home/user"
    chown -R 1000:1000 "$clean/home/user"
    chmod 1777 "$clean/tmp"
    [ -z "$from" ] || cp -R "$from" "$clean/home/user/built"
    timeout 600 unshare --mount --pid --fork sh "$work/enter.sh" "$clean" "$rust" sh /home/user/first.sh \
        ${from:+--from /home/user/built}
}

check root [ "$(id -u)" = 0 ]
check clean-root works_in_clean_root

# ---- the Debian package

if ! tools/deb.sh ${from:+--from "$from"} "$work" >"$work/log" 2>&1; then
    echo "FAILED deb"
    cat "$work/log"
    exit 1
fi
deb=$(tail -n 1 "$work/log")
root="$work/root"

# dpkg in a root of its own.
dpkg_in() {
    dpkg --root="$root" --force-depends --log="$work/dpkg.log" "$@"
}

mkdir -p "$root/var/lib/dpkg/info" "$root/var/lib/dpkg/updates" "$root/var/lib/dpkg/triggers"
: >"$root/var/lib/dpkg/status"
: >"$root/var/lib/dpkg/available"

# Whether each file has the mode that it is to have, and belongs to root.
has_modes() {
    dpkg-deb -c "$deb" | awk '
        { wanted = $6 ~ /^\.\/usr\/bin\// ? "-rwxr-xr-x" : "-rw-r--r--" }
        $1 ~ /^d/ { wanted = "drwxr-xr-x" }
        $1 ~ /^l/ { wanted = "lrwxrwxrwx" }
        $1 != wanted || $2 != "root/root" { print; wrong = 1 }
        END { exit wrong }'
}

has_fields() {
    for field in Package Version Architecture Maintainer Installed-Size Depends Section Priority Description; do
        [ -n "$(dpkg-deb -f "$deb" "$field")" ] || { echo "no $field"; return 1; }
    done
}

# Whether md5sums has each file of the package once, and no other.
has_sums() {
    (cd "$root" && md5sum --quiet -c var/lib/dpkg/info/witcall.md5sums) || return 1
    dpkg-deb -c "$deb" | awk '$1 ~ /^-/ { print substr($6, 3) }' | LC_ALL=C sort >"$work/files"
    sed 's/^[0-9a-f]*  //' "$root/var/lib/dpkg/info/witcall.md5sums" | LC_ALL=C sort | diff - "$work/files"
}

# Whether a file is compressed as Debian asks: as well as gzip can, and without a name and a time.
is_packed() {
    gzip -dc "$root/usr/share/$1" | gzip -9nc | cmp - "$root/usr/share/$1"
}

shared_library() {
    echo "$root/usr/lib/x86_64-linux-gnu/libwitcall.so"
}

# Whether other packages can depend on the shared library, and the system's loader is told of it.
has_shlibs() {
    is_shared "$root/usr/lib/x86_64-linux-gnu" || return 1
    grep -q '^libwitcall [0-9]* witcall (>= ' "$root/var/lib/dpkg/info/witcall.shlibs" || return 1
    grep -q '^activate-noawait ldconfig$' "$root/var/lib/dpkg/info/witcall.triggers"
}

# Whether the package depends on the C library that the programs and the shared library need.
needs_libc() {
    needed=$(objdump -T "$root/usr/bin/witcall" "$root/usr/bin/wit-explain" "$(shared_library)" |
        grep -o 'GLIBC_[0-9.]*' | sort -uV | tail -n 1)
    [ "$(dpkg-deb -f "$deb" Depends)" = "libc6 (>= ${needed#GLIBC_})" ]
}

# Whether a man page is rendered without a warning, as lintian asks man.
is_rendered() {
    gzip -dc "$root/usr/share/man/man1/$1.gz" >"$work/$1"
    LC_ALL=C.UTF-8 MANROFFSEQ='' MANWIDTH=80 man --warnings -E UTF-8 -l -Tutf8 -Z "$work/$1" 2>&1 >/dev/null |
        tee "$work/warnings"
    [ ! -s "$work/warnings" ]
}

# Whether Debian's changelog is read, and has the package's version.
has_changelog() {
    gzip -dc "$root/usr/share/doc/witcall/changelog.Debian.gz" >"$work/changelog"
    [ "$(dpkg-parsechangelog -l "$work/changelog" -S Version 2>&1)" = "$version-1" ]
}

# Whether the same sources make the same bytes.
is_made_again() {
    mkdir "$work/again"
    tools/deb.sh ${from:+--from "$from"} "$work/again" && cmp "$deb" "$work/again/${deb##*/}"
}

is_gone() {
    [ -z "$(find "$root" -path "$root/var" -prune -o -type f -print)" ] && ! dpkg_in -s witcall
}

check deb-install dpkg_in -i "$deb"
check deb-program calls "$root/usr/bin/witcall"
check deb-wit-explain explains "$root/usr/bin/wit-explain"
check deb-fields has_fields
check deb-modes has_modes
check deb-sums has_sums
check deb-libc needs_libc
check deb-shlibs has_shlibs
for file in doc/witcall/changelog.gz doc/witcall/changelog.Debian.gz man/man1/witcall.1.gz man/man1/wit-explain.1.gz; do
    check "deb-${file##*/}" is_packed "$file"
done
for page in witcall.1 wit-explain.1; do
    check "deb-man-$page" is_rendered "$page"
done
check deb-changelog has_changelog
check deb-again is_made_again
check deb-licence grep -q 'has given no licence' "$root/usr/share/doc/witcall/copyright"
check deb-manifest [ ! -e "$root/usr/share/doc/witcall/manifest" ]
check deb-remove dpkg_in --purge witcall
check deb-gone is_gone
check lintian lintian --fail-on error,warning "$deb"
exit $failed
