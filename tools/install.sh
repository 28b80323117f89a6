#!/bin/sh
# Installs witcall: the programs witcall and wit-explain, the library for C in one archive and as a shared library, its
# headers, and what finds and documents them.
#
# usage: tools/install.sh [--prefix DIR] [--libdir NAME] [--destdir DIR] [--from FOLDER]
#        tools/install.sh --uninstall [--prefix DIR] [--destdir DIR]
#
# DIR is /usr/local if --prefix is not given, and NAME, the folder of libraries in it, is lib. With --destdir the files
# go below that folder, for a package of a distribution.
#
# What is installed is the release, or what FOLDER has of tools/build.sh. It needs ar, gzip and the usual commands of a
# POSIX system.
#
# PREFIX/share/doc/witcall/manifest has each file and folder that was made, and --uninstall removes these. An
# installation over an earlier one removes that first. The exit status is 1 if something can't be done, and 2 for wrong
# words.
set -eu
here=$PWD
cd "$(dirname "$0")/.."

fail() {
    echo "install: $1" >&2
    exit "${2:-1}"
}

# ---- words

prefix=/usr/local libdir=lib destdir='' from='' uninstall=''
while [ $# -gt 0 ]; do
    case "$1" in
        --prefix | --libdir | --destdir | --from)
            [ $# -gt 1 ] || fail "$1 needs a folder" 2
            words="$1=$2"
            shift 2
            set -- "$words" "$@"
            continue ;;
        --prefix=*) prefix=${1#*=} ;;
        --libdir=*) libdir=${1#*=} ;;
        --destdir=*) destdir=${1#*=} ;;
        --from=*) from=${1#*=} ;;
        --uninstall) uninstall=yes ;;
        *)
            words="[--prefix DIR] [--libdir NAME] [--destdir DIR] [--from FOLDER | --uninstall]"
            fail "usage: tools/install.sh $words" 2 ;;
    esac
    shift
done

# A folder as an absolute path.
absolute() {
    case "$1" in
        /*) echo "${1%/}" ;;
        *) echo "$here/${1%/}" ;;
    esac
}

prefix=$(absolute "$prefix")
[ -z "$destdir" ] || destdir=$(absolute "$destdir")
to="$destdir$prefix"
manifest=share/doc/witcall/manifest

# ---- removal

# Removes what the manifest lists: files first, then folders, inner ones first, if they are empty.
remove() {
    listed=$(cat "$to/$manifest")
    printf '%s\n' "$listed" | grep -v '/$' | while read -r file; do
        rm -f "$to/$file"
    done
    printf '%s\n' "$listed" | grep '/$' | LC_ALL=C sort -r | while read -r folder; do
        rmdir "$to/${folder#./}" 2>/dev/null || true
    done
}

if [ -n "$uninstall" ]; then
    [ -f "$to/$manifest" ] || fail "nothing is installed in $to"
    remove
    exit
fi

# ---- what is installed

work=$(mktemp -d)
trap 'rm -rf "$work"' EXIT

. tools/shipped.sh
files='witcall wit-explain libwitcall_c.a liblibc_c.a libwitcall.so'
if [ -z "$from" ]; then
    # shellcheck disable=SC2086 # the names are words
    unpack "$work" $files || fail "release/ is damaged"
    version="$(cat release/version) ($(cat release/commit))"
else
    from=$(absolute "$from")
    for file in $files; do
        cp "$from/$file" "$work" || fail "$from has no $file: tools/build.sh makes it"
    done
    version="$(cat VERSION) (of $from)"
fi

# The library and the part of the kit that it calls, in one archive.
(cd "$work" &&
    printf '%s\n' 'create libwitcall.a' 'addlib libwitcall_c.a' 'addlib liblibc_c.a' save end | "${AR:-ar}" -M)
number=$(cat VERSION)
abi=$(sed -n 's/^#define WITCALL_ABI \([0-9]*\)$/\1/p' include/witcall.h)

# A text as what sed puts for another.
quoted() {
    printf '%s' "$1" | sed 's/[&|\\]/\\&/g'
}

# Fills the places of a template.
filled() {
    sed "s|@PREFIX@|$(quoted "$prefix")|g; s|@LIBDIR@|$(quoted "$libdir")|g; s|@VERSION@|$number|g; s|@ABI@|$abi|g" \
        "packaging/$1.in" >"$work/$1"
}

filled witcall.pc
filled witcall-shared.pc
filled witcall-config.cmake
filled witcall-config-version.cmake

# ---- installation

# Makes a folder of the prefix with those around it, and notes those that were not there.
make_folder() {
    [ ! -d "$to/$1" ] || return 0
    [ "$1" = . ] || make_folder "$(dirname "$1")"
    install -d -m 755 "$to/$1"
    echo "$1/" >>"$work/manifest"
}

# Installs a file: its mode, the file, and its path in the prefix.
put() {
    make_folder "$(dirname "$3")"
    install -m "$1" "$2" "$to/$3"
    echo "$3" >>"$work/manifest"
}

# Makes a link: the name that it stands for in its own folder, and its path in the prefix.
put_link() {
    make_folder "$(dirname "$2")"
    ln -sf "$1" "$to/$2"
    echo "$2" >>"$work/manifest"
}

[ ! -f "$to/$manifest" ] || remove
: >"$work/manifest"
for program in witcall wit-explain; do
    put 755 "$work/$program" "bin/$program"
    put 644 "packaging/$program.1" "share/man/man1/$program.1"
    put 644 "packaging/completions/$program.bash" "share/bash-completion/completions/$program"
    put 644 "packaging/completions/_$program" "share/zsh/site-functions/_$program"
    put 644 "packaging/completions/$program.fish" "share/fish/vendor_completions.d/$program.fish"
done
put 644 "$work/libwitcall.a" "$libdir/libwitcall.a"
put 644 "$work/libwitcall.so" "$libdir/libwitcall.so.$abi"
put_link "libwitcall.so.$abi" "$libdir/libwitcall.so"
for header in witcall.h witcall_call.h; do
    put 644 "include/$header" "include/$header"
done
put 644 "$work/witcall.pc" "$libdir/pkgconfig/witcall.pc"
put 644 "$work/witcall-shared.pc" "$libdir/pkgconfig/witcall-shared.pc"
put 644 "$work/witcall-config.cmake" "$libdir/cmake/witcall/witcall-config.cmake"
put 644 "$work/witcall-config-version.cmake" "$libdir/cmake/witcall/witcall-config-version.cmake"
for page in README.md CHANGELOG.md CONTRIBUTING.md SECURITY.md docs/*.md docs/api/*.md docs/guarantees/*.md \
    docs/pictures/*.svg; do
    put 644 "$page" "share/doc/witcall/$page"
done
echo "$manifest" >>"$work/manifest"
install -m 644 "$work/manifest" "$to/$manifest"
echo "witcall $version is in $to"
