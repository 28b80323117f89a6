#!/bin/sh
# Checks release/, which changes only with VERSION.
#
# usage: tools/check_release.sh [FOLDER]
#
# It has each shipped file and no other. Each is, unpacked, what SHA256SUMS says. Its version is that of VERSION, and its
# programs and libraries tell this version with its commit. The last commit that changed release/ changed VERSION, too.
# In a commit that changes VERSION each file was built from the sources of that commit.
#
# With FOLDER, which tools/build.sh made, each file that was built from these sources by the same toolchain has to be
# FOLDER's, byte for byte. The exit status is 1 if something is wrong.
set -eu
folder=${1-}
[ -z "$folder" ] || folder=$(cd "$folder" && pwd)
cd "$(dirname "$0")/.."
. tools/shipped.sh
work=$(mktemp -d)
trap 'rm -rf "$work"' EXIT

fail() {
    echo "tools/check_release.sh: $1"
    exit 1
}

# ---- the files

for file in $SHIPPED; do
    echo "$file.gz"
done >"$work/wanted"
printf '%s\n' SHA256SUMS sources toolchain version commit >>"$work/wanted"
(cd release && find . -path ./out -prune -o -type f -print) | sed 's|^\./||' | LC_ALL=C sort >"$work/found"
LC_ALL=C sort "$work/wanted" | diff - "$work/found" || fail "release/ has other files than it should have"
unpack "$work" || exit 1
cut -d ' ' -f 3 release/SHA256SUMS | tr '\n' ' ' | grep -qx "$SHIPPED " ||
    fail "release/SHA256SUMS names other files"

# ---- the version

version=$(cat release/version) commit=$(cat release/commit)
[ "$version" = "$(cat VERSION)" ] || fail "release/ is $version, and VERSION is $(cat VERSION)"
[ "$("$work/wit-explain" --version)" = "wit-explain $version+$commit" ] ||
    fail "the released wit-explain calls itself $("$work/wit-explain" --version), and not $version+$commit"
for file in libwitcall_c.a libwitcall.so witcall.wasm libwitcall-aarch64.a; do
    grep -qaF "$version+$commit" "$work/$file" || fail "$file of the release does not call itself $version+$commit"
done

# ---- when it changes

# Whether VERSION is another one here than before the last commit.
changes_version() {
    git diff --quiet HEAD -- VERSION || return 0
    git rev-parse --quiet --verify HEAD^ >/dev/null || return 1
    ! git diff --quiet HEAD^ HEAD -- VERSION
}

git rev-parse --git-dir >/dev/null || fail "this is no git checkout"
tools/sources.sh --shipped >"$work/sources"
if changes_version; then
    diff release/sources "$work/sources" || fail "VERSION changes, and release/ was built from other sources"
else
    git diff --quiet HEAD -- release || fail "release/ changes, and VERSION does not"
    [ "$(git log -1 --format=%H -- release)" = "$(git log -1 --format=%H -- VERSION)" ] ||
        fail "release/ changed in a commit that did not change VERSION"
fi

# ---- what was built here

[ -n "$folder" ] || exit 0
if ! cmp -s release/toolchain "$folder/toolchain"; then
    ! changes_version || fail "VERSION changes, and another toolchain built release/"
    echo "the release is of another toolchain: $(head -n 1 release/toolchain)"
    exit
fi
same=0
for file in $SHIPPED; do
    grep "  $file\$" release/sources >"$work/line" || echo >"$work/line"
    # the toolchain's own archive has no sources here
    [ "$file" = liblibc_c.a ] || grep -qxf "$work/line" "$work/sources" || continue
    cmp "$work/$file" "$folder/$file" || fail "$file of the release is not what was built here of the same sources"
    same=$((same + 1))
done
echo "$same files of the release $version+$commit are what was built here, byte for byte"
