#!/bin/sh
# Makes a Debian package of what tools/install.sh installs.
#
# usage: tools/deb.sh [--from BUILT] [FOLDER]
#
# FOLDER gets witcall_VERSION-1_amd64.deb; by default it is the one where the script is called. The path is printed. What
# is packed is the release, or what BUILT has of tools/build.sh. The variables DEBFULLNAME and DEBEMAIL name the
# maintainer. The package has the same bytes for the same sources and the same SOURCE_DATE_EPOCH, which is the time of
# the last commit if it is not set. It needs dpkg-deb.
set -eu
here=$PWD
cd "$(dirname "$0")/.."
from=''
if [ "${1-}" = --from ]; then
    from=$(cd "$here" && cd "${2:?'usage: tools/deb.sh [--from BUILT] [FOLDER]'}" && pwd)
    shift 2
fi
folder=$(cd "$here" && mkdir -p "${1:-.}" && cd "${1:-.}" && pwd)
version=$(cat VERSION)-1
maintainer="${DEBFULLNAME:-witcall} <${DEBEMAIL:-witcall@example.org}>"
SOURCE_DATE_EPOCH=${SOURCE_DATE_EPOCH:-$(git log -1 --format=%ct 2>/dev/null || date +%s)}
export SOURCE_DATE_EPOCH
umask 022
stage=$(mktemp -d)
trap 'rm -rf "$stage"' EXIT
chmod 755 "$stage"

tools/install.sh --prefix /usr --libdir lib/x86_64-linux-gnu --destdir "$stage" ${from:+--from "$from"} >&2
doc="$stage/usr/share/doc/witcall"

# ---- what Debian has elsewhere

rm "$doc/manifest"
mkdir -p "$stage/usr/share/zsh/vendor-completions" "$stage/usr/share/lintian/overrides"
mv "$stage/usr/share/zsh/site-functions/"_wit* "$stage/usr/share/zsh/vendor-completions"
rmdir "$stage/usr/share/zsh/site-functions"
mv "$doc/CHANGELOG.md" "$doc/changelog"
cat >"$doc/changelog.Debian" <<END
witcall ($version) unstable; urgency=medium

  * Version $(cat VERSION); see changelog.gz.

 -- $maintainer  $(LC_ALL=C date -u -R -d "@$SOURCE_DATE_EPOCH")
END
gzip -9n "$doc/changelog" "$doc/changelog.Debian" "$stage/usr/share/man/man1/"*.1
install -m 644 packaging/copyright "$doc/copyright"
install -m 644 packaging/lintian-overrides "$stage/usr/share/lintian/overrides/witcall"

# ---- control files

mkdir "$stage/DEBIAN"
size=$(find "$stage/usr" -type f -printf '%s\n' | awk '{ total += int(($1 + 1023) / 1024) } END { print total }')
cat >"$stage/DEBIAN/control" <<END
Package: witcall
Version: $version
Architecture: amd64
Maintainer: $maintainer
Installed-Size: $size
Depends: libc6 (>= 2.34)
Section: devel
Priority: optional
Description: typed calls of WebAssembly components between two memories
 witcall reads WIT packages of the component model, computes their layouts by
 the Canonical ABI, and carries typed calls from one linear memory into
 another. wit-explain shows the faults of WIT files and the bytes of types.
 This package has both programs, and the library for hosts in C with its
 headers, as an archive and as a shared library. Each contract of its code is
 proved for all inputs.
END
abi=$(sed -n 's/^#define WITCALL_ABI \([0-9]*\)$/\1/p' include/witcall.h)
echo "libwitcall $abi witcall (>= $(cat VERSION))" >"$stage/DEBIAN/shlibs"
echo "activate-noawait ldconfig" >"$stage/DEBIAN/triggers"
(cd "$stage" && find usr -type f -print0 | LC_ALL=C sort -z | xargs -0 md5sum) >"$stage/DEBIAN/md5sums"
chmod 644 "$stage/DEBIAN"/*
package="$folder/witcall_${version}_amd64.deb"
dpkg-deb --root-owner-group --build "$stage" "$package" >&2
echo "$package"
