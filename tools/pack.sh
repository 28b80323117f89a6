#!/bin/sh
# Packs a folder of tools/build.sh as release/ has it.
#
# usage: tools/pack.sh FOLDER RELEASE
#
# RELEASE gets each shipped file as NAME.gz, and
#   SHA256SUMS        the checksums of these files, unpacked
#   sources           the checksums of what each was built from (tools/sources.sh --shipped)
#   toolchain         the versions of what built them
#   version, commit   the version, and the commit that it was made of, as the library's sources have them
set -eu
folder=${1:?'usage: tools/pack.sh FOLDER RELEASE'} release=${2:?'usage: tools/pack.sh FOLDER RELEASE'}
mkdir -p "$release"
folder=$(cd "$folder" && pwd) release=$(cd "$release" && pwd)
cd "$(dirname "$0")/.."
. tools/shipped.sh

for file in $SHIPPED; do
    gzip -9nc "$folder/$file" >"$release/$file.gz"
done
# shellcheck disable=SC2086 # the names are words
(cd "$folder" && sha256sum $SHIPPED) >"$release/SHA256SUMS"
tools/sources.sh --shipped >"$release/sources"
cp "$folder/toolchain" "$release"
text=$(python3 -B tools/version.py --text)
echo "${text%%+*}" >"$release/version"
echo "${text#*+}" >"$release/commit"
