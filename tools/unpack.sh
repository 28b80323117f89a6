#!/bin/sh
# Unpacks the release into a folder, and compares the checksums.
#
# usage: tools/unpack.sh FOLDER [FILE..]      FILEs are of those that tools/shipped.sh names, else all
set -eu
here=$PWD
cd "$(dirname "$0")/.."
. tools/shipped.sh
folder=${1:?"usage: tools/unpack.sh FOLDER [FILE..]"}
shift
folder=$(cd "$here" && mkdir -p "$folder" && cd "$folder" && pwd)
unpack "$folder" "$@"
