#!/bin/sh
# Makes a release of this checkout, whose commit it names.
#
# usage: tools/release.sh NUMBER      as 0.4.0
#        tools/release.sh --next      says in the sources that they are newer than the release
#
# It writes the number and the commit into all files that have them, proves and builds everything, and packs it into
# release/. CHANGELOG.md needs a heading of the number. All of this is then one commit, which the gate judges: each file
# of release/ has to be what the gate builds. --next belongs to the first change after a release of what is shipped.
set -eu
cd "$(dirname "$0")/.."
number=${1:?'usage: tools/release.sh NUMBER | --next'}
if [ "$number" = --next ]; then
    python3 -B tools/version.py --set "$(cat VERSION)+next"
    exit
fi
[ -z "$(git status --porcelain)" ] || { echo "tools/release.sh: there are changes without a commit" >&2; exit 1; }
grep -qx "## $number" CHANGELOG.md || { echo "tools/release.sh: CHANGELOG.md has no heading $number" >&2; exit 1; }
python3 -B tools/version.py --set "$number+$(git rev-parse --short=12 HEAD)"
RT_JOBS=${RT_JOBS:-$(tools/jobs.sh)}
export RT_JOBS
rt ci
tools/build.sh out/built
rm -rf release
tools/pack.sh out/built release
cat release/SHA256SUMS
