#!/bin/sh
# Prints how many checks to run side by side: as many as there are processors, if 4 GB of memory are free for each.
#
# rt's own estimate has one crate above `witcall` at a time, where 12 GB are free; such a crate takes 3.
set -eu
cores=$(nproc)
memory=$(awk '/^MemAvailable:/ { print int($2 / 4000000) }' /proc/meminfo)
[ "$memory" -ge 1 ] || memory=1
[ "$cores" -le "$memory" ] && echo "$cores" || echo "$memory"
