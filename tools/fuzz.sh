#!/bin/sh
# Runs the harnesses of tests/fuzz over the library for C, under the address and undefined behaviour sanitizers, and
# compares what the library did with the models of tools/models.
#
# usage: tools/fuzz.sh [--from FOLDER] MINUTES [KEPT]
#        tools/fuzz.sh [--from FOLDER] --gate
#
# The library is installed by tools/install.sh, whose word --from is. The harnesses run for MINUTES in all, two at a
# time. Inputs that mark something new stay in KEPT for the next run; without it a temporary folder is made, and stays
# if something is found. At the end open, halves and json run 10,000 more inputs each, and tests/fuzz/compare.py
# compares what they did.
#
# With --gate each harness runs so many inputs of a fixed seed, which are the same in each run over the same library,
# and fewer are compared. This takes a minute on four cores.
#
# | harness | its inputs                                              | share of the time | gate: run | compared |
# |---------|---------------------------------------------------------|-------------------|-----------|----------|
# | halves  | types, values and blocks of calls; each half alone,     | half of a process |   120,000 |    3,000 |
# |         | and what it asks for                                    |                   |           |          |
# | json    | the same with values as JSON, and texts that are none;  | half of a process |    60,000 |    3,000 |
# |         | limits, and arrays of each size                         |                   |           |          |
# | open    | texts and binaries: what is opened is written and opens | three eighths     |   200,000 |    3,000 |
# |         | again                                                   | of the other      |           |          |
# | module  | binaries of other tools, which are changed by their     | two eighths       |    60,000 |          |
# |         | sections and counts                                     |                   |           |          |
# | set     | sets of texts and binaries, and their lengths           | one eighth        |   300,000 |          |
# | explain | the same, and binaries of other tools: what is wrong    | one eighth        |    30,000 |          |
# | status  | statuses and the room for their lines                   | one eighth        |   100,000 |          |
#
# The first inputs are made of the stored rows and of the binaries of tests/ (tests/fuzz/seeds.py). A line for each
# harness has the number of its inputs. The exit status is 1 if something is found or missing, or if fewer inputs ran
# than are stated here.
#
# It needs clang with libFuzzer, and python3: in Debian `apt-get install -y clang libclang-rt-14-dev python3`.
set -eu
root=$(cd "$(dirname "$0")/.." && pwd)
HARNESSES="halves json open module set explain status"
MODELLED="open halves json"

usage() {
    echo "usage: tools/fuzz.sh [--from FOLDER] MINUTES [KEPT], or tools/fuzz.sh [--from FOLDER] --gate" >&2
    exit 2
}

from='' gate=''
while [ $# -gt 0 ]; do
    case "$1" in
        --gate) gate=yes ;;
        --from)
            [ $# -gt 1 ] || usage
            from=$2
            shift ;;
        --from=*) from=${1#*=} ;;
        -*) usage ;;
        *) break ;;
    esac
    shift
done
case "$gate${1-}" in
    yes) [ $# = 0 ] || usage ;;
    '' | *[!0-9]*) usage ;;
esac
seconds=$((${1:-0} * 60))
kept=${2-}

fail() {
    echo "fuzz: $1" >&2
    exit 1
}

for tool in clang python3; do
    command -v "$tool" >/dev/null || fail "there is no $tool: apt-get install -y clang libclang-rt-14-dev python3"
done

if [ -n "$kept" ]; then
    mkdir -p "$kept"
    build=$(cd "$kept" && pwd)
else
    build=$(mktemp -d)
fi

# ---- building

flags='-std=gnu11 -g -O1 -Wall -Wextra -Werror -fsanitize=fuzzer,address,undefined -fno-sanitize-recover=all'
echo 'int LLVMFuzzerTestOneInput(const char *data, unsigned long len) { return !data && len; }' >"$build/empty.c"
# shellcheck disable=SC2086 # the flags are words
clang $flags -o "$build/empty" "$build/empty.c" 2>"$build/log" ||
    fail "clang has no libFuzzer: apt-get install -y libclang-rt-14-dev (or that of clang's version); clang says:
$(head -n 1 "$build/log")"

# Makes the first inputs, and a list of those of each harness in a fixed order.
make_seeds() {
    python3 -B "$root/tests/fuzz/seeds.py" "$build/seeds" >"$build/seeds.log" || return 1
    for harness in $HARNESSES; do
        find "$build/seeds/$harness" -type f | LC_ALL=C sort | paste -sd, - >"$build/seeds/$harness.list"
    done
}

make_seeds &
seeds=$!
"$root/tools/install.sh" --prefix "$build/installed" ${from:+--from "$from"} >"$build/log" ||
    fail "the library can't be installed"
for harness in $HARNESSES; do
    wrapped=''
    [ "$harness" != open ] || wrapped='-Wl,--wrap=malloc -Wl,--wrap=realloc'
    # shellcheck disable=SC2086 # the flags are words
    clang $flags $wrapped -I"$build/installed/include" -o "$build/$harness" \
        "$root/tests/fuzz/$harness.c" "$build/installed/lib/libwitcall.a" ||
        fail "$harness can't be built"
done
wait "$seeds" || fail "no first inputs can be made"

# ---- running

# Runs a harness with options of libFuzzer, over the inputs that were kept. In the gate nothing may depend on what a
# folder's order is, or where things lie in memory: no operands of comparisons are kept, and leaks are looked for at the
# end alone. An input may take a minute there, since the machine may be busy.
run() {
    harness=$1
    shift
    mkdir -p "$build/kept/$harness" "$build/found"
    if [ -n "$gate" ]; then
        set -- "$@" -seed=1 -reload=0 -use_cmp=0 -detect_leaks=0 -timeout=60 \
            "-seed_inputs=@$build/seeds/$harness.list"
    else
        set -- "$@" -timeout=10 "$build/kept/$harness" "$build/seeds/$harness"
    fi
    "$build/$harness" -max_len=4096 -dict="$build/seeds/words.dict" \
        -artifact_prefix="$build/found/$harness-" -print_final_stats=1 "$@"
}

# Runs a harness with an option that says how long or how many, and states how many inputs have to run at least.
run_stated() {
    echo "$3" >"$build/$1.stated"
    run "$1" "$2" >"$build/$1.log" 2>&1 || echo failed >"$build/$1.failed"
}

run_for() {
    run_stated "$1" -max_total_time="$2" 1
}

run_inputs() {
    run_stated "$1" -runs="$2" "$2"
}

# Whether so many inputs, those that stay and changed ones, do what the models say. The cases are written to a file:
# libFuzzer's timer may interrupt what is written to a pipe.
is_modelled() {
    cases="$build/$1.cases"
    rm -f "$cases"
    (export WITCALL_CASES="$cases" && run "$1" -runs="$2" >"$build/$1-cases.log" 2>&1) || return 1
    inputs=$(sed -n 's/^Done \([0-9]*\) runs.*/\1/p' "$build/$1-cases.log")
    [ "${inputs:-0}" -ge "$2" ] || return 1
    python3 -B "$root/tests/fuzz/compare.py" "$cases" || return 1
    rm -f "$cases"
}

# Compares such inputs of each harness that has a model.
compare() {
    for modelled in $MODELLED; do
        is_modelled "$modelled" "$1" >"$build/$modelled.compared" 2>&1 || echo failed >"$build/$modelled.differs"
    done
}

rm -f "$build"/*.failed "$build"/*.stated "$build"/*.differs
if [ -n "$gate" ]; then
    run_inputs halves 120000 &
    run_inputs json 60000 &
    (run_inputs open 200000; run_inputs set 300000; run_inputs status 100000) &
    (run_inputs module 60000; run_inputs explain 30000) &
    compare 3000
    wait
else
    if [ "$seconds" -gt 0 ]; then
        (run_for halves $((seconds / 2)); run_for json $((seconds / 2))) &
        run_for open $((seconds * 3 / 8))
        run_for module $((seconds / 4))
        run_for set $((seconds / 8))
        run_for explain $((seconds / 8))
        run_for status $((seconds / 8))
        wait
    fi
    compare 10000
fi

# ---- telling

failed=0
all=0
for harness in $HARNESSES; do
    [ -f "$build/$harness.stated" ] || continue
    inputs=$(sed -n 's/^stat::number_of_executed_units: *//p' "$build/$harness.log")
    if [ -f "$build/$harness.failed" ]; then
        echo "FAILED $harness: see $build/$harness.log and $build/found"
        grep -a "it doesn't hold\|ERROR\|SUMMARY\|timeout" "$build/$harness.log" | head -n 5
        failed=1
    elif [ "${inputs:-0}" -lt "$(cat "$build/$harness.stated")" ]; then
        echo "FAILED $harness: fewer than $(cat "$build/$harness.stated") inputs"
        failed=1
    fi
    if [ -n "$gate" ]; then
        echo "$harness: ${inputs:-0} inputs"
    else
        echo "$harness: ${inputs:-0} inputs, $(find "$build/kept/$harness" -type f | wc -l) kept"
    fi
    all=$((all + ${inputs:-0}))
done
for harness in $MODELLED; do
    cat "$build/$harness.compared"
    [ -f "$build/$harness.differs" ] || continue
    echo "FAILED $harness: it differs from the models, or fewer inputs ran: see $build/$harness-cases.log"
    failed=1
done
if [ $failed != 0 ]; then
    echo "fuzz: $all inputs, and faults"
    exit 1
fi
[ -n "$kept" ] || rm -rf "$build"
echo "fuzz: $all inputs, nothing found"
