#!/bin/sh
# The tests, in parts. With the Rattle toolchain on the path this is the gate. Without it no proof is run, and all else
# runs over the release.
#
# usage: tools/test.sh                   all parts
#        tools/test.sh --only PART..     these parts, over what an earlier run built
#        tools/test.sh --edits [CRATE..] all must-fail edits of the crates that changed since their last result, or of these
#        tools/test.sh --planted         whether the checks notice planted faults
#
# If the sources are newer than the release, and there is no toolchain, the tests of the release's own commit are run.
#
# docs/GATE.md says what each part does. Its table has the parts that have to run: at the end it is compared with those
# that ran. The exit status is 1 if a part fails, or one did not run.
set -u
PATH="$PATH:$HOME/.cargo/bin"
cd "$(dirname "$0")/.." || exit 1
# the parts one after another; those that need the toolchain, as `tried` and `trees` do; and those that run side by side
# afterwards
FIRST='setup release copies pages'
PROVED='proofs build'
BESIDE='models standard hosts snippets fuzz bound outputs explain damaged memory install bindings texts binaries page pictures
    aarch64 help terminal rows'
logs=out/parts
mkdir -p "$logs"
if command -v rt >/dev/null; then
    toolchain=yes built=$PWD/out/built
    BESIDE="tried trees $BESIDE"
else
    toolchain='' built=$PWD/out/released
fi
WITCALL_LIBRARY="$built/libwitcall.so"
WITCALL_MODULE="$built/witcall.wasm"
# rust-lld, which newer releases of rustc link with, has stood still for ever with several threads.
RUSTFLAGS="${RUSTFLAGS-} -C link-arg=-fuse-ld=bfd"
export WITCALL_LIBRARY WITCALL_MODULE RUSTFLAGS
# what a part may take, in seconds
LIMIT=2400

# ---- what the parts do

setup() { tools/setup.sh; }

release() { tools/check_release.sh; }

# Stored copies are those of examples/.
copies() {
    cmp examples/c.wit crates/program/data/c.wit || return 1
    for file in clocks random cli app; do
        cmp "examples/wasi/$file.wit" "crates/vectors/data/$file.wit" || return 1
    done
    cmp examples/c/shop.wit tests/explain/files/bind/shop.wit
}

pages() {
    failed=0
    while read -r line; do
        # shellcheck disable=SC2086 # the line is words
        python3 -B $line </dev/null || { echo "FAILED: $line"; failed=1; }
    done <<'END'
tools/version.py
tools/check_names.py
tools/check_pages.py
tools/check_numbers.py
tools/check_conditions.py
tools/conditions_page.py --check
tools/check_surface.py
tools/stored_names.py --check
tools/cut_rows.py --check
tools/page_facts.py --check
tools/check_header.py
tools/check_formats.py
tools/crates_page.py --check
tools/edits_page.py --check
tools/edit_results.py --check
tools/api_pages.py --check
tools/definitions_page.py --check
END
    return $failed
}

proofs() {
    RT_JOBS=$(tools/jobs.sh)
    export RT_JOBS
    rt ci
}

build() {
    rm -rf "$built"
    tools/build.sh "$built" && tools/check_release.sh "$built"
}

models() { python3 -B -m tools.models check && python3 -B tools/check_versions.py; }

standard() { python3 -B tools/check_standard.py; }

# The rows that `vectors` answers, each with its stored answer.
# shellcheck disable=SC2046 # the names of files are words
rows() { (cd crates/vectors/data && "$built/vectors" $(cat ../args) <../stdin) | cmp - crates/vectors/stdout; }

outputs() { python3 -B tools/check_outputs.py --program "$built/witcall"; }

# The commands and programs of the pages, over what was built. Those of an installation work over an older release, too.
snippets() {
    [ -n "$toolchain" ] || { python3 -B tools/run_pages.py; return; }
    rm -rf out/packed
    tools/pack.sh "$built" out/packed && python3 -B tools/run_pages.py --release out/packed || return 1
    cmp -s out/packed/sources release/sources || python3 -B tools/run_pages.py --only README.md --only docs/INSTALL.md
}

# The block of docs/INSTALL.md that compiles the program with checks, and proves nothing.
tried() {
    block=$(sed -n '/^cd crates\/program$/,/^```$/p' docs/INSTALL.md | sed '$d')
    wanted=$(echo "$block" | sed -n 's/^# //p')
    sh -ec "$block" </dev/null >"$logs/tried.out" && grep -qxF "$wanted" "$logs/tried.out"
}

# The trees of texts beside the program, and their faults beside places that were written down; the layouts of texts;
# packages as people publish them.
trees() {
    python3 -B tools/check_tree.py --witcall "$built/witcall" 5000 && python3 -B tools/check_layouts.py 2000 &&
        python3 -B tools/check_real.py --witcall "$built/witcall"
}

# The stored runs of wit-explain, by both builds if they are there.
explain() {
    second=''
    [ -z "$toolchain" ] || second='--program crates/explain/out/explain.by-rattle'
    # shellcheck disable=SC2086 # the words are words
    python3 -B tools/check_explain.py --program "$built/wit-explain" $second --witcall "$built/witcall" &&
        python3 -B tools/check_binaries.py --program "$built/wit-explain" $second
}

terminal() { python3 -B tools/terminal_test.py --program "$built/wit-explain"; }

help() { python3 -B tools/check_help.py --witcall "$built/witcall" --wit-explain "$built/wit-explain"; }

# What wit-explain binds: the stored header and modules, and declarations by the compilers of their languages.
bound() {
    "$built/wit-explain" bind c examples/c/shop.wit | cmp - examples/c/shop.h &&
        "$built/wit-explain" bind python examples/c/shop.wit | cmp - examples/python/shop.py &&
        "$built/wit-explain" bind python tests/explain/files/bind/kinds.wit | cmp - bindings/python/tests/kinds.py &&
        "$built/wit-explain" bind python examples/engines/relay.wit | cmp - bindings/python/tests/relay_types.py &&
        python3 -B tools/check_declarations.py --program "$built/wit-explain"
}

# Headers of random packages, by two compilers, and called.
bindings() { python3 -B tools/check_bindings.py --program "$built/wit-explain" 100 1; }

damaged() { python3 -B -m tools.models damaged "$built/witcall" 2000; }

texts() { python3 -B tools/changed_texts.py 5000 "$built/witcall"; }

binaries() { python3 -B tools/try_binaries.py --unjudged --program "$built/wit-explain" 100 1; }

pictures() { python3 -B tools/pictures.py --check --program "$built/witcall"; }

# The programs with memory that is refused or small, and with counts that no input holds; the library with memory that
# is refused, and what a byte takes in it.
memory() {
    python3 -B -m tools.measure refused --brief --program "$built/witcall" program &&
        python3 -B -m tools.measure refused-calls --brief "$built/libwitcall.so" &&
        python3 -B -m tools.measure amplification --brief "$built/libwitcall.so" &&
        python3 -B -m tools.measure small-memory --brief "$built/witcall" &&
        python3 -B -m tools.measure largest-request --brief "$built/witcall"
}

hosts() { examples/run.sh --from "$built"; }

aarch64() { tools/aarch64.sh --test "$built"; }

page() { python3 -B tools/page_test.py; }

fuzz() { tools/fuzz.sh --from "$built" --gate; }

install() { tools/check_install.sh "$built"; }

# ---- how they run

# Runs a part. What it prints goes to a file, and its status and seconds to another.
run() {
    began=$(date +%s)
    "$1" >"$logs/$1.log" 2>&1
    echo "$? $(($(date +%s) - began))" >"$logs/$1.status"
}

# Prints what a part printed.
show() {
    echo "== $1"
    cat "$logs/$1.log"
    [ -s "$logs/$1.status" ] || echo "1 $LIMIT" >"$logs/$1.status"
    read -r status taken <"$logs/$1.status"
    [ "$status" = 0 ] || { echo "== FAILED: $1"; failures="$failures $1"; }
    ran="$ran $1"
    seconds="$seconds$(printf '%-9s %5d s' "$1" "$taken")
"
}

# Runs parts one after another, and prints what each does meanwhile. It stops after one that fails.
one_by_one() {
    for part; do
        echo "== $part"
        began=$(date +%s)
        "$part" || failures="$failures $part"
        ran="$ran $part"
        seconds="$seconds$(printf '%-9s %5d s' "$part" $(($(date +%s) - began)))
"
        [ -z "$failures" ] || finish
    done
}

# Tells how long each part took, and compares the parts that ran with those of the page.
finish() {
    printf '== seconds\n%s' "$seconds"
    [ -z "$failures" ] || { echo "FAILED:$failures"; exit 1; }
    sed -n '/^## The parts/,/^## [^T]/p' docs/GATE.md | awk -F ' *[|] *' -v toolchain="$toolchain" '
        $2 ~ /^`[a-z0-9]+`$/ && (toolchain || $3 !~ /toolchain/) { gsub(/`/, "", $2); print $2 }' | sort >"$logs/wanted"
    echo "$ran" | tr ' ' '\n' | sed '/^$/d' | sort | diff "$logs/wanted" - ||
        { echo 'FAILED: docs/GATE.md has other parts (<) than those that ran (>)'; exit 1; }
    echo "all parts passed"
    exit 0
}

# The tests of the release's own commit, in a clone.
released_tests() {
    echo "The sources are newer than the release $(cat release/version): the tests of its own commit are run."
    room=$(mktemp -d)
    git clone --quiet . "$room/witcall" &&
        git -C "$room/witcall" checkout --quiet "$(git log -1 --format=%H -- VERSION)" &&
        "$room/witcall/tools/test.sh"
    status=$?
    rm -rf "$room"
    exit $status
}

ran='' failures='' seconds=''
case "${1-}" in
    --only)
        shift
        for name; do
            case " $(echo $FIRST $PROVED $BESIDE) " in
                *" $name "*) "$name" || { echo "FAILED: $name"; failures=yes; } ;;
                *) echo "tools/test.sh: no part $name" >&2; exit 2 ;;
            esac
        done
        [ -z "$failures" ]
        exit ;;
    --edits)
        shift
        exec python3 -B tools/edit_results.py "$@" ;;
    --planted)
        shift
        exec python3 -B tools/planted.py "$@" ;;
    --run) # a part in the background
        run "$2"
        exit 0 ;;
    '') ;;
    *)
        echo "usage: tools/test.sh [--only PART.. | --edits [CRATE..] | --planted]" >&2
        exit 2 ;;
esac
if [ -z "$toolchain" ]; then
    echo "There is no toolchain of Rattle (rt) here: no proof is run, and all else is, over the release."
    tools/sources.sh --shipped | cmp -s - release/sources || released_tests
fi
# shellcheck disable=SC2086 # the names are words
one_by_one $FIRST
if [ -n "$toolchain" ]; then
    # shellcheck disable=SC2086 # the names are words
    one_by_one $PROVED
else
    tools/unpack.sh "$built" || exit 1
fi
for name in $BESIDE; do
    rm -f "$logs/$name".*
    echo "$name"
done | xargs -P "$(tools/jobs.sh)" -I{} timeout "$LIMIT" tools/test.sh --run {}
for name in $BESIDE; do
    show "$name"
done
finish
