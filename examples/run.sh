#!/bin/sh
# Installs witcall into a folder, and builds and runs hosts over what is there. What each prints is compared with its expected file.
#
# usage: examples/run.sh [--from FOLDER] [--only HOST].. [BUILD]
#
# The library is that of the release, or the one in FOLDER, which tools/build.sh makes. BUILD is the folder that it
# builds in, else a temporary one. With --only just these hosts are run.
#
# | host           | is                                                | needs, beside a C compiler and pkg-config           |
# |----------------|---------------------------------------------------|-----------------------------------------------------|
# | host           | examples/c/host.c, built with pkg-config          |                                                     |
# | cmake          | the same, built with CMake                        | cmake, make                                         |
# | rust           | examples/rust, whose build script asks pkg-config | cargo                                               |
# | faults         | wrong calls in C, under the sanitizers            | the compiler's sanitizers                           |
# | threads        | threads with handles of their own or one handle   | the compiler's thread sanitizer                     |
# | helgrind       | the same under helgrind                           | valgrind                                            |
# | hostile        | memories that ask for more than they hold, in C   | the compiler's sanitizers                           |
# | lists          | what packages have, beside examples/c/shop.h      | the compiler's sanitizers                           |
# | values         | a call with values as JSON, in C                  | the compiler's sanitizers                           |
# | served         | calls of the host's functions with such values    | the compiler's sanitizers                           |
# | store          | two instances of one store, which lends one       | the compiler's sanitizers                           |
# |                | memory at a time                                  |                                                     |
# | call_header    | witcall_call.h as C99 to C++20, with all warnings | gcc, g++, clang                                     |
# | many_blocks    | calls of up to 2,000 blocks through it, in C99 to | the same, their sanitizers, python3                 |
# |                | C++20; each fault of tools/wrong_headers.py       |                                                     |
# | vectors        | the stored calls of crates/vectors, in C          | python3, the compiler's sanitizers                  |
# | json_vectors   | its rows of a host's memory, with values as JSON, | the same                                            |
# |                | and its calls, as a host with such values serves  |                                                     |
# | linked_vectors | the stored calls through witcall_call.h, and      | the same                                            |
# |                | 2,000 random calls each way beside those by hand  |                                                     |
# | bindings       | examples/c/shop.h and examples/guest/club.h, anew |                                                     |
# | engine         | core modules in Node's engine, their traps        | clang, wasm-ld, node with its headers               |
# | dlmalloc       | random calls over memories whose allocators are   | the same, and wasi-libc with the compiler's library |
# |                | dlmalloc: examples/engine/heap.mjs                | for wasm32 (libclang-rt-dev-wasm32)                 |
# | js             | the same modules, linked by bindings/js           | clang, wasm-ld, node                                |
# | wasm2c         | examples/wasm2c: two modules that import from     | clang, wasm-ld, wasm2c of Debian's wabt, the        |
# |                | each other, as C; memories that grow, traps       | compiler's sanitizers                               |
# | guest          | examples/guest, a guest in C, behind bindings/js  | clang, wasm-ld, node                                |
# | js-tests       | the tests of bindings/js, and the stored calls    | node, python3, tsc                                  |
# | python         | the tests of bindings/python, both kinds of rows, | python3 3.9 or newer, mypy, node                   |
# |                | documents of packages by tools/check_document.py  |                                                     |
# | crate          | the tests of bindings/rust, both kinds of rows    | cargo, cargo-clippy, rustfmt, python3               |
# | languages      | the programs of docs/LANGUAGES.md                 | all of these                                        |
#
# tools/setup.sh installs what Debian has of this. A host whose tools are missing fails. CC and CXX name the compilers.
# Each step says `ok`; the exit status is 1 if one fails.
set -eu
root=$(cd "$(dirname "$0")/.." && pwd)
here="$root/examples"
usage='usage: examples/run.sh [--from FOLDER] [--only HOST].. [BUILD]'
only='' from=''
while [ $# -gt 0 ]; do
    case "$1" in
        --from) from=$(cd "${2:?"$usage"}" && pwd) ;;
        --only) only="$only ${2:?"$usage"}" ;;
        -*) echo "$usage" >&2; exit 2 ;;
        *) break ;;
    esac
    shift 2
done
if [ $# -gt 0 ]; then
    mkdir -p "$1"
    build=$(cd "$1" && pwd)
else
    build=$(mktemp -d)
    trap 'rm -rf "$build"' EXIT
fi
if [ -z "$from" ]; then
    from="$build/released"
    "$root/tools/unpack.sh" "$from"
fi
CC=${CC:-cc} CXX=${CXX:-c++}
prefix="$build/installed"
PKG_CONFIG_PATH="$prefix/lib/pkgconfig"
CMAKE_PREFIX_PATH=$prefix
WITCALL_LIBRARY="$prefix/lib/libwitcall.so"
WITCALL_MODULE="$from/witcall.wasm"
export CC CXX PKG_CONFIG_PATH CMAKE_PREFIX_PATH WITCALL_LIBRARY WITCALL_MODULE
failed=0 ran=0

# Runs a command, whose output goes to a file, and says whether it went well.
step() {
    name=$1
    shift
    if "$@" >"$build/$name.log" 2>&1; then
        echo "ok $name"
    else
        echo "FAILED $name"
        tail -n 20 "$build/$name.log"
        failed=1
    fi
}

# Runs a command, and compares what it prints with an expected file.
same() {
    name=$1 expected=$2
    shift 2
    status=0
    "$@" >"$build/$name.out" 2>"$build/$name.err" || status=$?
    if diff "$expected" "$build/$name.out" >"$build/$name.diff" && [ $status = 0 ] && [ ! -s "$build/$name.err" ]; then
        echo "ok $name"
    else
        echo "FAILED $name: status $status"
        cat "$build/$name.err" "$build/$name.diff"
        failed=1
    fi
}

# Whether a host is run. Tools that are missing are a failure.
has() {
    name=$1
    shift
    case "${only:-" $name"} " in
        *" $name "*) ;;
        *) return 1 ;;
    esac
    ran=$((ran + 1))
    for tool; do
        command -v "$tool" >/dev/null && continue
        echo "FAILED $name: no $tool"
        failed=1
        return 1
    done
}

# shellcheck disable=SC2046 # the flags are words
c_program() {
    source=$1 program=$2
    shift 2
    "$CC" -std=gnu11 -O2 -Wall -Wextra -Werror "$@" -o "$program" "$source" $(pkg-config --cflags --libs witcall)
}

checked_c_program() {
    c_program "$@" -g -fsanitize=address,undefined -fno-sanitize-recover=all
}

strict='-Wall -Wextra -Wconversion -Wsign-conversion -Wpedantic -Wshadow -Wcast-qual -Werror'

# Compiles witcall_call.h alone, included twice, by each compiler in each dialect.
strict_header() {
    printf '#include <witcall_call.h>\n#include <witcall_call.h>\n' >"$build/call_header.c"
    for dialect in c99 c11 c17 c++11 c++17 c++20; do
        compilers='gcc clang' language=c
        case $dialect in c++*) compilers='g++ clang++' language=c++ ;; esac
        for compiler in $compilers; do
            # shellcheck disable=SC2086 # the flags are words
            "$compiler" -x $language -std=$dialect $strict -I"$prefix/include" -fsyntax-only "$build/call_header.c" || return 1
        done
    done
}

# Compiles many_blocks.c by a compiler in a dialect, with its sanitizers.
# shellcheck disable=SC2046,SC2086 # the flags are words
many_blocks_program() {
    language=c
    case $2 in c++*) language=c++ ;; esac
    "$1" -x $language -std="$2" -O1 -g $strict -fsanitize=address,undefined -fno-sanitize-recover=all \
        $(pkg-config --cflags witcall) -o "$3" "$here/c/many_blocks.c" -x none $(pkg-config --libs witcall)
}

cmake_program() {
    cmake -S "$here/c" -B "$1" -DCMAKE_BUILD_TYPE=Release -DCMAKE_C_FLAGS="-Wall -Wextra -Werror" && cmake --build "$1"
}

rust_host() {
    cargo build --quiet --offline --manifest-path "$here/rust/Cargo.toml" --target-dir "$build/cargo"
}

wasm_module() {
    clang --target=wasm32 -O1 -Wall -Wextra -Werror -mbulk-memory -nostdlib -Wl,--no-entry -Wl,-z,stack-size=16384 \
        -Wl,--initial-memory="$3" -Wl,--max-memory=1048576 -o "$2" "$1"
}

# The C of both modules, the runtime of wasm2c, and their host. What wasm2c writes has warnings of its own.
wasm2c_host() {
    runtime="$(dirname "$(command -v wasm2c)")/../share/wabt/wasm2c"
    set -- "$1" "$build/writer.c" "$build/printer.c" "$runtime/wasm-rt-impl.c"
    flags='-DWASM_RT_MEMCHECK_SIGNAL_HANDLER=0 -g -fsanitize=address,undefined'
    # shellcheck disable=SC2086 # the flags are words
    "$CC" -std=gnu11 -O2 -w -c $flags -I"$runtime" "$2" -o "$build/writer.o" &&
        "$CC" -std=gnu11 -O2 -w -c $flags -I"$runtime" "$3" -o "$build/printer.o" &&
        "$CC" -std=gnu11 -O2 -w -c $flags -I"$runtime" "$4" -o "$build/wasm-rt.o" &&
        checked_c_program "$here/wasm2c/host.c" "$1" -DWASM_RT_MEMCHECK_SIGNAL_HANDLER=0 -I"$build" -I"$runtime" \
            "$build/writer.o" "$build/printer.o" "$build/wasm-rt.o"
}

js_tests() {
    (cd "$root/bindings/js" && node --test)
}

python_tests() {
    (cd "$root/bindings/python" && python3 -B -m unittest discover -s tests -t .)
}

python_types() {
    (cd "$root/bindings/python" &&
        MYPYPATH=. mypy --cache-dir "$build/mypy" witcall tests/test_declared.py "$here/python/shop.py")
}

# Takes the rows of a script of examples/c by the program of the same name in bindings/python.
python_rows() {
    program=$1
    shift
    python3 -B "$here/c/$program.py" "$root/bindings/python/tests/$program.py" "$@"
}

# Compares the documents of packages with the models and the schema.
python_documents() {
    python3 -B "$root/tools/check_document.py"
}

# Runs cargo for bindings/rust.
crate() {
    what=$1
    shift
    WITCALL_LIB_DIR="$prefix/lib" cargo "$what" --quiet --offline --manifest-path "$root/bindings/rust/Cargo.toml" \
        --target-dir "$build/crate" "$@"
}

# The core modules of examples/engine.
engine_modules() {
    step build-callee wasm_module "$here/engine/callee.c" "$build/callee.wasm" 131072
    step build-caller wasm_module "$here/engine/caller.c" "$build/caller.wasm" 196608
    step build-notes wasm_module "$here/engine/notes.c" "$build/notes.wasm" 131072
    step build-diary wasm_module "$here/engine/diary.c" "$build/diary.wasm" 131072
}

# The core module whose allocator is that of wasi-libc. Its stack is below its data, and ends at 16384.
libc_module() {
    clang --target=wasm32-wasi -O1 -Wall -Wextra -Werror -mexec-model=reactor -Wl,--stack-first -Wl,-z,stack-size=16384 \
        -Wl,--max-memory=131072 -o "$2" "$1"
}

node_addon() {
    node_headers=$(dirname "$(dirname "$(command -v node)")")/include/node
    c_program "$here/engine/addon.c" "$1" -shared -fPIC -I"$node_headers"
}

step install "$root/tools/install.sh" --prefix "$prefix" --from "$from"
[ $failed = 0 ] || exit 1
if has host "$CC" pkg-config; then
    step build-host c_program "$here/c/host.c" "$build/host"
    same host "$here/c/host.expected" "$build/host"
fi
if has cmake cmake make; then
    step build-cmake cmake_program "$build/cmake"
    same cmake "$here/c/host.expected" "$build/cmake/host"
fi
if has rust cargo; then
    step build-rust rust_host
    same rust "$here/rust/host.expected" "$build/cargo/debug/host"
fi
if has faults; then
    step build-faults checked_c_program "$here/c/faults.c" "$build/faults" -Wl,--wrap=malloc -Wl,--wrap=realloc
    same faults "$here/c/faults.expected" "$build/faults"
fi
if has threads; then
    for host in threads moved; do
        step "build-$host" c_program "$here/c/$host.c" "$build/$host" -pthread -g -fsanitize=thread
        same "$host" "$here/c/$host.expected" "$build/$host"
    done
fi
if has helgrind valgrind; then
    for host in threads moved; do
        step "build-helgrind-$host" c_program "$here/c/$host.c" "$build/$host-plain" -pthread -gdwarf-4
        same "helgrind-$host" "$here/c/$host.expected" valgrind --quiet --tool=helgrind "$build/$host-plain"
    done
fi
if has hostile; then
    step build-hostile checked_c_program "$here/c/hostile.c" "$build/hostile"
    same hostile "$here/c/hostile.expected" "$build/hostile" 100
fi
for host in lists values served store; do
    if has $host; then
        step "build-$host" checked_c_program "$here/c/$host.c" "$build/$host"
        same "$host" "$here/c/$host.expected" "$build/$host"
    fi
done
if has call_header gcc g++ clang clang++; then
    step call_header strict_header
fi
if has many_blocks gcc g++ clang clang++ python3; then
    for way in "gcc c99" "gcc c11" "clang c99" "clang c11" "g++ c++20" "clang++ c++20"; do
        compiler=${way% *} dialect=${way#* }
        program="$build/many_blocks-$compiler-$dialect"
        step "build-many_blocks-$compiler-$dialect" many_blocks_program "$compiler" "$dialect" "$program"
        case $way in
            "gcc c99" | "clang++ c++20") same many_blocks "$here/c/many_blocks.expected" "$program" ;;
            *) step "many_blocks-$compiler-$dialect" "$program" 65 ;;
        esac
    done
    step wrong_headers python3 -B "$root/tools/wrong_headers.py" "$from"
fi
for rows in vectors json_vectors; do
    if has "$rows" python3; then
        step "build-$rows" c_program "$here/c/$rows.c" "$build/$rows"
        same "$rows" "$here/c/$rows.expected" python3 "$here/c/$rows.py" "$build/$rows"
        step "build-$rows-checked" checked_c_program "$here/c/$rows.c" "$build/$rows-checked"
        same "$rows-checked" "$here/c/$rows.expected" python3 "$here/c/$rows.py" "$build/$rows-checked"
        [ "$rows" != json_vectors ] ||
            same import_vectors "$here/c/import_vectors.expected" python3 "$here/c/import_vectors.py" "$build/json_vectors"
    fi
done
if has linked_vectors python3; then
    for program in vectors linked_vectors; do
        step "build-$program-random" checked_c_program "$here/c/$program.c" "$build/$program-random"
    done
    same linked_vectors "$here/c/vectors.expected" python3 "$here/c/vectors.py" "$build/linked_vectors-random"
    same random_calls "$here/c/random_calls.expected" \
        python3 "$here/c/random_calls.py" "$build/vectors-random" "$build/linked_vectors-random"
fi
if has bindings; then
    same bindings "$here/c/shop.h" "$prefix/bin/wit-explain" bind c "$here/c/shop.wit"
    same bindings-guest "$here/guest/club.h" "$prefix/bin/wit-explain" bind guest "$here/guest/guest.wit"
fi
if has engine clang wasm-ld node; then
    engine_modules
    step build-addon node_addon "$build/witcall.node"
    same engine "$here/engine/host.expected" node "$here/engine/host.mjs" "$build"
fi
if has dlmalloc clang wasm-ld node; then
    step build-heap libc_module "$here/engine/heap.c" "$build/heap.wasm"
    [ -f "$build/witcall.node" ] || step build-addon node_addon "$build/witcall.node"
    same dlmalloc "$here/engine/heap.expected" node "$here/engine/heap.mjs" "$build"
fi
if has js clang wasm-ld node; then
    engine_modules
    same js "$here/engine/host.expected" node "$root/bindings/js/tests/host.mjs" "$build"
fi
if has wasm2c clang wasm-ld wasm2c; then
    for module in writer printer; do
        step "build-$module" wasm_module "$here/wasm2c/$module.c" "$build/$module.wasm" 131072
        step "wasm2c-$module" wasm2c -n "$module" -o "$build/$module.c" "$build/$module.wasm"
    done
    step build-wasm2c wasm2c_host "$build/mill"
    same wasm2c "$here/wasm2c/host.expected" "$build/mill" "$here/wasm2c/mill.wit"
fi
if has guest clang wasm-ld node; then
    step guest env WIT_EXPLAIN="$prefix/bin/wit-explain" "$here/guest/run.sh" "$build/guest"
fi
if has js-tests node python3 tsc; then
    step js-tests js_tests
    same js-vectors "$here/c/vectors.expected" python3 "$here/c/vectors.py" "$root/bindings/js/tests/vectors.mjs"
fi
if has python python3 mypy node; then
    step python-tests python_tests
    step python-documents python_documents
    same python-vectors "$here/c/vectors.expected" python_rows vectors
    same python-json_vectors "$root/bindings/python/tests/json_vectors.expected" python_rows json_vectors room blocks
    step python-types python_types
fi
if has crate cargo cargo-clippy rustfmt python3; then
    step crate-tests crate test
    step crate-examples crate build --examples
    same crate-vectors "$here/c/vectors.expected" python3 -B "$here/c/vectors.py" "$build/crate/debug/examples/vectors"
    same crate-json_vectors "$root/bindings/rust/examples/json_vectors.expected" \
        python3 -B "$here/c/json_vectors.py" "$build/crate/debug/examples/json_vectors" room
    step crate-clippy crate clippy --all-targets -- -D warnings
    step crate-format cargo fmt --manifest-path "$root/bindings/rust/Cargo.toml" --check
fi
if has languages python3 "$CXX" cargo node clang wasm-ld; then
    for language in c cpp rust python js; do
        same "language-$language" "$here/languages.expected" python3 -B "$here/languages.py" "$language" "$prefix" \
            "$build/languages"
    done
fi
[ "$ran" -gt 0 ] || { echo "FAILED: no host is named$only"; failed=1; }
exit $failed
