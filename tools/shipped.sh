# What is shipped. This is read by other scripts, at the top of the checkout: `. tools/shipped.sh`.
#
# A folder of shipped files has them as tools/build.sh builds them, and release/ has each of them packed, as NAME.gz.

# The programs; the library, the toolchain's archive that it calls, and both as a shared library; the library as a
# WebAssembly module; the library for Linux on aarch64.
# shellcheck disable=SC2034 # other scripts read it
SHIPPED='witcall wit-explain vectors libwitcall_c.a liblibc_c.a libwitcall.so witcall.wasm libwitcall-aarch64.a'

# Unpacks the shipped files of release/, or those that are named after the folder, and compares their checksums.
unpack() {
    unpacked=$1
    shift
    mkdir -p "$unpacked"
    for packed in ${*:-$SHIPPED}; do
        gzip -dc "release/$packed.gz" >"$unpacked/$packed" || { echo "release/$packed.gz can't be unpacked" >&2; return 1; }
        sum=$(sha256sum <"$unpacked/$packed")
        grep -qx "${sum%% *}  $packed" release/SHA256SUMS ||
            { echo "release/$packed.gz isn't what release/SHA256SUMS says" >&2; return 1; }
    done
    for packed in witcall wit-explain vectors; do
        [ ! -f "$unpacked/$packed" ] || chmod +x "$unpacked/$packed"
    done
}
