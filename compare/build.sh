#!/bin/sh
# build.sh OUT: builds the oracle, the generator and the judge of joined payloads below OUT, with plain rustc: no cargo, no crate but
# std, no network.
#
# docs/src is copied to OUT/tree unchanged, beside the stand-ins for what it leans on and does not have. The build has overflow
# checks, so that a sum that overflows in the Rust is seen and answered by 01's rule instead.
# RUSTC (default: rustc) is the compiler. OVERFLOW_CHECKS=off builds a plain release, for counting instructions alone. PROGRAMS= builds
# docs/src alone, for others to link. It ends with OUT/oracle, OUT/cases and OUT/bundles, or says in one line what is missing.
set -eu
here=$(cd "$(dirname "$0")" && pwd -P)
rustc=${RUSTC:-rustc} checks=${OVERFLOW_CHECKS:-on}
command -v "$rustc" >/dev/null 2>&1 || { echo "compare/build.sh: there is no Rust compiler ($rustc)" >&2; exit 2; }
"$rustc" --version >/dev/null 2>&1 || { echo "compare/build.sh: the Rust compiler does not run ($rustc)" >&2; exit 2; }
mkdir -p "$1"
out=$(cd "$1" && pwd -P)
rm -rf "$out/tree"
cp -R "$here/../docs/src/crates/core/src" "$out/tree"
for file in lib.rs trace.rs zlf/mod.rs; do
    [ ! -e "$out/tree/$file" ] || { echo "compare/build.sh: docs/src has $file: drop its stand-in" >&2; exit 2; }
    cp "$here/stand-ins/core/$file" "$out/tree/$file"
done
stand_in() { # NAME TYPE
    "$rustc" --edition 2021 --crate-type "$2" --crate-name "$1" "$here/stand-ins/$1.rs" -O -C overflow-checks=$checks --out-dir "$out"
}
program() { # NAME
    "$rustc" --edition 2024 --crate-name "$1" "$here/$1/main.rs" -C opt-level=3 -C overflow-checks=$checks -L "$out" \
        --extern zniff_core="$out/libzniff_core.rlib" --extern crc16="$out/libcrc16.rlib" -o "$out/$1"
}
stand_in serde proc-macro
stand_in thiserror proc-macro
stand_in crc16 rlib
# warnings about docs/src are not ours to mend
"$rustc" --edition 2024 --crate-type rlib --crate-name zniff_core "$out/tree/lib.rs" -C opt-level=3 -C overflow-checks=$checks \
    --cap-lints allow --out-dir "$out" -L "$out" --extern crc16="$out/libcrc16.rlib" \
    --extern serde="$(echo "$out"/libserde.*)" --extern thiserror="$(echo "$out"/libthiserror.*)"
for name in ${PROGRAMS-oracle cases bundles}; do program "$name"; done
