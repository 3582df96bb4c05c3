#!/bin/bash
# The static library, target/staticlib/libexports.a, with the calls of crate `exports` for C and Rust hosts: proved and
# built if there is none, or if a file that it may be made from is newer. Prints nothing unless that fails. Works from
# any folder. Needs rt.
#
#     tests/library.sh           proves and builds by `rt lib`, over what earlier checks left
#     tests/library.sh ci        straight after `rt ci` in a new clone: over the libraries that it left in out/, which
#                                `rt lib` would prove once more; as without a word where that cannot be done
set -eu

root=$(cd "$(dirname "${BASH_SOURCE[0]}")/.." && pwd -P)
cd "$root"
library=target/staticlib/libexports.a
if [ -f "$library" ] \
    && newer=$(find crates.txt crates/*/src crates/*/specs crates/*/proofs -newer "$library" -print -quit) \
    && [ -z "$newer" ]; then
    exit 0
fi

# The calls are proved here, and compiled with what they reach of the libraries.
over_ci() {
    local kit below rlib words=()
    kit=$(dirname "$(rt doc)")
    for below in $(sed -n 's/^exports staticlib://p' crates.txt); do
        rlib=$root/crates/$below/out/rlib
        [ -f "$rlib/$below.rlib/format" ] || return 1
        words+=(--extern "$below=$rlib/$below.rlib" -L "dependency=$rlib")
    done
    mkdir -p crates/exports/out
    (cd crates/exports && "$kit/bin/rattle" build --crate-name exports src/lib.rt --crate-type staticlib \
        --extern "std=$kit/rlibs/std.rlib" -L "dependency=$kit/rlibs" "${words[@]}" \
        --antt-project "$kit/rattle/logic/antt-project.json" --logic-built "$kit/logic_built" --jobs 2 \
        --toolchain "$kit/toolchain" --backend llvm -o out/libexports.a)
}

said=$(mktemp)
trap 'rm -f "$said"' EXIT
if [ "${1:-}" != ci ] || ! over_ci >"$said" 2>&1; then
    (cd crates/exports && rt lib) >"$said" 2>&1 || { tail -n 30 "$said" >&2; exit 1; }
fi
mkdir -p target/staticlib
cp crates/exports/out/libexports.a "$library"
