#!/bin/bash
# The static library against an independent implementation of document 01 and of requests (b), (c), (e), (f), (g) and
# (h) of document 02 (main.rs): number, counts and every word after every call.
#
#     tests/differential/run.sh [CALLS [SEED]]     100,000 calls and seed 1 unless told otherwise
#     GUARD=1 tests/differential/run.sh            the same with each buffer before a page that must not be touched
#     VALGRIND=1 tests/differential/run.sh         the same under valgrind
#
# Proves and builds the library first, if that is needed. Works from any folder. Needs rt and rustc; no crates.
set -eu

here=$(cd "$(dirname "${BASH_SOURCE[0]}")" && pwd -P)
root=$(cd "$here/../.." && pwd -P)
room=$(mktemp -d)
trap 'rm -rf "$room"' EXIT

cd "$root"
bash tests/library.sh
rustc --edition 2021 -O -L target/staticlib -o "$room/differential" "$here/main.rs"
${VALGRIND:+valgrind -q --error-exitcode=9} "$room/differential" "${1:-100000}" "${2:-1}" ${GUARD:+guard}
