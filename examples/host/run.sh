#!/bin/bash
# Proves and builds the static library, if that is needed, compiles host.c with it, and runs that.
# Works from any folder. Needs rt and a C compiler: that which CC names, else cc.
set -eu

here=$(cd "$(dirname "${BASH_SOURCE[0]}")" && pwd -P)
root=$(cd "$here/../.." && pwd -P)
room=$(mktemp -d)
trap 'rm -rf "$room"' EXIT

cd "$root"
bash tests/library.sh
${CC:-cc} -std=c11 -Wall -Wextra -O2 -I "$root/include" -o "$room/host" "$here/host.c" target/staticlib/libexports.a
"$room/host"
