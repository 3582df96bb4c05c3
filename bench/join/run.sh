#!/bin/bash
# The benchmark: whole join, insert, withdraw and check 5 of the static library beside nested loops, the same algorithm by
# hand and a hash join in C, SQLite and PostgreSQL, on the same data in one run; what a sweep will take, beside the
# sweep's own checks; a recut beside the same algorithm by hand in C; a screenful of questions beside the same algorithm by
# hand in C, the questions hashed in C, SQLite and PostgreSQL; and the gaps of all drawings beside the same algorithm by hand
# in C, the spots sorted in C and PostgreSQL. Tables on standard output; each time is the best of up to 15 runs, of what a
# sweep will take and of questions to programs in C of up to 45, of a recut the best and the median of 101.
#
#     bench/join/run.sh [PART]       PART: lanes, long, both, sides, labels, changes, requirements, recut, questions or
#                                    gaps; all of them unless told otherwise
#     KEEP=1 bench/join/run.sh       also puts the tables into docs/BENCHMARK.md, with a PART only its own, and draws
#                                    the plots in docs/ from them
#     CC=clang bench/join/run.sh     with another C compiler than gcc
#
# Proves and builds the library first, if that is needed. Works from any folder. Needs rt and a C compiler. SQLite's columns
# need Debian's libsqlite3-dev; PostgreSQL's need postgresql and libpq-dev: a server of our own is started in a folder of its
# own for the run, reached by a socket there, and stopped at the end. Where a package is missing its columns are left out.
set -eu

here=$(cd "$(dirname "${BASH_SOURCE[0]}")" && pwd -P)
root=$(cd "$here/../.." && pwd -P)
room=$(mktemp -d)
server=
stop() {
    [ -z "$server" ] || $as "$server/pg_ctl" -D "$room/data" -m immediate stop >/dev/null 2>&1 || true
    rm -rf "$room"
}
trap stop EXIT

cd "$root"
bash tests/library.sh

flags= libraries= sources="main.c library.c by_hand.c loops.c hash.c"
as= sqlite=
if echo '#include <sqlite3.h>' | ${CC:-gcc} -E - >/dev/null 2>&1; then
    sqlite=yes flags="$flags -DWITH_SQLITE" libraries="$libraries -lsqlite3" sources="$sources sqlite.c"
else
    echo "SQLite is left out: there is no sqlite3.h (package libsqlite3-dev)" >&2
fi
if command -v pg_config >/dev/null && [ -f "$(pg_config --includedir)/libpq-fe.h" ]; then
    bin=$(pg_config --bindir)
    [ -x "$bin/initdb" ] || bin=$(ls -d /usr/lib/postgresql/*/bin 2>/dev/null | tail -n 1)
    if [ -x "$bin/initdb" ]; then
        # the server does not run as root
        if [ "$(id -u)" -eq 0 ]; then
            chmod 755 "$room"
            mkdir "$room/data" "$room/socket"
            chown nobody "$room/data" "$room/socket"
            as="setpriv --reuid=nobody --regid=nogroup --clear-groups env HOME=$room"
        else
            mkdir "$room/data" "$room/socket"
        fi
        server=$bin
        (cd "$room" && $as "$bin/initdb" -D "$room/data" -U bench -A trust --no-sync) >"$room/initdb.out" 2>&1 || { cat "$room/initdb.out" >&2; exit 1; }
        (cd "$room" && $as "$bin/pg_ctl" -D "$room/data" -w -l "$room/data/log" \
            -o "-k $room/socket -c listen_addresses= -c fsync=off -c synchronous_commit=off -c autovacuum=off -c shared_buffers=512MB -c work_mem=256MB -c jit=off" start) \
            >"$room/start.out" 2>&1 || { cat "$room/start.out" "$room/data/log" >&2; exit 1; }
        export PGHOST=$room/socket PGUSER=bench
        flags="$flags -DWITH_POSTGRES -I$(pg_config --includedir)" libraries="$libraries -lpq" sources="$sources postgres.c"
    fi
fi
[ -n "$server" ] || echo "PostgreSQL is left out: there is no server or no libpq-fe.h (packages postgresql, libpq-dev)" >&2

(cd "$here" && ${CC:-gcc} -std=gnu11 -Wall -Wextra -O3 $flags -I"$root/include" -o "$room/bench" $sources "$root/target/staticlib/libexports.a" $libraries)
{
    echo "- Machine: $(sed -n 's/^model name[^:]*: *//p' /proc/cpuinfo | head -n 1), $(nproc) processors, $(free -g | awk '/^Mem/ {print $2}') GiB, $(uname -s) $(uname -m)"
    echo "- C: $(${CC:-gcc} --version | head -n 1), -O3"
    [ -z "$sqlite" ] || echo "- SQLite: $(echo '#include <sqlite3.h>
SQLITE_VERSION' | ${CC:-gcc} -E - | tail -n 1 | tr -d '"'), in memory"
    [ -z "$server" ] || echo "- $("$server/postgres" --version), over a Unix socket, tables unlogged, no fsync, one process for a query"
    "$room/bench" ${1:+"$1"}
} | tee "$room/tables"
[ -z "${KEEP:-}" ] || python3 "$here/keep.py" "$room/tables" "$root/docs" ${1:+part}
