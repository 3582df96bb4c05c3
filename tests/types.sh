#!/bin/bash
# The types keep lane numbers and minutes apart (document 01: "A lane number handed over where a minute belongs is turned
# down by the compiler"). For each crate with such a parameter there is a call of each kind below: a minute where a minute
# belongs (CHRONON) and a lane number where one belongs (INDEX). The program `right_types` has all of these calls and must
# compile; in `wrong_types` each minute is handed over as a lane number and each lane number as a minute, and the compiler
# must turn down every one, by a type error in its line. No prover is asked about the two programs.
# Prints 'types: ok, N calls' and exits 0; else says what was wrong and exits 1. Works from any folder and leaves nothing
# behind. Needs rt.
set -eu

root=$(cd "$(dirname "${BASH_SOURCE[0]}")/.." && pwd -P)
room=$(mktemp -d)
trap 'rm -rf "$room"' EXIT
fail() { echo "types: $*" >&2; exit 1; }

# one call to a line, each with CHRONON or INDEX once; the crate is the path's first word
cat >"$room/calls" <<'CALLS'
plan::home(p, CHRONON);
plan::covers(1, [CHRONON; 64]);
plan::with_cuts(p, [CHRONON; 64]);
store::partition(words, 5, INDEX);
store::append(more, 5, INDEX, t);
rows::count::examined_from(words, 5, INDEX, 1);
addition::add_from(1, side, t, words, more, 5, INDEX);
removal::lacking(side, t, words, Site { count: 1, minimum: 1, tuples: site.tuples, rows: site.rows, low: site.low, at: INDEX }, words);
removal::take_rows(side, t, words, Site { count: 1, minimum: 1, tuples: site.tuples, rows: site.rows, low: INDEX, at: site.at }, more);
cache::pass_down(more, 1, words, CHRONON);
cache::started_from(words, 5, INDEX, 1, m);
sweep_count::rows_of(p, words, words, INDEX);
moves::split(more, 4, 0, 1, CHRONON);
moves::place(more, 4, 5, INDEX, 0, 1);
coverage::next_covered(p, t, words, CHRONON);
cursor::stored(words, cursor::Scan { room: 5, count: 1, from: INDEX, window: t.valid });
question::cleared(question::Question { label: 1, minute: CHRONON, answer: 0 });
join::repartition(p, [CHRONON; 64], more, second, third);
layout::put_lasts([CHRONON; 64], more);
lines::Line::Lane(CHRONON);
CALLS

# a repository of the crates' sources alone: a try reads no more of them
cp "$root/crates.txt" "$room/crates.txt"
for crate in "$root"/crates/*; do
    mkdir -p "$room/crates/${crate##*/}"
    cp -R "$crate/src" "$room/crates/${crate##*/}/src"
done
uses=$(sed -n 's/::.*//p' "$room/calls" | sort -u | tr '\n' ' ')
below=$(for crate in $uses; do sed -n "s/^$crate://p" "$root/crates.txt"; done | tr ' ' '\n' | sort -u | tr '\n' ' ')

# the two programs: the same calls, but for the types of what is handed over; main makes none of them
add_crate() { # NAME MINUTE LANE
    mkdir -p "$room/crates/$1/src"
    {
        echo '// Calls with minutes and lane numbers.'
        for name in interval::time::Chronon interval::tuple::Row interval::tuple::Tuple plan::PartitionIndex \
            plan::Partitioning rows::Side rows::Site; do
            echo "use $name;"
        done
        echo
        echo 'fn main(rt: HostRuntime) {}'
        n=0
        while read -r call; do
            n=$((n + 1))
            echo
            echo "pub fn call_$n(p: Partitioning, side: Side, t: Tuple, row: Row, site: Site, m: Chronon, k: u64, words: &[u64], more: &mut [u64], second: &mut [u64], third: &mut [u64]) {"
            echo "    $call" | sed "s/CHRONON/$2(k)/; s/INDEX/$3(k)/"
            echo '}'
        done <"$room/calls"
    } >"$room/crates/$1/src/main.rt"
    echo "$1: $(echo $uses $below | tr ' ' '\n' | sort -u | tr '\n' ' ')" >>"$room/crates.txt"
}
add_crate right_types Chronon PartitionIndex
add_crate wrong_types PartitionIndex Chronon

cd "$room/crates/right_types"
rt try >"$room/right.out" 2>&1 || { tail -n 20 "$room/right.out" >&2; fail "a right call was turned down"; }
if grep -q ': error' "$room/right.out"; then tail -n 20 "$room/right.out" >&2; fail "a right call was turned down"; fi

cd "$room/crates/wrong_types"
status=0
rt try >"$room/wrong.out" 2>&1 || status=$?
[ "$status" -ne 0 ] || fail "no wrong call was turned down"
calls=$(wc -l <"$room/calls")
for n in $(seq "$calls"); do
    at=$(grep -n "^pub fn call_$n(" src/main.rt | cut -d: -f1)
    grep -Eq "^src/main\.rt:$((at + 1)):[0-9]+: error\[mismatched-types\]: expected .*(Chronon|PartitionIndex).*, found .*(Chronon|PartitionIndex)" "$room/wrong.out" \
        || { tail -n 40 "$room/wrong.out" >&2; fail "a wrong call was taken: $(sed -n "${n}p" "$room/calls")"; }
done
errors=$(grep -c ': error' "$room/wrong.out" || true)
[ "$errors" -eq "$calls" ] || { tail -n 40 "$room/wrong.out" >&2; fail "$errors errors for $calls wrong calls"; }

echo "types: ok, $calls calls"
