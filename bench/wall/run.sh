#!/bin/bash
# Times the program `wall` on a session of 100,000 lines on full stores, beside a C program at -O3 that reads the same
# lines with stdio and joins by nested loops over the same capacities (wall.c): `anew`, every drawing with every spot at
# each change, and `kept`, the changed tuple with the other side. The target: at most 1.5 times as long as nested loops.
# Then the reader of lines by itself: 1,000,000 changes before the plan is complete, which are read, refused with 16 and
# touch no store, with labels of one letter, of eight and of any length.
# All must print the same refusals and count of rows. Works from any folder. Needs rt, python3 and a C compiler
# (CC, else cc).
#
#     OLD=path bench/wall/run.sh
#
# times another build of `wall` too, as a further row: the two programs take turns, 45 each, so that what else the
# machine does meets both alike, and the best turn of each counts.
set -eu

old=${OLD:+$(realpath "$OLD")}
here=$(cd "$(dirname "${BASH_SOURCE[0]}")" && pwd -P)
root=$(cd "$here/../.." && pwd -P)
room=$(mktemp -d)
trap 'rm -rf "$room"' EXIT

cd "$root"
# proved and built if that is needed, and run once, on no lines
(cd crates/wall && rt run) >"$room/build.out" 2>&1 </dev/null || { tail -n 30 "$room/build.out" >&2; exit 1; }
${CC:-cc} -O3 -o "$room/c" "$here/wall.c"
python3 - >"$room/lines" <<'LINES'
# eight lanes, every tuple lane filled to one below its capacity, then withdrawals and inserts in turn
import random
rng = random.Random(1)
lanes = [100 * k + 99 for k in range(7)] + [99999999]
stored = {"draw": [], "spot": []}
lines = [f"lane,{m}" for m in lanes]
for side in stored:
    for k in range(8):
        for n in range(31):
            last = rng.randint(100 * k, 100 * k + 99)
            t = f"{rng.choice('ABCDEFGHIJKLMNOPQRSTUVWXYZ')},{n},{max(0, last - rng.choice([0, 5, 20]))},{last}"
            stored[side].append(t)
            lines.append(f"{side}in,{t}")
while len(lines) < 100000:
    side = rng.choice(["draw", "spot"])
    k = rng.randrange(len(stored[side]))
    lines.append(f"{side}out,{stored[side][k]}")
    lines.append(f"{side}in,{stored[side][k]}")
print("\n".join(lines[:100000]))
LINES
for length in 1 8 any; do
    python3 - "$length" >"$room/lines-$length" <<'LINES'
# no lane line: each change gets 16 once it is read
import random, sys
rng = random.Random(2)
letters = "ABCDEFGHIJKLMNOPQRSTUVWXYZ"
for k in range(1000000):
    length = rng.randint(1, 8) if sys.argv[1] == "any" else int(sys.argv[1])
    label = "".join(rng.choices(letters, k=length))
    print(f"drawin,{label},{k},1000,{k}")
LINES
done

python3 - "$room" crates/wall/out/wall ${old:+"$old"} <<'TIME'
import resource, subprocess, sys
room, *walls = sys.argv[1:]
def turn(command, session):
    before = resource.getrusage(resource.RUSAGE_CHILDREN)
    with open(f"{room}/{session}", "rb") as lines:
        out = subprocess.run(command, stdin=lines, stdout=subprocess.PIPE, check=True).stdout
    after = resource.getrusage(resource.RUSAGE_CHILDREN)
    took = after.ru_utime + after.ru_stime - before.ru_utime - before.ru_stime
    return took, [l for l in out.split(b"\n") if l.startswith((b"refused", b"rows"))]
def run(commands, session, turns):
    """The best time of each command and what it prints; with several commands one turn of each after the other."""
    taken = [[turn(c, session) for c in commands] for _ in range(turns)]
    return [min(row[k][0] for row in taken) for k in range(len(commands))], [printed for _, printed in taken[-1]]
turns = 45 if len(walls) > 1 else 25
def of_walls(session):
    # the old program's turn comes first
    return (answers[::-1] for answers in run([[wall] for wall in walls[::-1]], session, turns))
times, printed = of_walls("lines")
(anew,), a = run([[room + "/c", "anew"]], "lines", 5)
(kept,), k = run([[room + "/c", "kept"]], "lines", 5)
if any(p != printed[0] for p in printed + a + k):
    sys.exit("the programs print different refusals or counts")
print(f"100,000 lines, {printed[0][-1].decode()}, {len(printed[0]) - 1} refused; best of {turns} turns, of the C "
      "programs of 5, seconds of processor time")
print("| wall | C, nested loops anew | ratio | C, changed tuple only | ratio |")
print("|---|---|---|---|---|")
for name, ours in zip(("", " (old)"), times):
    print(f"| {ours:.3f}{name} | {anew:.3f} | {ours / anew:.2f} | {kept:.3f} | {ours / kept:.2f} |")
if len(times) > 1:
    print(f"wall / old: {times[0] / times[1]:.2f}")
print()
print(f"1,000,000 lines read and refused, nanoseconds of processor time for each; best of {turns} turns, of the C "
      "program of 5")
print("| letters in a label | wall |" + (" wall (old) | wall / old |" if len(walls) > 1 else "") + " C |")
print("|---|---|" + ("---|---|" if len(walls) > 1 else "") + "---|")
for length in ("1", "8", "any"):
    times, printed = of_walls("lines-" + length)
    (c,), p = run([[room + "/c", "kept"]], "lines-" + length, 5)
    if any(answer != printed[0] for answer in printed + p):
        sys.exit("the programs print different refusals")
    old = f" {1000 * times[1]:.0f} | {times[0] / times[1]:.3f} |" if len(walls) > 1 else ""
    print(f"| {length} | {1000 * times[0]:.0f} |{old} {1000 * c:.0f} |")
TIME
