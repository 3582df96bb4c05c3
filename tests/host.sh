#!/bin/bash
# The C host of examples/host, built with the static library, hangs document 01's example as document 01 lists it, tells
# spans entered backward from those that run past the calendar, shows on an info screen how much hangs when, lists when a
# drawing was due and hung nowhere, says before a sweep what that will take, also where projectors fade, and moves what
# hangs to other lanes. Then tests/host_minimum.c: what a plan's minimum does, and when it is refused, in every call. And
# tests/host_questions.c: what questions are answered, how many rows are read for them, and when they are refused. And
# tests/host_gaps.c: which minutes without a spot are listed, in which order and words, and when that is refused.
# Works from any folder. Needs rt and a C compiler: that which CC names, else cc.
set -eu

here=$(cd "$(dirname "${BASH_SOURCE[0]}")" && pwd -P)
said=$("$here/../examples/host/run.sh")

# the rows after the two spots are in: the first block of rows that the host prints; AL is label 26 * 1 + 12
awk '/^  lane/ { print; seen = 1; next } seen { exit }' <<<"$said" |
    diff - <(sed 's/^\(.*\),AL,\(.*\),\(.*\),\(.*\),\(.*\)$/  lane \1: label 38, drawing \2, spot \3, minutes \4 to \5/' <<'ROWS'
1,AL,10,1,30,31
1,AL,11,1,32,32
2,AL,10,1,33,35
2,AL,10,2,36,40
3,AL,11,2,41,48
ROWS
    )

# Spans that are refused, by document 02, (c): minutes 50 to 49, 50 to 100,000,000 and 100,000,001 to 100,000,000 are
# inserted, 32 to 100,000,000 is withdrawn. The calendar's last minute is 99,999,999; both errors together count as the
# first.
diff <(grep 'the span' <<<"$said") - <<'SPANS'
insert spot: number 8, counts 0 0, the span was entered backward
insert spot: number 17, counts 0 0, the span runs past the calendar
insert spot: number 8, counts 0 0, the span was entered backward
withdraw drawing: number 17, counts 0 0, the span runs past the calendar
SPANS

# The info screen, by hand. The five rows follow one another from minute 30 to 48, so one with AL hangs at each of these
# minutes, 30, 32 and 48 among them, and none at 29 and 49. None has LA, which is label 26 * 12 + 1; minute 100,000,000
# is past the calendar. The smallest minute of this screen is 29, in lane 1: all five rows are read. That of the second
# is 41, in lane 3, where one row is stored. The third comes after the recut below, with the last minutes 31 and 47 and
# two rows more. Minute 46 is in the rows 41 to 48 and 45 to 47, minute 48 in 41 to 48 and 48 to 48; the drawing of
# minute 32 was withdrawn, and at 60 there is no spot. The smallest minute is 32, in lane 2: the three rows there and the
# two of lane 3 are read, but not that of lane 1.
diff <(grep -E '^(questions|  label)' <<<"$said") - <<'QUESTIONS'
questions: number 0, rows read 5
  label 38 at minute 29: 0
  label 38 at minute 30: 1
  label 38 at minute 32: 1
  label 38 at minute 48: 1
  label 38 at minute 49: 0
  label 313 at minute 30: 0
  label 38 at minute 100000000: 0
questions: number 0, rows read 1
  label 38 at minute 48: 1
  label 38 at minute 41: 1
  label 313 at minute 50: 0
questions: number 0, rows read 5
  label 38 at minute 46: 2
  label 38 at minute 48: 2
  label 38 at minute 32: 0
  label 38 at minute 60: 0
QUESTIONS
# The curators' lists, by hand. Room is asked for as many records as there are drawings and rows. First 4 drawings and 5
# rows: 30 to 31, 32, 33 to 40 and 41 to 48 lie within the spots 30 to 35 and 36 to 48, which follow one another: nothing
# is missed. Where a row lasts at least five minutes the rows 30 to 31, 32 and 33 to 35 are none, so these minutes are
# missed, in the order of the lanes: three records, where 4 drawings and 2 rows are stored; in room for two they are
# refused with 19. After the recut and two drawings more, 5 drawings and 6 rows: drawing 13, 48 to 60, hangs at 48 on the
# last spot, and 49 to 60 is missed.
diff <(grep -E '^(gaps|  due)' <<<"$said") - <<'GAPS'
gaps, room for 9 records: number 0, records 0
gaps, room for 6 records: number 0, records 3
  due and not hung: label 38, drawing 10, minutes 30 to 31
  due and not hung: label 38, drawing 11, minutes 32 to 32
  due and not hung: label 38, drawing 10, minutes 33 to 35
gaps, room for 2 records: number 19, records 0
gaps, room for 11 records: number 0, records 1
  due and not hung: label 38, drawing 13, minutes 49 to 60
GAPS
# the other blocks are of what is left
said=$(grep -Ev '^(questions|  label|gaps|  due)' <<<"$said")

# What a sweep of it takes, by hand. Rows: of these five, two are listed for lane 1, two for lane 2, one for lane 3.
# Drawings to carry: above lane 1 stand 33 to 40 and 41 to 48, of which the first begins by 34; above lane 2 stands 41
# to 48, which does not begin by 40; so 1, for lane 1. Spots: above lane 1 stand 30 to 35 and 36 to 48, of which the
# first begins by 34; above lane 2 stands 36 to 48, which begins by 40; so 1, for either. A tuple is four words. Pairs:
# P9 says 5. Room for eight rows a lane; then, in a hall with room for one, the first two lanes do not fit: 10. Where a
# row lasts at least five minutes, of the rows with 2, 1, 3, 5 and 8 minutes the last two are left, in lanes 2 and 3;
# carried and compared is the same. The first hall's rows, which stand with 2, 1 and 3 minutes too, are not legal there:
# 5.
diff <(sed -n '/^requirements/,/^withdraw/{/^withdraw/!p}' <<<"$said") - <<'REQUIREMENTS'
requirements: number 0, drawings to carry 1, spots to carry 1, pairs 5
  rows of lane 1: 2, they fit
  rows of lane 2: 2, they fit
  rows of lane 3: 1, they fit
sweep, caches of 4 and 4 words: number 0, counts 5 5
sweep, caches of 4 and 3 words: number 14, counts 0 0
requirements: number 0, drawings to carry 1, spots to carry 1, pairs 5
  rows of lane 1: 2, they do not fit
  rows of lane 2: 2, they do not fit
  rows of lane 3: 1, they fit
sweep, caches of 4 and 4 words: number 10, counts 0 0
requirements: number 0, drawings to carry 1, spots to carry 1, pairs 5
  rows of lane 1: 0, they fit
  rows of lane 2: 1, they fit
  rows of lane 3: 1, they fit
sweep, caches of 4 and 4 words: number 0, counts 2 5
  lane 2: label 38, drawing 10, spot 2, minutes 36 to 40
  lane 3: label 38, drawing 11, spot 2, minutes 41 to 48
sweep, caches of 4 and 4 words: number 5, counts 0 0
REQUIREMENTS
# Recuts, by hand. Left are the drawings 30 to 31, 33 to 40 and 41 to 48 and both spots; the rows end at 31, 35, 40 and 48.
# With the last minutes 31 and 47 a row that ends at 31 is in lane 1, one at 48 in lane 3. Drawing 12, 45 to 47, makes a
# row that ends at 47, the second lane's last minute; drawing 13, 48 to 60, one with spot 2 at minute 48. Both look at the
# spots from the lane of their first minute up: at spot 2, which ends at 48, and at spot 1, which ends at 35, for drawing
# 12 alone. Then five drawings would be in one lane for four: 9. With one withdrawn, which takes its row along, all are in
# lane 1. The order of rows in a lane is free after a recut, so lines are sorted.
diff <(sed -n '/^recut/,$p' <<<"$said" | awk '/^  lane/ { print | "sort"; next } { close("sort"); print } END { close("sort") }') - <<'RECUTS'
recut: number 0, counts 0 0
  last minutes 31 47 99999999
  lane 1: label 38, drawing 10, spot 1, minutes 30 to 31
  lane 2: label 38, drawing 10, spot 1, minutes 33 to 35
  lane 2: label 38, drawing 10, spot 2, minutes 36 to 40
  lane 3: label 38, drawing 11, spot 2, minutes 41 to 48
insert drawing: number 0, counts 1 2
insert drawing: number 0, counts 1 1
  lane 1: label 38, drawing 10, spot 1, minutes 30 to 31
  lane 2: label 38, drawing 10, spot 1, minutes 33 to 35
  lane 2: label 38, drawing 10, spot 2, minutes 36 to 40
  lane 2: label 38, drawing 12, spot 2, minutes 45 to 47
  lane 3: label 38, drawing 11, spot 2, minutes 41 to 48
  lane 3: label 38, drawing 13, spot 2, minutes 48 to 48
recut: number 2, counts 0 0
  last minutes 31 47 99999999
recut: number 9, counts 0 0
  last minutes 31 47 99999999
withdraw drawing: number 0, counts 1 1
recut: number 0, counts 0 0
  last minutes 99 199 99999999
  lane 1: label 38, drawing 10, spot 1, minutes 30 to 31
  lane 1: label 38, drawing 10, spot 1, minutes 33 to 35
  lane 1: label 38, drawing 10, spot 2, minutes 36 to 40
  lane 1: label 38, drawing 11, spot 2, minutes 41 to 48
  lane 1: label 38, drawing 12, spot 2, minutes 45 to 47
RECUTS

# The minimum, the questions and the gaps, with the values that must come in the programs' text; the library is built by
# now.
room=$(mktemp -d)
trap 'rm -rf "$room"' EXIT
for test in minimum questions gaps; do
    ${CC:-cc} -std=c11 -Wall -Wextra -O2 -I "$here/../include" -o "$room/$test" "$here/host_$test.c" \
        "$here/../target/staticlib/libexports.a"
    "$room/$test"
done
echo "host: document 01's example hangs as listed, faulty spans are told apart, a screen shows what hangs, a list what was missed, a sweep takes what was said, recuts move all"
