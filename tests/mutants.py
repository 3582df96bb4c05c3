# Shows that the test programs join_cases, interval_cases and question_cases and the tests of the program wall can fail.
# The sources of a program and of the crates it uses are taken as Rust: what is ghost, the promises and the tactics go,
# declared types become Copy, the host's handles and std::io become a few lines over Rust's std and the C library.
# The unchanged build must pass: the test programs write what their file stdout says, and wall is content for
# tests/wall_failures.py and some sessions of tests/wall_sessions.py. Then each wrong edit below is built by itself, and
# must not pass, stop with an error or not end. Prints 'mutants: N caught, 0 missed'; exit 1 if one is missed, 2 if the
# test could not be made. Needs python3 and rustc, works from any folder and leaves nothing behind. It says nothing of
# the proofs.
from concurrent.futures import ThreadPoolExecutor
from pathlib import Path
import os
import re
import shutil
import subprocess
import sys
import tempfile
import threading

ROOT = Path(__file__).resolve().parent.parent
STOPS_AFTER = 180       # seconds
SESSIONS = 40           # of tests/wall_sessions.py, beside those at the edges

# (file, what stands there once, what is put in its place)
CALLS = [
    # the row rule
    ('rows/lib.rt', 'if !interval::tuple::same_label(outer, inner) {', 'if false {'),
    ('rows/lib.rt', 'outer: outer.item,', 'outer: inner.item,'),
    ('rows/lib.rt', 'Side::Inner => join_pair(minimum, u, t),', 'Side::Inner => join_pair(minimum, t, u),'),
    ('interval/time.rt', 'if last.0 < first.0 {', 'if last.0 <= first.0 {'),
    ('interval/time.rt', 'a.0.max(b.0)', 'a.0.min(b.0)'),
    ('interval/time.rt', 'Chronon(a.0.min(b.0))', 'a'),
    # the minimum: how long an overlap lasts
    ('interval/time.rt', 'minimum - 1 <= v.last.0 - v.first.0', 'minimum - 1 < v.last.0 - v.first.0'),
    ('interval/time.rt', 'minimum - 1 <= v.last.0 - v.first.0', 'minimum - 1 <= v.last.0 - v.first.0 + 1'),
    ('interval/time.rt', 'minimum - 1 <= v.last.0 - v.first.0', 'minimum - 1 == v.last.0 - v.first.0'),
    ('interval/time.rt', 'minimum - 1 <= v.last.0 - v.first.0', 'true'),
    ('interval/time.rt', 'if minimum <= 1 {', 'if minimum <= 2 {'),
    ('interval/time.rt', 'if minimum <= 1 {', 'if minimum < 1 {'),
    ('interval/time.rt', 'v.first.0 {\n        return false;', 'v.first.0 {\n        return true;'),
    # its place in the row rule: on both sides, of the overlap and of no other span; the row's span stays the overlap
    ('rows/lib.rt', 'if !interval::time::durable(minimum, valid) {', 'if false {'),
    ('rows/lib.rt', 'time::durable(minimum, valid)', 'time::durable(minimum, outer.valid)'),
    ('rows/lib.rt', 'time::durable(minimum, valid)', 'time::durable(minimum, inner.valid)'),
    ('rows/lib.rt', 'Side::Outer => join_pair(minimum, t, u),', 'Side::Outer => join_pair(1, t, u),'),
    ('rows/lib.rt', 'Side::Inner => join_pair(minimum, u, t),', 'Side::Inner => join_pair(1, u, t),'),
    (
        'rows/lib.rt',
        'Some(Row {',
        'let half = (minimum - 1) / 2;\n    let valid = interval::time::Interval {\n'
        '        first: interval::time::Chronon(valid.first.0 + half),\n'
        '        last: interval::time::Chronon(valid.last.0 - half),\n    };\n    Some(Row {',
    ),
    # a minimum that is not handed on: to a change, to its checks 10 and 12, to what it adds and takes out
    ('rows/lib.rt', 'minimum: p.minimum,', 'minimum: 1,'),
    ('rows/lib.rt', 'minimum: p.minimum,', 'minimum: p.minimum + 1,'),
    ('rows/count.rt', 'crate::oriented(minimum, side', 'crate::oriented(1, side'),
    ('rows/count.rt', 'crate::oriented(minimum, side', 'crate::oriented(minimum + 1, side'),
    ('rows/count.rt', 'return matches(site.minimum, side', 'return matches(1, side'),
    ('rows/count.rt', 'matches_from(\n        site.minimum,', 'matches_from(\n        1,'),
    ('rows/count.rt', 'rows += matches(minimum, side', 'rows += matches(minimum + 1, side'),
    ('addition/lib.rt', 'added += add_part(site.minimum,', 'added += add_part(1,'),
    ('addition/lib.rt', 'added += add_part(site.minimum,', 'added += add_part(site.minimum + 1,'),
    (
        'removal/lib.rt',
        'other, site, rows, PartitionIndex(i))',
        'other, Site { minimum: 1, ..site }, rows, PartitionIndex(i))',
    ),
    ('removal/lib.rt', 'rows::oriented(site.minimum, side', 'rows::oriented(site.minimum + 1, side'),
    ('removal/lib.rt', 'times_from(\n                site.minimum,', 'times_from(\n                site.minimum + 1,'),
    ('removal/lib.rt', 'taken += take_from(site.minimum,', 'taken += take_from(1,'),
    ('removal/lib.rt', 'taken += take_from(site.minimum,', 'taken += take_from(site.minimum + 1,'),
    # to a sweep, its check 10, and what it is told to take
    ('sweep/partitions.rt', 'join_partition(\n        p.minimum,', 'join_partition(\n        1,'),
    ('sweep/partitions.rt', 'join_partition(\n        p.minimum,', 'join_partition(\n        p.minimum + 1,'),
    ('sweep/partitions.rt', 'join_run(minimum, Side::Outer, own,', 'join_run(1, Side::Outer, own,'),
    ('sweep/partitions.rt', 'join_run(minimum, Side::Inner, inner_cache,', 'join_run(1, Side::Inner, inner_cache,'),
    ('sweep/partitions.rt', 'join_run(minimum, Side::Outer, outer_cache,', 'join_run(1, Side::Outer, outer_cache,'),
    ('sweep_count/lib.rt', '        minimum,\n        Side::Outer,', '1,\n        Side::Outer,'),
    ('sweep_count/lib.rt', '        minimum,\n        Side::Inner,', '1,\n        Side::Inner,'),
    ('sweep_count/lib.rt', '        minimum,\n        Side::Inner,', 'p.minimum + 1,\n        Side::Inner,'),
    ('sweep_count/lib.rt', 'rows += rows::count::matches(minimum,', 'rows += rows::count::matches(1,'),
    ('sweep_count/lib.rt', 'if p.rows < rows_of(p,', 'if p.rows < rows_of(Partitioning { minimum: 1, ..p },'),
    ('requirements/lib.rt', 'sweep_count::rows_of(p,', 'sweep_count::rows_of(Partitioning { minimum: 1, ..p },'),
    # pairs compared and tuples looked at do not depend on it
    (
        'addition/lib.rt',
        'store::append(rows, room, i, row);\n        }\n        compared += 1;',
        'store::append(rows, room, i, row);\n            compared += 1;\n        }',
    ),
    (
        'addition/lib.rt',
        'compared += 1;',
        'if let (Some(_), None) = (rows::oriented(1, side, t, part::record_at(part, k)), pair) {\n        } else {\n'
        '            compared += 1;\n        }',
    ),
    (
        'insertion/lib.rt',
        'Counted { changed, examined }',
        'Counted { changed, examined: if site.minimum > 1 { changed } else { examined } }',
    ),
    (
        'deletion/lib.rt',
        'Counted { changed, examined }',
        'Counted { changed, examined: if site.minimum > 1 { changed } else { examined } }',
    ),
    # a recut keeps it
    ('plan/lib.rt', 'Partitioning { lasts, ..p }', 'Partitioning { lasts, minimum: 1, ..p }'),
    # its check: the bounds, the number, and after which checks it comes
    ('plan/lib.rt', 'if minimum < 1 {', 'if false {'),
    ('plan/lib.rt', 'if MOST_MINIMUM < minimum {', 'if MOST_MINIMUM <= minimum {'),
    ('plan/lib.rt', 'if MOST_MINIMUM < minimum {', 'if MOST_MINIMUM + 1 < minimum {'),
    ('plan/lib.rt', 'if MOST_MINIMUM < minimum {', 'if MOST_MINIMUM < minimum as u32 as u64 {'),
    (
        'plan/lib.rt',
        'if minimum < 1 {\n        return Err(Refusal::Minimum);',
        'if minimum < 1 {\n        return Err(Refusal::Capacity);',
    ),
    ('plan/lib.rt', '    minimum_check(p.minimum)\n', '    Ok(())\n'),
    ('plan/lib.rt', 'if p.count < 1 {', 'minimum_check(p.minimum)?;\n    if p.count < 1 {'),
    ('plan/lib.rt', 'if !covers(p.count, lasts) {', 'minimum_check(p.minimum)?;\n    if !covers(p.count, lasts) {'),
    ('plan/lib.rt', 'if p.tuples < 1 {', 'minimum_check(p.minimum)?;\n    if p.tuples < 1 {'),
    ('plan/lib.rt', 'if MOST_ROWS < p.rows {', 'minimum_check(p.minimum)?;\n    if MOST_ROWS < p.rows {'),
    (
        'checks/lib.rt',
        'sides_lengths(p, outer, inner)?;',
        'if plan::plan_number(p) == Err(Refusal::Minimum)\n'
        '        && (!store::fits_tuples(p, outer) || !store::fits_tuples(p, inner) || !store::fits_rows(p, rows))\n'
        '    {\n        return Err(Refusal::Length);\n    }\n    sides_lengths(p, outer, inner)?;',
    ),
    (
        'requirements/lib.rt',
        'plan::plan_number(p)?;',
        'if let Err(refusal) = plan::plan_number(p) {\n        if refusal != Refusal::Minimum {\n'
        '            return Err(refusal);\n        }\n    }',
    ),
    (
        'checks/lib.rt',
        'plan::plan_number(p)?;\n    tuples_length(p, outer)?;',
        'if let Err(refusal) = plan::plan_number(p) {\n        if refusal != Refusal::Minimum {\n'
        '            return Err(refusal);\n        }\n    }\n    tuples_length(p, outer)?;',
    ),
    # a stored row that is too short, and one that is just long enough
    ('interval/tuple.rt', 'crate::time::durable(minimum, row.valid)', 'true'),
    ('soundness/lib.rt', 'Records::Rows(p.minimum),', 'Records::Rows(1),'),
    ('soundness/lib.rt', 'Records::Rows(p.minimum),', 'Records::Rows(p.minimum - 1),'),
    ('soundness/lib.rt', 'Records::Rows(p.minimum),', 'Records::Rows(p.minimum + 1),'),
    ('interval/tuple.rt', 'row_number(row).is_ok()', 'true'),
    # which lanes are looked at, and which lane a row goes to
    ('addition/lib.rt', 'for j in site.low.0..site.count {', 'for j in site.low.0..=site.at.0 {'),
    ('addition/lib.rt', 'let i = site.at.0.min(j);', 'let i = site.at.0;'),
    ('addition/lib.rt', 'let i = site.at.0.min(j);', 'let i = j;'),
    ('addition/lib.rt', 'for j in site.low.0..site.count {', 'for j in site.at.0..site.count {'),
    ('addition/lib.rt', 'for k in 0..n {', 'for k in 1..n {'),
    ('rows/count.rt', 'tuples += part::count(', 'tuples += 0 * part::count('),
    ('rows/count.rt', 'if site.rows.capacity < held + more {', 'if site.rows.capacity <= held + more {'),
    ('rows/count.rt', 'if site.rows.capacity < held + more {', 'if site.rows.capacity < more {'),
    ('rows/count.rt', 'for i in site.low.0..=site.at.0 {', 'for i in site.low.0..site.at.0 {'),
    ('rows/count.rt', 'for i in site.low.0..=site.at.0 {', 'for i in site.at.0..=site.at.0 {'),
    (
        'rows/count.rt',
        'site.at,\n        site.count,\n    )',
        'PartitionIndex(0),\n        site.count,\n    )',
    ),
    (
        'addition/lib.rt',
        'added += add_part(site.minimum, side, t, part, rows, site.rows.words, to);',
        'added += add_part(site.minimum, side, t, part, rows, site.rows.words, to);\n'
        '        if j == site.at.0 {\n'
        '            add_from(site.minimum, side, t, part, rows, site.rows.words, to);\n'
        '        }',
    ),
    ('addition/lib.rt', 'let mut added: u64 = 0;', 'let mut added: u64 = 1;'),
    # what is taken out
    ('removal/lib.rt', 'if stands < goes {', 'if stands < 1 {'),
    ('removal/lib.rt', 'if stands < goes {', 'if stands <= goes {'),
    ('removal/lib.rt', 'if stands < goes {', 'if false {'),
    ('removal/lib.rt', 'store::remove(rows, ROW_WIDTH, room, i, place);', ''),
    (
        'removal/lib.rt',
        'store::remove(rows, ROW_WIDTH, room, i, place);',
        'let mut place = place;\n'
        'while (place as u64) < part::count(store::partition(rows, room, i)) {\n'
        'store::remove(rows, ROW_WIDTH, room, i, place);\n'
        'place = part::place_of(store::partition(rows, room, i), row);\n'
        '}',
    ),
    ('removal/lib.rt', 'store::remove(rows, ROW_WIDTH, room, i, place);', 'store::remove(rows, ROW_WIDTH, room, i, 0);'),
    ('removal/lib.rt', 'let mut taken: u64 = 0;', 'let mut taken: u64 = 1;'),
    (
        'removal/lib.rt',
        'let partners = store::partition(other, site.tuples.words, PartitionIndex(j));',
        'let partners = store::partition(other, site.tuples.words, PartitionIndex(i));',
    ),
    # one lane
    ('records/lib.rt', 'part.copy_within(at..end, 1 + width * k);', 'part.copy_within(at..end, 1);'),
    ('records/lib.rt', 'part[at..end].fill(0);', ''),
    ('records/lib.rt', 'part[0] = held - 1;', ''),
    ('records/lib.rt', 'part.copy_within(at..end, 1 + width * k);', ''),
    (
        'records/lib.rt',
        'part.copy_within(at..end, 1 + width * k);',
        'let own = 1 + width * k;\n    part.copy_within(own..own + width, own);',
    ),
    ('records/lib.rt', 'part[0] = held + 1;', 'part[0] = held + if R::WIDTH == 4 { 2 } else { 1 };'),
    (
        'records/lib.rt',
        'added.write(part, 1 + R::WIDTH * (held as usize));',
        'added.write(part, if R::WIDTH == 4 { 1 } else { 1 + R::WIDTH * (held as usize) });',
    ),
    ('encoding/lib.rt', 'words[at + 4] = self.valid.last.0;', 'words[at + 4] = self.valid.first.0;'),
    (
        'part/lib.rt',
        'for place in 0..n {',
        'let start = if R::WIDTH == 4 { 1 } else { 0 };\n    for place in start..n {',
    ),
    ('records/lib.rt', 'words[i] = 0;', 'words[i] = words[i] / 2;'),
    ('part/lib.rt', 'equal_rows += 1;', 'equal_rows = 1;'),
    # the checks
    ('plan/lib.rt', 'if MOST_PARTITIONS < p.count {', 'if MOST_PARTITIONS + 1 < p.count {'),
    ('plan/lib.rt', 'if next.0 <= last.0 {', 'if next.0 < last.0 {'),
    ('plan/lib.rt', 'end.0 == CALENDAR_END', 'end.0 <= CALENDAR_END'),
    ('plan/lib.rt', 'if MOST_TUPLES < p.tuples {', 'if MOST_TUPLES + 1 < p.tuples {'),
    ('plan/lib.rt', 'if MOST_ROWS < p.rows {', 'if MOST_ROWS - 1 < p.rows {'),
    ('plan/lib.rt', '|last| m.0 <= last.0)', '|last| m.0 < last.0)'),
    ('soundness/lib.rt', 'zeros_from(part, 1 + width(kind) * n)', 'true'),
    ('soundness/lib.rt', 'Records::Rows(_) => ROW_WIDTH,', 'Records::Rows(_) => TUPLE_WIDTH,'),
    ('soundness/lib.rt', 'zeros_one_by_one(words, i)', 'true'),
    ('soundness/lib.rt', 'if m.0 < first.0 {', 'if false {'),
    ('soundness/lib.rt', 'm.0 <= last.0', 'true'),
    ('store/lib.rt', 'len == p.count as usize * tuple_room(p)', 'p.count as usize * tuple_room(p) <= len'),
    ('store/lib.rt', 'len == p.count as usize * row_room(p)', 'len <= p.count as usize * row_room(p)'),
    ('interval/tuple.rt', 'if LABEL_END < label {', 'if LABEL_END <= label {'),
    ('interval/tuple.rt', 'if ITEM_END < item {', 'if ITEM_END <= item {'),
    ('interval/tuple.rt', 'if CALENDAR_END < valid.last.0 {', 'if CALENDAR_END < valid.first.0 {'),
    ('interval/tuple.rt', 'r == s', 'r == Row { inner: r.inner, ..s }'),
    ('interval/tuple.rt', 'a == b', 'a == Tuple { item: a.item, ..b }'),
    # a span entered backward, one that runs past the calendar, one that does both; a stored one
    ('interval/tuple.rt', 'return Err(Refusal::PastCalendar);', 'return Err(Refusal::Backward);'),
    ('interval/tuple.rt', 'return Err(Refusal::Backward);', 'return Err(Refusal::PastCalendar);'),
    ('interval/tuple.rt', 'if CALENDAR_END < valid.last.0 {', 'if CALENDAR_END <= valid.last.0 {'),
    ('interval/tuple.rt', 'if valid.last.0 < valid.first.0 {', 'if valid.last.0 <= valid.first.0 {'),
    (
        'interval/tuple.rt',
        'if valid.last.0 < valid.first.0 {',
        'if CALENDAR_END < valid.last.0 {\n        return Err(Refusal::PastCalendar);\n    }\n'
        '    if valid.last.0 < valid.first.0 {',
    ),
    (
        'interval/tuple.rt',
        'item_check(t.item)?;',
        'if valid_check(t.valid) == Err(Refusal::PastCalendar) {\n        return Err(Refusal::PastCalendar);\n    }\n'
        '    item_check(t.item)?;',
    ),
    (
        'soundness/lib.rt',
        'let legal = interval::tuple::tuple_number(t).is_ok();',
        'let number = interval::tuple::tuple_number(t);\n'
        '            if number == Err(refusal::Refusal::PastCalendar) {\n                return true;\n'
        '            }\n            let legal = number.is_ok();',
    ),
    (
        'soundness/lib.rt',
        'let legal = interval::tuple::legal_row(minimum, row);',
        'let legal = interval::tuple::legal_row(minimum, row);\n'
        '            if interval::tuple::row_number(row) == Err(refusal::Refusal::PastCalendar) {\n'
        '                return true;\n            }',
    ),
    # the calls: what they do
    (
        'insertion/lib.rt',
        'insert_number(p, side, t, site, own, other, rows)?;',
        'insert_number(p, side, t, site, own, other, rows)?;\n    if true {\n'
        '        return Ok(Counted { changed: 0, examined: 0 });\n    }',
    ),
    (
        'deletion/lib.rt',
        'delete_number(p, side, t, site, own, other, rows)?;',
        'delete_number(p, side, t, site, own, other, rows)?;\n    if true {\n'
        '        return Ok(Counted { changed: 0, examined: 0 });\n    }',
    ),
    ('insertion/lib.rt', 'store::append(own, site.tuples.words, site.at, t);', ''),
    (
        'insertion/lib.rt',
        'store::append(own, site.tuples.words, site.at, t);',
        'store::append(own, site.tuples.words, site.low, t);',
    ),
    (
        'insertion/lib.rt',
        'let changed = addition::add_rows(side, t, other, site, rows);',
        'let changed = (site.low.0..site.count).map(|j| {\n'
        '    let part = store::partition(other, site.tuples.words, plan::PartitionIndex(j));\n'
        '    rows::count::matches(site.minimum, side, t, part)\n'
        '}).sum();',
    ),
    ('rows/lib.rt', 'let low = plan::home(p, t.valid.first);', 'let low = plan::home(p, t.valid.last);'),
    (
        'deletion/lib.rt',
        'store::remove(own, TUPLE_WIDTH, site.tuples.words, site.at, place);',
        'store::remove(own, TUPLE_WIDTH, site.tuples.words, site.at, 0);',
    ),
    (
        'deletion/lib.rt',
        'let changed = removal::take_rows(side, t, other, site, rows);',
        'let changed = (site.low.0..site.count).map(|j| {\n'
        '    let part = store::partition(other, site.tuples.words, plan::PartitionIndex(j));\n'
        '    rows::count::matches(site.minimum, side, t, part)\n'
        '}).sum();',
    ),
    (
        'join/lib.rt',
        'Side::Inner => change_on(kind, p, side, t, inner, outer, rows),',
        'Side::Inner => change_on(kind, p, side, t, outer, inner, rows),',
    ),
    (
        'join/lib.rt',
        'Side::Inner => change_on(kind, p, side, t, inner, outer, rows),',
        'Side::Inner => change_on(kind, p, Side::Outer, t, inner, outer, rows),',
    ),
    ('join/lib.rt', 'records::clear(inner);', ''),
    # the sweep: what it carries down, which tuples it joins, and what it counts
    ('cache/lib.rt', 'if cached.valid.first.0 <= last.0 {', 'if cached.valid.first.0 < last.0 {'),
    ('cache/lib.rt', 'if cached.valid.first.0 <= last.0 {', 'if true {'),
    ('cache/lib.rt', 'if own.valid.first.0 <= last.0 {', 'if own.valid.first.0 < last.0 {'),
    ('cache/lib.rt', 'if own.valid.first.0 <= last.0 {', 'if true {'),
    ('cache/lib.rt', 'put(cache, kept, cached);', ''),
    (
        'cache/lib.rt',
        'let kept = purge(cache, n, last);\n    add(cache, kept, part, last)',
        'let added = add(cache, n, part, last);\n    purge(cache, added, last)',
    ),
    ('cache/lib.rt', 'add(cache, kept, part, last)', 'add(cache, n, part, last)'),
    ('cache/lib.rt', 'if t.valid.first.0 <= last.0 {', 'if t.valid.first.0 < last.0 {'),
    (
        'sweep/partitions.rt',
        'own_own + (own_cached + cached_own)',
        'let mut k: usize = 0;\n    while k < d {\n        let mut l: usize = 0;\n        while l < c {\n'
        '            let (t, u) = (cache::tuple(outer_cache, l), cache::tuple(inner_cache, k));\n'
        '            let pair = rows::oriented(minimum, Side::Outer, t, u);\n'
        '            if let Some(row) = pair {\n'
        '                store::append(rows, room, i, row);\n            }\n'
        '            l += 1;\n        }\n        k += 1;\n    }\n    own_own + (own_cached + cached_own)',
    ),
    ('sweep/partitions.rt', 'join_run(minimum, Side::Inner, inner_cache, d, outer, rows, room, i)', '0'),
    ('sweep/partitions.rt', 'join_run(minimum, Side::Outer, outer_cache, c, inner, rows, room, i)', '0'),
    ('sweep/partitions.rt', 'own_own + (own_cached + cached_own)', 'own_own + (own_own + (own_cached + cached_own))'),
    ('sweep/partitions.rt', 'own_own + (own_cached + cached_own)', 'own_own + own_cached'),
    ('sweep/partitions.rt', 'records::clear(rows);', ''),
    ('sweep/partitions.rt', 'let last = lasts[i.0 as usize - 1];', 'let last = lasts[i.0 as usize];'),
    ('sweep_count/lib.rt', 'if p.rows < rows_of(', 'if p.rows <= rows_of('),
    ('sweep_count/lib.rt', 'let above = i.0 + 1;', 'let above = i.0;'),
    ('sweep_count/lib.rt', 'if t.valid.first.0 <= last.0 {', 'if t.valid.first.0 < last.0 {'),
    ('sweep/partitions.rt', 'changed: written,', 'changed: compared,'),
    ('sweep_count/lib.rt', 'words < TUPLE_WIDTH * need', 'words <= TUPLE_WIDTH * need'),
    ('sweep_count/lib.rt', 'words < TUPLE_WIDTH * need', 'words + 1 < TUPLE_WIDTH * need'),
    ('sweep_count/lib.rt', 'if is_short(size.outer, outer_cache) {', 'if is_short(size.inner, outer_cache) {'),
    ('sweep_count/lib.rt', 'if is_short(size.inner, inner_cache) {', 'if is_short(size.outer, inner_cache) {'),
    ('sweep_count/lib.rt', 'if is_short(size.inner, inner_cache) {', 'if is_short(size.inner, outer_cache) {'),
    (
        'sweep_count/lib.rt',
        'return Err(Refusal::ShortCache);\n    }\n    Ok(())',
        'return Err(Refusal::Crowded);\n    }\n    Ok(())',
    ),
    ('sweep_count/lib.rt', 'if overfull(p, outer, inner) {', 'if false {'),
    (
        'sweep_count/lib.rt',
        'if is_short(size.outer, outer_cache) {',
        'if overfull(p, outer, inner) {\n        return Err(Refusal::Crowded);\n    }\n'
        '    if is_short(size.outer, outer_cache) {',
    ),
    (
        'join/lib.rt',
        'sweep_count::sweep_number(p, outer, inner, outer_cache.len(), inner_cache.len())?;',
        'let space = sweep_count::sweep_number(p, outer, inner, outer_cache.len(), inner_cache.len());\n'
        '    if space.is_err() {\n        records::clear(outer_cache);\n    }\n    space?;',
    ),
    (
        'join/lib.rt',
        'sweep_count::sweep_number(p, outer, inner, outer_cache.len(), inner_cache.len())?;',
        'let space = sweep_count::sweep_number(p, outer, inner, outer_cache.len(), inner_cache.len());\n'
        '    if space.is_err() {\n        records::clear(rows);\n    }\n    space?;',
    ),
    # what a sweep takes: the need of each side and the pairs
    ('sweep_count/lib.rt', 'let next = i.0 + 1;', 'let next = i.0;'),
    (
        'sweep_count/lib.rt',
        'let ds = cache::started_from(inner, room,',
        'let ds = cache::started_from(outer, room,',
    ),
    (
        'sweep_count/lib.rt',
        'let ss = part::count(store::partition(inner,',
        'let ss = part::count(store::partition(outer,',
    ),
    ('sweep_count/lib.rt', 'outer: cs,\n        inner: ds,', 'outer: ds,\n        inner: cs,'),
    ('sweep_count/lib.rt', 'os * ss + (ds * os + cs * ss)', 'os * ss + (ds * os + cs * ss) + cs * ds'),
    ('sweep_count/lib.rt', 'os * ss + (ds * os + cs * ss)', 'os * ss + (cs * os + ds * ss)'),
    ('sweep_count/lib.rt', 'os * ss + (ds * os + cs * ss)', 'os * ss + cs * ss'),
    ('sweep_count/lib.rt', 'os * ss + (ds * os + cs * ss)', 'os * ss'),
    (
        'sweep_count/lib.rt',
        'most_outer = most_outer.max(at.outer);\n        most_inner = most_inner.max(at.inner);',
        'most_outer = most_outer.min(at.outer);\n        most_inner = most_inner.min(at.inner);',
    ),
    ('sweep_count/lib.rt', 'most_outer = most_outer.max(at.outer);', 'most_outer = at.outer;'),
    ('sweep_count/lib.rt', 'most_outer = most_outer.max(at.outer);', 'most_outer += at.outer;'),
    ('sweep_count/lib.rt', 'most_inner = most_inner.max(at.inner);', 'most_inner = at.inner;'),
    (
        'sweep_count/lib.rt',
        'most_inner = most_inner.max(at.inner);',
        'if i == 0 {\n            most_inner = at.inner;\n        }',
    ),
    ('sweep_count/lib.rt', 'compared += at.pairs;', 'compared = at.pairs;'),
    ('sweep_count/lib.rt', 'compared += at.pairs;', 'if i == 0 {\n            compared += at.pairs;\n        }'),
    ('sweep_count/lib.rt', 'let last = lasts[i as usize];', 'let last = lasts[p.count as usize - 1];'),
    # the call that tells it before: the needs, the pairs, the report
    (
        'requirements/lib.rt',
        'Ok(sweep_count::sweep_size(p, outer, inner))',
        'let size = sweep_count::sweep_size(p, outer, inner);\n    Ok(SweepSize { inner: size.outer, ..size })',
    ),
    (
        'requirements/lib.rt',
        'Ok(sweep_count::sweep_size(p, outer, inner))',
        'let size = sweep_count::sweep_size(p, outer, inner);\n'
        '    Ok(SweepSize { outer: size.inner, inner: size.outer, ..size })',
    ),
    (
        'requirements/lib.rt',
        'Ok(sweep_count::sweep_size(p, outer, inner))',
        'let size = sweep_count::sweep_size(p, outer, inner);\n    Ok(SweepSize { outer: 4 * size.outer, ..size })',
    ),
    (
        'requirements/lib.rt',
        'Ok(sweep_count::sweep_size(p, outer, inner))',
        'let size = sweep_count::sweep_size(p, outer, inner);\n    Ok(SweepSize { inner: 4 * size.inner, ..size })',
    ),
    (
        'requirements/lib.rt',
        'Ok(sweep_count::sweep_size(p, outer, inner))',
        'let size = sweep_count::sweep_size(p, outer, inner);\n'
        '    let pairs = rows::count::examined_from(outer, store::tuple_room(p), PartitionIndex(0), p.count)\n'
        '        * rows::count::examined_from(inner, store::tuple_room(p), PartitionIndex(0), p.count);\n'
        '    Ok(SweepSize { pairs, ..size })',
    ),
    (
        'requirements/lib.rt',
        'Ok(sweep_count::sweep_size(p, outer, inner))',
        'let size = sweep_count::sweep_size(p, outer, inner);\n'
        '    Ok(SweepSize { pairs: report.iter().sum(), ..size })',
    ),
    ('requirements/lib.rt', 'write_rows(p, outer, inner, report);', ''),
    ('requirements/lib.rt', 'inner, PartitionIndex(i));', 'inner, PartitionIndex(0));'),
    ('requirements/lib.rt', 'inner, PartitionIndex(i));', 'inner, PartitionIndex(p.count - 1 - i));'),
    ('requirements/lib.rt', 'inner, PartitionIndex(i));', 'inner, PartitionIndex((i + 1) % p.count));'),
    ('requirements/lib.rt', 'inner, PartitionIndex(i));', 'inner, PartitionIndex(i)).min(p.rows);'),
    ('requirements/lib.rt', 'report[i as usize] = ', 'report[i as usize] += '),
    ('requirements/lib.rt', 'for i in 0..p.count {', 'for i in 1..p.count {'),
    ('requirements/lib.rt', 'for i in 0..p.count {', 'for i in 0..p.count - 1 {'),
    ('sweep_count/lib.rt', 'with_inner + with_outer', 'with_inner'),
    (
        'sweep_count/lib.rt',
        'i,\n        p.count,\n        last,\n        own_inner,',
        'i,\n        above,\n        last,\n        own_inner,',
    ),
    # its numbers, which check comes first, and a refusal that writes
    ('requirements/lib.rt', 'if words as u64 == p.count {', 'if p.count <= words as u64 {'),
    ('requirements/lib.rt', 'if words as u64 == p.count {', 'if words as u64 <= p.count {'),
    ('requirements/lib.rt', 'if words as u64 == p.count {', 'if words == plan::PLACES {'),
    ('requirements/lib.rt', 'plan::plan_number(p)?;', ''),
    ('requirements/lib.rt', 'checks::tuples_length(p, outer.len())?;', ''),
    ('requirements/lib.rt', 'checks::tuples_length(p, inner.len())?;', ''),
    ('requirements/lib.rt', 'checks::tuples_length(p, inner.len())', 'checks::tuples_length(p, outer.len())'),
    ('requirements/lib.rt', 'report_length(p, words)?;', ''),
    ('requirements/lib.rt', 'checks::tuples_unsound(p, outer)?;', ''),
    ('requirements/lib.rt', 'checks::tuples_unsound(p, inner)', 'Ok(())'),
    ('requirements/lib.rt', 'plan::plan_number(p)?;', 'report_length(p, words)?;\n    plan::plan_number(p)?;'),
    (
        'requirements/lib.rt',
        'report_length(p, words)?;',
        'checks::tuples_unsound(p, outer)?;\n    report_length(p, words)?;',
    ),
    (
        'requirements/lib.rt',
        'report_length(p, words)?;',
        'checks::tuples_unsound(p, inner)?;\n    report_length(p, words)?;',
    ),
    (
        'requirements/lib.rt',
        'requirements_number(p, outer, inner, report.len())?;',
        'requirements_number(p, outer, inner, report.len())?;\n    if sweep_count::overfull(p, outer, inner) {\n'
        '        return Err(Refusal::Crowded);\n    }',
    ),
    (
        'requirements/lib.rt',
        'requirements_number(p, outer, inner, report.len())?;',
        'records::clear(report);\n    requirements_number(p, outer, inner, report.len())?;',
    ),
    (
        'requirements/lib.rt',
        'requirements_number(p, outer, inner, report.len())?;',
        'let number = requirements_number(p, outer, inner, report.len());\n    if number == Err(Refusal::Unsound) {\n'
        '        records::clear(report);\n    }\n    number?;',
    ),
    (
        'requirements/lib.rt',
        'requirements_number(p, outer, inner, report.len())?;',
        'if let Err(refusal) = requirements_number(p, outer, inner, report.len()) {\n'
        '        return Ok(SweepSize { outer: 0, inner: 0, pairs: refusal.into() });\n    }',
    ),
    # the repartition: the plan that it returns, its numbers, and which check comes first
    ('join/lib.rt', 'plan: next,', 'plan: p,'),
    (
        'join/lib.rt',
        'answer: Err(refusal),\n            plan: p,',
        'answer: Err(refusal),\n            plan: plan::with_cuts(p, new),',
    ),
    (
        'join/lib.rt',
        'examined: 0,\n                }),\n                plan',
        'examined: 1,\n                }),\n                plan',
    ),
    ('plan/lib.rt', 'let places = MOST_PARTITIONS.min(p.count) as usize;', 'let places = PLACES;'),
    (
        'plan/lib.rt',
        'lasts[..places].copy_from_slice(&new[..places]);',
        'lasts[1..places].copy_from_slice(&new[1..places]);',
    ),
    ('join/lib.rt', 'if !plan::covers(p.count, new) {', 'if false {'),
    ('join/lib.rt', 'return Err(Refusal::Cuts);', 'return Err(Refusal::Missing);'),
    (
        'join/lib.rt',
        'let next = plan::with_cuts(p, new);\n    repartitioning::move_number(',
        'if rows.iter().any(|w| *w != 0) {\n        return Err(Refusal::Missing);\n    }\n'
        '    let next = plan::with_cuts(p, new);\n    repartitioning::move_number(',
    ),
    ('repartitioning/lib.rt', 'if tuples_overfull(p, q, outer) {', 'if false {'),
    ('repartitioning/lib.rt', 'if tuples_overfull(p, q, inner) {', 'if false {'),
    ('repartitioning/lib.rt', 'if rows_overfull(p, q, rows) {', 'if false {'),
    (
        'repartitioning/lib.rt',
        'if tuples_overfull(p, q, outer) {',
        'if rows_overfull(p, q, rows) {\n        return Err(Refusal::Crowded);\n    }\n'
        '    if tuples_overfull(p, q, outer) {',
    ),
    (
        'repartitioning/lib.rt',
        'if tuples_overfull(p, q, inner) {',
        'if rows_overfull(p, q, rows) {\n        return Err(Refusal::Crowded);\n    }\n'
        '    if tuples_overfull(p, q, inner) {',
    ),
    ('repartitioning/lib.rt', 'return Err(Refusal::Crowded);', 'return Err(Refusal::Full);'),
    (
        'repartitioning/lib.rt',
        'inner) {\n        return Err(Refusal::Full);',
        'inner) {\n        return Err(Refusal::Crowded);',
    ),
    ('repartitioning/lib.rt', 'TUPLE_WIDTH, room, q, q.tuples)', 'TUPLE_WIDTH, room, q, q.rows)'),
    ('repartitioning/lib.rt', 'ROW_WIDTH, room, q, q.rows)', 'ROW_WIDTH, room, q, q.tuples)'),
    ('repartitioning/lib.rt', 'ROW_WIDTH, room, q, q.rows)', 'ROW_WIDTH, room, p, q.rows)'),
    # what is counted for 9 and 10
    ('move_count/lib.rt', 'if cuts[middle] < m.0 {', 'if cuts[middle] <= m.0 {'),
    ('move_count/lib.rt', '|count| capacity < *count', '|count| capacity <= *count'),
    ('move_count/lib.rt', '|count| capacity < *count', '|count| capacity + 1 < *count'),
    ('move_count/lib.rt', 'for j in 0..cuts.len() {', 'for j in 1..cuts.len() {'),
    ('move_count/lib.rt', 'for j in 0..cuts.len() {', 'for j in 0..cuts.len() - 1 {'),
    ('move_count/lib.rt', 'for k in 0..held {', 'for k in 1..held {'),
    ('move_count/lib.rt', 'part[width * (k + 1)]', 'part[width * (k + 1) - 1]'),
    ('move_count/lib.rt', 'for i in 0..q.count as usize {', 'for i in 1..q.count as usize {'),
    ('move_count/lib.rt', 'counts.iter().any(', 'counts.iter().skip(1).any('),
    ('move_count/lib.rt', 'some_above(&counts[..n], capacity)', 'some_above(&counts[..n - 1], capacity)'),
    # what moves, and a refusal that moves some
    ('join/lib.rt', 'repartitioning::move_tuples(p, next, outer);', ''),
    ('join/lib.rt', 'repartitioning::move_tuples(p, next, inner);', ''),
    ('join/lib.rt', 'repartitioning::move_rows(p, next, rows);', ''),
    (
        'join/lib.rt',
        'repartitioning::move_rows(p, next, rows);',
        'repartitioning::move_rows(p, next, rows);\n    sweep(next, outer, inner, rows, &mut [0; 264], &mut [0; 264]);',
    ),
    (
        'join/lib.rt',
        'match repartition_number(p, new, outer, inner, rows) {',
        'let check = repartition_number(p, new, outer, inner, rows);\n    if check == Err(Refusal::Crowded) {\n'
        '        repartitioning::move_tuples(p, plan::with_cuts(p, new), outer);\n    }\n    match check {',
    ),
    (
        'join/lib.rt',
        'match repartition_number(p, new, outer, inner, rows) {',
        'let check = repartition_number(p, new, outer, inner, rows);\n    if check == Err(Refusal::Full) {\n'
        '        moves::compact(inner, 4, store::tuple_room(p), p.count);\n    }\n    match check {',
    ),
    (
        'join/lib.rt',
        'match repartition_number(p, new, outer, inner, rows) {',
        'let check = repartition_number(p, new, outer, inner, rows);\n'
        '    if check == Err(Refusal::Cuts) && outer[0] > 1 {\n        records::swap(outer, 4, 0, 1);\n    }\n'
        '    match check {',
    ),
    # the move of one store: gathered to a run, split, and laid down
    ('moves/lib.rt', 'for i in 0..count {', 'for i in 1..count {'),
    ('moves/lib.rt', 'let first = start + 1;', 'let first = start;'),
    ('moves/lib.rt', 'gathered += held;', 'gathered = held;'),
    (
        'moves/lib.rt',
        'ws.copy_within(first..first + width * held, 1 + width * gathered);',
        'for w in (0..width * held).rev() {\n            ws[1 + width * gathered + w] = ws[first + w];\n        }',
    ),
    (
        'moves/lib.rt',
        'ws.copy_within(first..first + words, at + 1);',
        'for w in 0..words {\n        ws[at + 1 + w] = ws[first + w];\n    }',
    ),
    ('moves/lib.rt', 'if ws[width * (low + 1)] < first.0 {', 'if ws[width * (low + 1)] <= first.0 {'),
    ('moves/lib.rt', 'if ws[width * (high + 1)] < first.0 {', 'if ws[width * (high + 1)] <= first.0 {'),
    ('moves/lib.rt', 'records::swap(ws, width, low, high);', ''),
    ('moves/lib.rt', 'records::swap(ws, width, low, high);', 'records::swap(ws, width, lo, high);'),
    ('moves/lib.rt', 'records::swap(ws, width, low, high);', 'records::swap(ws, width, low, hi - 1);'),
    ('records/lib.rt', 'part[high + j] = below;', ''),
    ('records/lib.rt', 'for j in 0..width {\n        let below', 'for j in 0..width - 1 {\n        let below'),
    ('moves/lib.rt', 'ws[tail..end].fill(0);', ''),
    ('moves/lib.rt', 'let end = at + room;', 'let end = ws.len();'),
    ('moves/lib.rt', 'ws[at] = held as u64;', ''),
    ('moves/lib.rt', 'ws[at] = held as u64;', 'ws[at] = hi as u64;'),
    (
        'moves/lib.rt',
        'ws.copy_within(first..first + words, at + 1);\n    ws[at] = held as u64;',
        'ws[at] = held as u64;\n    ws.copy_within(first..first + words, at + 1);',
    ),
    ('rehoming/lib.rt', 'Chronon(before.0 + 1)', 'Chronon(before.0)'),
    ('rehoming/lib.rt', 'PartitionIndex(a.0 + half)', 'PartitionIndex(half)'),
    ('rehoming/lib.rt', 'q, middle, n - half, k, hi);', 'q, middle, half, k, hi);'),
    ('rehoming/lib.rt', 'q, a, half, lo, k);', 'q, a, half, lo, hi);'),
    ('rehoming/lib.rt', 'q, a, half, lo, k);', 'q, a, half, 0, k);'),
    (
        'rehoming/lib.rt',
        'spread(ws, width, room, q, middle, n - half, k, hi);\n    spread(ws, width, room, q, a, half, lo, k);',
        'spread(ws, width, room, q, a, half, lo, k);\n    spread(ws, width, room, q, middle, n - half, k, hi);',
    ),
    ('rehoming/lib.rt', 'q.count, 0, held);', 'q.count, held.min(1), held);'),
    # the calls: a refusal that writes, and records that are put in another order in lanes that are not concerned
    (
        'insertion/lib.rt',
        'insert_number(p, side, t, site, own, other, rows)?;',
        'let number = insert_number(p, side, t, site, own, other, rows);\n    if number == Err(Refusal::Crowded) {\n'
        '        append_tuple(p, t, site, own);\n    }\n    number?;',
    ),
    (
        'insertion/lib.rt',
        'let changed = addition::add_rows(side, t, other, site, rows);',
        'let changed = addition::add_rows(side, t, other, site, rows);\n'
        'if rows[0] > 1 && site.at.0 > 0 && site.low.0 > 0 {\n    for f in 1..6 {\n        rows.swap(f, f + 5);\n    }\n}',
    ),
    (
        'deletion/lib.rt',
        'store::remove(own, TUPLE_WIDTH, site.tuples.words, site.at, place);',
        'store::remove(own, TUPLE_WIDTH, site.tuples.words, site.at, place);\n'
        'if own[0] > 1 {\n    records::swap(own, TUPLE_WIDTH, 0, 1);\n}',
    ),
    # the calls: their counts
    (
        'join/lib.rt',
        'checks::given_number(p, t, outer, inner, rows)?;',
        'if let Err(refusal) = checks::given_number(p, t, outer, inner, rows) {\n'
        '        return Ok(Counted { changed: refusal.into(), examined: 0 });\n    }',
    ),
    (
        'insertion/lib.rt',
        'let changed = addition::add_rows(side, t, other, site, rows);',
        'let changed = (site.at.0..site.count).map(|j| {\n'
        '    let part = store::partition(other, site.tuples.words, plan::PartitionIndex(j));\n'
        '    rows::count::matches(site.minimum, side, t, part)\n'
        '}).sum();\n'
        'addition::add_rows(side, t, other, site, rows);',
    ),
    (
        'insertion/lib.rt',
        'let examined = rows::count::examined_from(other, site.tuples.words, site.low, site.count);',
        'let examined = rows::count::examined_from(other, site.tuples.words, site.at, site.count);',
    ),
    (
        'deletion/lib.rt',
        'let examined = rows::count::examined_from(other, site.tuples.words, site.low, site.count);',
        'let examined = rows::count::examined_from(other, site.tuples.words, plan::PartitionIndex(0), site.count);',
    ),
    ('deletion/lib.rt', 'Counted { changed, examined }', 'Counted { changed: 0, examined }'),
    # the calls: their numbers, and which check comes first
    ('insertion/lib.rt', 'if site.tuples.capacity <= held {', 'if site.tuples.capacity < held + 2 {'),
    ('insertion/lib.rt', 'return Err(Refusal::Full);', 'return Err(Refusal::Crowded);'),
    ('deletion/lib.rt', 'return Err(Refusal::Missing);', 'return Err(Refusal::Lacking);'),
    (
        'deletion/lib.rt',
        'missing_check(p, t, site, own)?;\n    lacking_check(p, side, t, site, other, rows)',
        'lacking_check(p, side, t, site, other, rows)?;\n    missing_check(p, t, site, own)',
    ),
    (
        'insertion/lib.rt',
        'full_check(p, t, site, own)?;\n    overfull_check(p, side, t, site, other, rows)',
        'overfull_check(p, side, t, site, other, rows)?;\n    full_check(p, t, site, own)',
    ),
    (
        'checks/lib.rt',
        'store_number(p, outer, inner, rows)?;',
        'interval::tuple::tuple_number(t)?;\n    store_number(p, outer, inner, rows)?;',
    ),
    (
        'checks/lib.rt',
        'store_number(p, outer, inner, rows)?;',
        'lengths_number(p, outer.len(), inner.len(), rows.len())?;',
    ),
    ('checks/lib.rt', 'sides_lengths(p, outer, inner)?;', 'sides_lengths(p, outer, outer)?;'),
    ('checks/lib.rt', 'sides_unsound(p, outer, inner)?;', 'tuples_unsound(p, outer)?;'),
    ('checks/lib.rt', 'sides_unsound(p, outer, inner)?;\n    rows_unsound(p, rows)', 'sides_unsound(p, outer, inner)'),
    (
        'plan/lib.rt',
        'if !covers(p.count, lasts) {',
        'if p.tuples < 1 {\n        return Err(Refusal::Capacity);\n    }\n    if !covers(p.count, lasts) {',
    ),
    (
        'interval/tuple.rt',
        'label_check(t.label)?;\n    item_check(t.item)?;',
        'item_check(t.item)?;\n    label_check(t.label)?;',
    ),
]

# words at the ends of their range, which no call takes so far
EDGES = [
    ('interval/time.rt', 'minimum - 1 <= v.last.0 - v.first.0', 'minimum <= v.last.0 - v.first.0 + 1'),
    ('interval/time.rt', 'minimum - 1 <= v.last.0 - v.first.0', 'v.first.0 + (minimum - 1) <= v.last.0'),
    (
        'interval/time.rt',
        'minimum - 1 <= v.last.0 - v.first.0',
        'minimum <= (v.last.0 - v.first.0).wrapping_add(1)',
    ),
    ('interval/time.rt', 'minimum - 1 <= v.last.0 - v.first.0', 'minimum - 1 < v.last.0 - v.first.0'),
    ('interval/time.rt', 'minimum - 1 <= v.last.0 - v.first.0', 'minimum as i64 - 1 <= (v.last.0 - v.first.0) as i64'),
    ('interval/time.rt', 'v.first.0 {\n        return false;', 'v.first.0 {\n        return true;'),
    ('interval/time.rt', 'if v.last.0 <= v.first.0 {\n        return false;', 'if false {\n        return false;'),
    ('interval/time.rt', 'if minimum <= 1 {', 'if minimum == 1 {'),
    ('interval/time.rt', '        return true;', '        return v.first.0 <= v.last.0;'),
    ('interval/time.rt', 'if minimum <= 1 {', 'if minimum <= 1 || 1_440 < minimum {'),
    ('interval/tuple.rt', 'row_number(row).is_ok()', 'true'),
    ('interval/tuple.rt', 'crate::time::durable(minimum, row.valid)', 'true'),
    (
        'interval/tuple.rt',
        'row_number(row).is_ok()',
        '(row_number(row).is_ok() || row_number(row) == Err(Refusal::PastCalendar))',
    ),
]

# a screenful of questions: the code of one question and of the cursor, which both forms use
QUESTIONS = [
    # what a row adds to an answer
    ('question/lib.rt', 'if r.label != q.label {', 'if false {'),
    ('question/lib.rt', 'if r.label != q.label {', 'if r.label < q.label {'),
    ('question/lib.rt', 'if q.minute.0 < r.valid.first.0 {', 'if q.minute.0 <= r.valid.first.0 {'),
    ('question/lib.rt', 'if q.minute.0 < r.valid.first.0 {', 'if q.minute.0 + 1 < r.valid.first.0 {'),
    ('question/lib.rt', 'if q.minute.0 < r.valid.first.0 {', 'if false {'),
    ('question/lib.rt', 'if r.valid.last.0 < q.minute.0 {', 'if r.valid.last.0 <= q.minute.0 {'),
    ('question/lib.rt', 'if r.valid.last.0 < q.minute.0 {', 'if r.valid.last.0 + 1 < q.minute.0 {'),
    ('question/lib.rt', 'if r.valid.last.0 < q.minute.0 {', 'if false {'),
    ('question/lib.rt', 'answer: q.answer + 1,', 'answer: 1,'),
    ('question/lib.rt', 'answer: q.answer + 1,', 'answer: q.answer + r.inner,'),
    # the old answer: it is added to, kept by an illegal question, kept by all
    ('question/lib.rt', 'answer: 0,', 'answer: if q.answer == u64::MAX { 0 } else { q.answer },'),
    ('question/lib.rt', 'answer: 0,', 'answer: if CALENDAR_END < q.minute.0 { q.answer } else { 0 },'),
    ('question/lib.rt', 'answer: 0,', 'answer: if q.label < 1 || 217_180_147_158 < q.label { q.answer } else { 0 },'),
    ('question/lib.rt', 'answer: 0,', 'answer: q.answer % 2,'),
    # which minutes count for what is read, and which of them is the one to start at
    ('question/lib.rt', 'if CALENDAR_END < q.minute.0 {', 'if CALENDAR_END <= q.minute.0 {'),
    (
        'question/lib.rt',
        'if CALENDAR_END < q.minute.0 {',
        'if CALENDAR_END < q.minute.0 || q.label < 1 || 217_180_147_158 < q.label {',
    ),
    ('question/lib.rt', 'time::earlier(window.first, q.minute)', 'time::later(window.first, q.minute)'),
    (
        'question/lib.rt',
        'interval::time::earlier(window.first, q.minute)',
        'if CALENDAR_END < window.first.0 { q.minute } else { interval::time::later(window.first, q.minute) }',
    ),
    (
        'question/lib.rt',
        'interval::time::earlier(window.first, q.minute)',
        'if CALENDAR_END < window.first.0 { q.minute } else { window.first }',
    ),
    ('question/lib.rt', 'interval::time::earlier(window.first, q.minute)', 'q.minute'),
    ('question/lib.rt', 'first: Chronon(CALENDAR_END + 1),', 'first: Chronon(CALENDAR_END),'),
    ('question/lib.rt', 'first: Chronon(CALENDAR_END + 1),', 'first: Chronon(0),'),
    ('question/lib.rt', 'plan::home(p, window.first)', 'plan::PartitionIndex(0)'),
    ('question/lib.rt', 'plan::home(p, window.first)', 'plan::home(p, window.last)'),
    ('question/lib.rt', 'plan::home(p, window.first)', 'plan::home(p, Chronon(window.first.0 + 1))'),
    # a window that is too narrow
    ('question/lib.rt', 'time::later(window.last, q.minute)', 'time::earlier(window.last, q.minute)'),
    ('question/lib.rt', 'interval::time::later(window.last, q.minute)', 'q.minute'),
    ('cursor/lib.rt', 'if window.last.0 < row.valid.first.0 {', 'if window.last.0 <= row.valid.first.0 {'),
    ('cursor/lib.rt', 'if window.last.0 < row.valid.first.0 {', 'if window.last.0 < row.valid.last.0 {'),
    ('cursor/lib.rt', 'window.first.0 <= row.valid.last.0', 'window.first.0 < row.valid.last.0'),
    ('cursor/lib.rt', 'window.first.0 <= row.valid.last.0', 'window.first.0 <= row.valid.first.0'),
    # which lanes and rows are read
    ('question/lib.rt', 'count: p.count,', 'count: p.count - 1,'),
    ('cursor/lib.rt', 'for j in i.0..scan.count {', 'for j in i.0..scan.count.saturating_sub(1) {'),
    ('cursor/lib.rt', 'for j in i.0..scan.count {', 'for j in i.0..scan.count.min(scan.from.0 + 1) {'),
    ('cursor/lib.rt', 'for j in i.0..scan.count {', 'for j in (i.0..scan.count).step_by(2) {'),
    ('cursor/lib.rt', '        place = 0;', '        place = 1;'),
    ('cursor/lib.rt', '        place = 0;\n', ''),
    ('cursor/lib.rt', 'for place in k..n {', 'for place in k + 1..n {'),
    ('cursor/lib.rt', 'for place in k..n {', 'for place in (k..n).step_by(2) {'),
    ('cursor/lib.rt', 'for place in k..n {', 'for place in k..n.saturating_sub(1) {'),
    # which row is handed out, and from where the next one is sought
    ('cursor/lib.rt', 'part::record_at::<Row>(part, place)', 'part::record_at::<Row>(part, k)'),
    ('cursor/lib.rt', '                place,\n', '                place: k,\n'),
    ('cursor/lib.rt', '                partition: i,\n', '                partition: PartitionIndex(i.0 + 1),\n'),
    ('cursor/lib.rt', 'reach(rows, scan, scan.from, 0)', 'reach(rows, scan, scan.from, 1)'),
    ('cursor/lib.rt', 'reach(rows, scan, scan.from, 0)', 'reach(rows, scan, PartitionIndex(scan.from.0 + 1), 0)'),
    ('cursor/lib.rt', 'at.place + 1)', 'at.place + 2)'),
    # how many are said to be read
    ('cursor/lib.rt', 'scan.room, scan.from, scan.count)', 'scan.room, PartitionIndex(0), scan.count)'),
    ('cursor/lib.rt', 'scan.room, scan.from, scan.count)', 'scan.room, PartitionIndex(scan.from.0 + 1), scan.count)'),
    ('cursor/lib.rt', 'scan.room, scan.from, scan.count)', 'scan.room, scan.from, scan.count - 1)'),
    ('questions/lib.rt', 'changed: 0,\n        examined: read,', 'changed: read,\n        examined: read,'),
    (
        'questions/lib.rt',
        'checks::rows_number(p, rows)?;',
        'if let Err(refusal) = checks::rows_number(p, rows) {\n'
        '        return Ok(Counted { changed: 0, examined: refusal.into() });\n    }',
    ),
    # the form in structs: its checks
    ('checks/lib.rt', 'rows_length(p, rows.len())?;', ''),
    ('checks/lib.rt', 'rows_length(p, rows.len())?;\n    rows_unsound(p, rows)', 'rows_length(p, rows.len())'),
    (
        'checks/lib.rt',
        'plan::plan_number(p)?;\n    rows_length(p, rows.len())?;',
        'if let Err(refusal) = plan::plan_number(p) {\n        if refusal != Refusal::Minimum {\n'
        '            return Err(refusal);\n        }\n    }\n    rows_length(p, rows.len())?;',
    ),
    (
        'checks/lib.rt',
        'plan::plan_number(p)?;\n    rows_length(p, rows.len())?;',
        'let number = plan::plan_number(p);\n'
        '    if number == Err(Refusal::Minimum) && !store::fits_rows(p, rows.len()) {\n'
        '        return Err(Refusal::Length);\n    }\n    number?;\n    rows_length(p, rows.len())?;',
    ),
    (
        'questions/lib.rt',
        'checks::rows_number(p, rows)?;',
        'let number = checks::rows_number(p, rows);\n    if number.is_err() {\n        begin(qs);\n    }\n'
        '    number?;',
    ),
    # the form in structs: its lists
    (
        'questions/lib.rt',
        'for q in qs.iter_mut() {\n        window',
        'let n = qs.len().saturating_sub(1);\n    for q in qs[..n].iter_mut() {\n        window',
    ),
    (
        'questions/lib.rt',
        'for q in qs.iter_mut() {\n        *q',
        'let n = qs.len().saturating_sub(1);\n    for q in qs[..n].iter_mut() {\n        *q',
    ),
    ('questions/lib.rt', 'window = question::widened(window, *q);', ''),
    ('questions/lib.rt', '*q = question::cleared(*q);', ''),
    (
        'questions/lib.rt',
        'for q in qs.iter_mut() {\n        *q = question::with_row(*q, r);',
        'for i in 0..qs.len() {\n        let next = question::with_row(qs[i], r);\n        qs[0] = next;',
    ),
    ('questions/lib.rt', 'while let Some(c) = at {', 'if let Some(c) = at {'),
    (
        'questions/lib.rt',
        'while let Some(c) = at {',
        'if let Some(c) = at {\n        at = cursor::next(rows, scan, c);\n    }\n    while let Some(c) = at {',
    ),
    (
        'questions/lib.rt',
        'count_row(qs, c.row);',
        'let part = store::partition(rows, scan.room, c.partition);\n'
        '        if c.place == 0 || !interval::tuple::same_row(c.row, part::record_at(part, c.place - 1)) {\n'
        '            count_row(qs, c.row);\n        }',
    ),
    # the form in structs: what it says
    ('questions/lib.rt', 'cursor::stored(rows, scan)', 'cursor::stored(rows, scan) * qs.len() as u64'),
    (
        'questions/lib.rt',
        'cursor::stored(rows, scan)',
        'let mut read = 0;\n    let mut at = cursor::first(rows, scan);\n    while let Some(c) = at {\n'
        '        read += 1;\n        at = cursor::next(rows, scan, c);\n    }\n    read',
    ),
    ('questions/lib.rt', 'changed: 0,\n        examined: read,', 'changed: read,\n        examined: 0,'),
    # the form in words: its checks, and their order
    ('question_words/lib.rt', 'if words % QUESTION_WIDTH == 0 {', 'if true {'),
    ('question_words/lib.rt', 'if words % QUESTION_WIDTH == 0 {', 'if words % QUESTION_WIDTH < 2 {'),
    ('question_words/lib.rt', 'Err(Refusal::Length)', 'Err(Refusal::Unsound)'),
    ('question_words/lib.rt', 'checks::rows_length(p, rows.len())?;', ''),
    ('question_words/lib.rt', 'checks::rows_unsound(p, rows)', 'Ok(())'),
    ('question_words/lib.rt', 'plan::plan_number(p)?;', 'whole_check(words)?;\n    plan::plan_number(p)?;'),
    (
        'question_words/lib.rt',
        'plan::plan_number(p)?;',
        'let number = plan::plan_number(p);\n    if number == Err(Refusal::Minimum) {\n        whole_check(words)?;\n'
        '    }\n    number?;',
    ),
    (
        'question_words/lib.rt',
        'plan::plan_number(p)?;',
        'let number = plan::plan_number(p);\n    if number == Err(Refusal::Minimum) {\n'
        '        checks::rows_length(p, rows.len())?;\n    }\n    number?;',
    ),
    ('question_words/lib.rt', 'whole_check(words)?;', 'checks::rows_unsound(p, rows)?;\n    whole_check(words)?;'),
    (
        'question_words/lib.rt',
        'words_number(p, rows, ws.len())?;',
        'let number = words_number(p, rows, ws.len());\n    if number.is_err() {\n        begin(ws);\n    }\n'
        '    number?;',
    ),
    # the form in words: its lists
    ('question_words/lib.rt', 'let at = i * QUESTION_WIDTH;', 'let at = i * 2;'),
    (
        'question_words/lib.rt',
        'label: ws[at],\n        minute: Chronon(ws[at + 1]),',
        'label: ws[at + 1],\n        minute: Chronon(ws[at]),',
    ),
    ('question_words/lib.rt', 'ws[i * QUESTION_WIDTH + 2] = next.answer;', 'ws[i * QUESTION_WIDTH + 1] = next.answer;'),
    ('question_words/lib.rt', 'ws[i * QUESTION_WIDTH + 2] = next.answer;', 'ws[i + 2] = next.answer;'),
    ('question_words/lib.rt', 'ws[i * QUESTION_WIDTH + 2] = question::cleared(q).answer;', ''),
    (
        'question_words/lib.rt',
        'let n = ws.len() / QUESTION_WIDTH;\n    let mut window',
        'let n = (ws.len() / QUESTION_WIDTH).saturating_sub(1);\n    let mut window',
    ),
    (
        'question_words/lib.rt',
        'let n = ws.len() / QUESTION_WIDTH;\n    for i',
        'let n = (ws.len() / QUESTION_WIDTH).saturating_sub(1);\n    for i',
    ),
    ('question_words/lib.rt', 'window = question::widened(window, q);', ''),
    ('question_words/lib.rt', 'while let Some(c) = at {', 'if let Some(c) = at {'),
    (
        'question_words/lib.rt',
        'while let Some(c) = at {',
        'if let Some(c) = at {\n        at = cursor::next(rows, scan, c);\n    }\n    while let Some(c) = at {',
    ),
    (
        'question_words/lib.rt',
        'count_row(ws, c.row);',
        'let part = store::partition(rows, scan.room, c.partition);\n'
        '        if c.place == 0 || !interval::tuple::same_row(c.row, part::record_at(part, c.place - 1)) {\n'
        '            count_row(ws, c.row);\n        }',
    ),
    # the form in words: what it says
    (
        'question_words/lib.rt',
        'examined: cursor::stored(rows, scan),',
        'examined: cursor::stored(rows, scan) * (ws.len() / QUESTION_WIDTH) as u64,',
    ),
    (
        'question_words/lib.rt',
        'changed: 0,\n        examined: cursor::stored(rows, scan),',
        'changed: cursor::stored(rows, scan),\n        examined: 0,',
    ),
]

# the program wall: what it reads and writes, which no promise can say, and some of what it prints
WALL = [
    # the weights of a label's letters
    ('label/lib.rt', '    1,\n    26,', '    0,\n    26,'),
    ('label/lib.rt', '    17_576,', '    17_575,'),
    ('label/lib.rt', '    8_031_810_176,', '    8_031_810_175,'),
    ('label/lib.rt', '    676,\n    17_576,', '    17_576,\n    676,'),
    ('label/lib.rt', '    11_881_376,\n    308_915_776,', '    308_915_776,\n    11_881_376,'),
    ('label/lib.rt', 'weights[after]', 'weights[i]'),
    ('label/lib.rt', 'weights[after]', 'weights[7 - after]'),
    ('label/lib.rt', 'letters[i]', 'letters[after]'),
    # small letters in labels, and nowhere else
    ('label/lib.rt', 'rank_of(capital_of(letters[i]))', 'rank_of(letters[i])'),
    ('label/lib.rt', 'b - 32\n', 'b - 33\n'),
    ('label/lib.rt', 'if 122 < b {', 'if 121 < b {'),
    ('label/lib.rt', 'if b < 97 {', 'if b < 98 {'),
    ('label/lib.rt', 'if 90 < b {', 'if 91 < b {'),
    ('label/lib.rt', '65 + last as u8', '97 + last as u8'),
    ('lines/lib.rt', 'let word = &line[0..c];', 'let word = &line[0..c].to_ascii_lowercase();'),
    ('lines/lib.rt', 'if 57 < b {', 'if 122 < b {'),
    # reading
    (
        'wall/main.rt',
        'let n = channel::read_part(stdin, stderr, &mut part)?;',
        'let Ok(n) = channel::read_part(stdin, stderr, &mut part) else {\n            break;\n        };',
    ),
    ('wall/main.rt', '&part[..n],', '&part[..1],'),
    ('wall/main.rt', 'for _ in 0..u64::MAX {', 'for _ in 0..1 {'),
    ('wall/main.rt', '        reading = next;\n', ''),
    # the words and bytes that it lends
    ('wall/main.rt', 'REFUSAL_BYTES * PART_BYTES + FINISH_BYTES', 'REFUSAL_BYTES * 80 + FINISH_BYTES'),
    ('wall/main.rt', 'REFUSAL_BYTES * PART_BYTES + FINISH_BYTES', 'REFUSAL_BYTES * 81'),
    ('session_plan/lib.rt', 'PARTITIONS as usize * ROW_ROOM', 'PARTITIONS as usize * TUPLE_ROOM'),
    ('session_plan/lib.rt', 'PARTITIONS as usize * TUPLE_ROOM', '7 * TUPLE_ROOM'),
    ('wall/channel.rt', 'Err(error) => Err(', 'Err(_) => Ok(0),\n        Err(error) => Err('),
    ('wall/channel.rt', 'const INTERRUPTED: i32 = 4;', 'const INTERRUPTED: i32 = -4;'),
    ('wall/channel.rt', 'Err(error.raw_os_error().unwrap_or(0))', 'Err(0)'),
    # writing
    (
        'wall/main.rt',
        'channel::print(stdout, stderr, &text[..bytes])?;',
        'channel::print(stdout, stderr, &text[..0])?;',
    ),
    (
        'wall/main.rt',
        'channel::print(stdout, stderr, &text[..bytes])?;',
        'let _ = channel::print(stdout, stderr, &text[..bytes]);',
    ),
    (
        'wall/main.rt',
        '    channel::print(stdout, stderr, &text[..bytes])\n}',
        '    channel::print(stdout, stderr, &text[..0])\n}',
    ),
    ('wall/channel.rt', 'from += n;', 'from = text.len();'),
    ('wall/channel.rt', 'write_some(output, &text[from..])', 'write_some(output, &text[0..])'),
    ('wall/channel.rt', 'return Err(0);', 'return Ok(());'),
    (
        'wall/channel.rt',
        'let n = write_some(output, &text[from..])?;',
        'let Ok(n) = write_some(output, &text[from..]) else {\n            return Ok(());\n        };',
    ),
    # telling
    ('wall/channel.rt', 'tell(stderr, b"wall: read: error ", error);', ''),
    ('wall/channel.rt', 'b"wall: write: error "', 'b"wall: read: error "'),
    ('wall/channel.rt', 'write_all(&mut stderr, &line[..n]);', 'write_all(&mut io::Stdout, &line[..n]);'),
    # what a `least` line does, and when
    ('lines/lib.rt', 'Line::Least(minutes)', 'Line::Least(minutes + 1)'),
    ('session/lib.rt', 'Ok(session_plan::with_minimum(s, minimum))', 'Ok(s)'),
    ('session_plan/lib.rt', 'const FIRST_MINIMUM: u64 = 1;', 'const FIRST_MINIMUM: u64 = 2;'),
    ('session_plan/lib.rt', 'rows: ROWS,\n        minimum: s.minimum,', 'rows: ROWS,\n        minimum: FIRST_MINIMUM,'),
    (
        'session_plan/lib.rt',
        'complete: m.0 == CALENDAR_END,\n        ..s',
        'complete: m.0 == CALENDAR_END,\n        minimum: FIRST_MINIMUM,\n        ..s',
    ),
    (
        'session_plan/lib.rt',
        'Session { minimum, ..s }',
        'Session { minimum: if s.minimum == FIRST_MINIMUM { minimum } else { s.minimum }, ..s }',
    ),
    (
        'session_plan/lib.rt',
        'Session { minimum, ..s }',
        'Session { minimum: if s.lanes == 0 { minimum } else { s.minimum }, ..s }',
    ),
    (
        'session_plan/lib.rt',
        'if complete {\n        return Err(Refusal::OutOfTurn);\n    }\n    plan::minimum_check(minimum)',
        'plan::minimum_check(minimum)',
    ),
    (
        'session_plan/lib.rt',
        'if complete {\n        return Err(Refusal::OutOfTurn);\n    }\n    plan::minimum_check(minimum)',
        'plan::minimum_check(minimum)?;\n    if complete {\n        return Err(Refusal::OutOfTurn);\n    }\n'
        '    Ok(())',
    ),
    ('plan/lib.rt', 'if minimum < 1 {', 'if false {'),
    ('plan/lib.rt', 'if MOST_MINIMUM < minimum {', 'if MOST_MINIMUM + 1 < minimum {'),
    ('plan/lib.rt', 'if MOST_MINIMUM < minimum {', 'if MOST_MINIMUM <= minimum {'),
    # what a line's word does
    ('session/lib.rt', 'Word::SpotOut => Kind::Delete,', 'Word::SpotOut => Kind::Insert,'),
    ('session/lib.rt', 'Word::DrawOut => Side::Outer,', 'Word::DrawOut => Side::Inner,'),
    # the text
    ('stream/lib.rt', 'let mut end = lines::place_of(part, LINE_END);', 'let mut end = lines::place_of(part, 13);'),
    ('refusal_text/lib.rt', 'if number == 0 {', 'if number != 0 {'),
    ('refusal_text/lib.rt', 'put_refusal(out, at, line, number)', 'put_refusal(out, at, number, line)'),
    ('text_end/lib.rt', 'b"rows,0\\n"', 'b"rows,9\\n"'),
    ('stream/lib.rt', 'put_answer(out, at, lines, refusal', 'put_answer(out, at, s.lines, refusal'),
    ('stream/lib.rt', 'let reading = keep(read, &part[from..]);', 'let reading = keep(read, &part[0..]);'),
    ('stream/lib.rt', 'let reading = keep(read, &part[from..]);', 'let reading = read;'),
    (
        'text_end/lib.rt',
        'put_refusal(rest, 0, line, Refusal::Malformed.into())',
        'put_refusal(rest, 0, line, Refusal::OutOfTurn.into())',
    ),
    ('text_end/lib.rt', 'if kept == 0 {', 'if true {'),
]

# What stands in for Rattle's: the macros that take a handle, before the crates' modules, and the handles and std::io.
# Text goes through Rust's std; wall's handles are the C library's calls, with no buffer and no start of std's.
MACROS = '''
macro_rules! print {
    ($rt:expr; $($text:tt)*) => { crate::io::Print::print_text(&$rt, format_args!($($text)*)) };
}
macro_rules! println {
    ($rt:expr;) => { print!($rt; "\\n") };
    ($rt:expr; $($text:tt)*) => { print!($rt; $($text)*).and_then(|_| print!($rt; "\\n")) };
}
'''

STAND_INS = '''
pub mod io {
    pub use std::io::{Error, ErrorKind, Read, Result, Write};
    mod c {
        extern "C" {
            pub fn read(fd: i32, bytes: *mut u8, n: usize) -> isize;
            pub fn write(fd: i32, bytes: *const u8, n: usize) -> isize;
        }
    }
    fn moved(got: isize) -> Result<usize> {
        if got < 0 { Err(Error::last_os_error()) } else { Ok(got as usize) }
    }
    #[derive(Clone, Copy)]
    pub struct Stdin;
    #[derive(Clone, Copy)]
    pub struct Stdout;
    #[derive(Clone, Copy)]
    pub struct Stderr;
    impl Read for Stdin {
        fn read(&mut self, bytes: &mut [u8]) -> Result<usize> {
            moved(unsafe { c::read(0, bytes.as_mut_ptr(), bytes.len()) })
        }
    }
    impl Write for Stdout {
        fn write(&mut self, bytes: &[u8]) -> Result<usize> {
            moved(unsafe { c::write(1, bytes.as_ptr(), bytes.len()) })
        }
        fn flush(&mut self) -> Result<()> {
            Ok(())
        }
    }
    impl Write for Stderr {
        fn write(&mut self, bytes: &[u8]) -> Result<usize> {
            moved(unsafe { c::write(2, bytes.as_ptr(), bytes.len()) })
        }
        fn flush(&mut self) -> Result<()> {
            Ok(())
        }
    }
    pub struct HostRuntime;
    impl HostRuntime {
        pub fn stdin(&self) -> Stdin {
            Stdin
        }
        pub fn stdout(&self) -> Stdout {
            Stdout
        }
        pub fn stderr(&self) -> Stderr {
            Stderr
        }
    }
    pub trait Print {
        fn print_text(&self, text: std::fmt::Arguments) -> Result<()>;
    }
    impl Print for HostRuntime {
        fn print_text(&self, text: std::fmt::Arguments) -> Result<()> {
            std::io::stdout().write_fmt(text)
        }
    }
    impl<P: Print> Print for &P {
        fn print_text(&self, text: std::fmt::Arguments) -> Result<()> {
            (**self).print_text(text)
        }
    }
    pub trait Ends {
        fn status(self) -> i32;
    }
    impl Ends for () {
        fn status(self) -> i32 {
            0
        }
    }
    impl<E> Ends for std::result::Result<(), E> {
        fn status(self) -> i32 {
            self.is_err() as i32
        }
    }
}
'''

def fail(words):
    print(f'mutants: {words}', file=sys.stderr)
    sys.exit(2)

# The program's crate and all that it uses, of those of this repository, by crates.txt.
def crates(program):
    uses = {}
    for line in (ROOT / 'crates.txt').read_text().splitlines():
        name, _, used = line.partition('#')[0].partition(':')
        uses[name.strip()] = used.split()
    found, left = [], [program]
    while left:
        crate = left.pop()
        if crate in uses and crate not in found:
            found.append(crate)
            left += uses[crate]
    return found

# Where the bracket closes that opens at this place.
def closed(text, at):
    pairs = {'{': '}', '[': ']'}
    opens, closes = text[at], pairs[text[at]]
    depth = 0
    for i in range(at, len(text)):
        depth += (text[i] == opens) - (text[i] == closes)
        if not depth:
            return i
    fail(f'a bracket does not close: {text[at:at + 60]}')

# The text without what begins so, up to the bracket that closes, and without what ends it and the line's end.
def without(text, begin, end=''):
    kept = ''
    while found := re.search(begin, text):
        kept += text[:found.start()]
        text = text[closed(text, found.end() - 1) + 1:].removeprefix(end).removeprefix('\n')
    return kept + text

# A type's derives: all types are Copy, and Rattle's Drop is no derive of Rust.
def derives(found):
    words = [w for w in re.findall(r'\w+', found[1] or '') if w not in ('Drop', 'Clone', 'Copy')]
    return f'#[derive({", ".join(["Clone", "Copy", *words])})]\n{found[2]}'

# One file as Rust, a module of the one crate that all become.
def as_rust(text, crate, names):
    text = re.sub(r'(?m)^\s*ghost use\b[^;]*;\n', '', text)
    text = without(text, r'(?m)^[ \t]*ghost \w+(?::| =) \{', ';')
    text = without(text, r'(?m)^[ \t]*#!?\[(?=tactic\b)')
    text = without(text, r'(?m)^[ \t]+(?:requires|ensures)\*?(?: \w+)? \{')
    text = re.sub(r'(?m)^(?:#\[derive\(([\w, ]*)\)\]\n)?((?:pub(?:\(crate\))? )?(?:struct|enum) )', derives, text)
    text = re.sub(r'\bcrate::', f'crate::{crate}::', text)
    text = re.sub(r'(?<![\w:])(' + '|'.join(names) + r')::', r'crate::\1::', text)
    text = re.sub(r'(?<![\w:])std::io\b', 'crate::io', text)
    text = re.sub(r'(?m)^fn main\(', 'pub fn main(', text)
    return f'use crate::io::{{HostRuntime, Print}};\n{text}'

# All files as Rust, by their paths. There is no start of std's; like Rattle's start, this one ignores SIGPIPE (13).
def sources(program, edit=None):
    names = crates(program)
    files = {}
    for crate in names:
        for path in sorted((ROOT / 'crates' / crate / 'src').glob('*.rt')):
            text = path.read_text()
            at = f'{crate}/{path.name}'
            if edit and edit[0] == at:
                if text.count(edit[1]) != 1:
                    fail(f'{at} has {text.count(edit[1])} times: {edit[1]}')
                text = text.replace(edit[1], edit[2])
            name = 'mod' if path.stem in ('lib', 'main') else path.stem
            files[f'{crate}/{name}.rs'] = as_rust(text, crate, names)
    mods = ''.join(f'pub mod {crate};\n' for crate in names)
    start = (f'extern "C" {{ fn signal(number: i32, handler: usize) -> usize; }}\n'
             f'#[no_mangle]\npub extern "C" fn main() -> i32 {{\n    unsafe {{ signal(13, 1); }}\n'
             f'    io::Ends::status({program}::main(io::HostRuntime))\n}}\n')
    files['main.rs'] = f'#![allow(warnings)]\n#![no_main]\n{MACROS}{mods}{STAND_INS}\n{start}'
    return files

# Builds the program with that edit in a folder of its own; answers its path.
def build(folder, program, edit=None):
    for path, text in sources(program, edit).items():
        (folder / path).parent.mkdir(parents=True, exist_ok=True)
        (folder / path).write_text(text)
    built = subprocess.run(
        ['rustc', '--edition', '2021', '-C', 'debuginfo=0', '-C', 'opt-level=0', '-C', 'overflow-checks=on',
         '-C', 'panic=abort', '-o', 'program', 'main.rs'],
        cwd=folder, stdout=subprocess.PIPE, stderr=subprocess.STDOUT, text=True)
    if built.returncode:
        fail(f'rustc refuses {edit or "the unchanged sources"}:\n{built.stdout}')
    return folder / 'program'

# Whether a test program writes what it should; not where it stops with an error or does not end. What it writes is
# compared as it comes: at the first byte that differs it is stopped.
def writes(program, name='join_cases'):
    wanted = (ROOT / 'crates' / name / 'stdout').read_bytes()
    with subprocess.Popen([program], stdout=subprocess.PIPE, stderr=subprocess.DEVNULL) as ran:
        late = threading.Timer(STOPS_AFTER, ran.kill)
        late.start()
        written = b''
        while wanted.startswith(written) and (more := ran.stdout.read1(4096)):
            written += more
        late.cancel()
        if written != wanted:
            ran.kill()
    return ran.returncode == 0 and written == wanted

def writes_edges(program):
    return writes(program, 'interval_cases')

def writes_answers(program):
    return writes(program, 'question_cases')

# Whether the tests of wall are content. A test that notices nothing runs to its end, so the one that is likelier to
# notice an edit comes first: failures where wall reads and writes, sessions where what it prints is made.
FAILURES_FIRST = (['wall_failures.py'], ['wall_sessions.py', str(SESSIONS)])

def contents(program, tests=FAILURES_FIRST):
    for test in tests:
        try:
            ran = subprocess.run(
                [sys.executable, ROOT / 'tests' / test[0], *test[1:]], env={**os.environ, 'WALL': str(program)},
                stdout=subprocess.DEVNULL, stderr=subprocess.DEVNULL, timeout=STOPS_AFTER)
        except subprocess.TimeoutExpired:
            return False
        if ran.returncode:
            return False
    return True

def prints(program):
    return contents(program, FAILURES_FIRST[::-1])

def main():
    if not shutil.which('rustc'):
        fail('there is no rustc')
    tried = [('join_cases', writes, edit) for edit in CALLS]
    tried += [('interval_cases', writes_edges, edit) for edit in EDGES]
    tried += [('question_cases', writes_answers, edit) for edit in QUESTIONS]
    tried += [('wall', contents if edit[0].startswith('wall/') else prints, edit) for edit in WALL]
    with tempfile.TemporaryDirectory() as room:
        room = Path(room)
        for program, passes in (('join_cases', writes), ('interval_cases', writes_edges),
                                ('question_cases', writes_answers), ('wall', contents)):
            if not passes(build(room / program, program)):
                fail(f'the unchanged sources of {program} do not pass')
        with ThreadPoolExecutor(os.cpu_count()) as pool:
            passed = list(pool.map(lambda k, program, passes, edit: passes(build(room / str(k), program, edit)),
                                   range(len(tried)), *zip(*tried)))
    missed = [edit for (_, _, edit), content in zip(tried, passed) if content]
    for path, old, new in missed:
        print(f'missed: {path}: {old!r} -> {new!r}')
    print(f'mutants: {len(tried) - len(missed)} caught, {len(missed)} missed')
    sys.exit(1 if missed else 0)

if __name__ == '__main__':
    main()
