# What the program question_cases must write, worked out from documents 01 and 02 alone: python3 this > stdout.
# The first part draws the cases and takes digests, by the same formulas as the program. The second is document 01's
# plan and rows store, with the checks of requests (c) and (f) of document 02, and request (g): the store taken apart
# into lanes, every question held against every row. Nothing is taken from the crates.
# At the end it asserts that the cases meet every number and the turns that matter, each often enough (--turns prints
# how often).
from collections import Counter
import sys

SEEDS = range(1, 701)
ROW_WORDS = 168                         # the words that a rows store is lent from
QUESTIONS, WORDS = 8, 26                # the questions that a list is lent from, and the words
END = 99_999_999                        # the last minute
LABELS = 217_180_147_158                # the last label number
HUGE = 2 ** 64 - 1

# ---- the draws, and the digest

def fill(state, n):
    words = []
    for _ in range(n):
        state = (state * 1103515245 + 12345) % 2 ** 31
        words.append(state // 65536)
    return words, state

def digest(h, words):
    for w in words:
        h = (h * 31 + w) % 1_000_003
    return h

class Plan:
    def __init__(self, count, lasts, tuples, rows, minimum):
        self.count, self.lasts, self.tuples, self.rows, self.minimum = count, list(lasts), tuples, rows, minimum

    def but(self, **kw):
        return Plan(**{**vars(self), **kw})

    def but_cut(self, i, minute):
        return self.but(lasts=self.lasts[:i] + [minute] + self.lasts[i + 1:])

def drawn_plan(d):
    count, lasts = 1 + d[0] % 4, [d[1] % 16]
    lasts.append(lasts[0] + 1 + d[17] % 16)
    lasts.append(lasts[1] % 32 + 1 + d[18] % 16)
    lasts = lasts[:count - 1] + [END] * (65 - count)
    return Plan(count, lasts, 1 + d[2] % 512, 1 + d[3] % 8, 1 + d[4] % 8 // 5)

def bent_plan(p, kind, w):
    end, i = (p.count - 1) % 64, w % 4
    return [
        lambda: p.but(count=0),
        lambda: p.but(count=65),
        lambda: p.but(count=65),
        lambda: p.but(count=p.count + 1),
        lambda: p.but(tuples=0),
        lambda: p.but(tuples=513),
        lambda: p.but(tuples=0),
        lambda: p.but(tuples=513),
        lambda: p.but(rows=0),
        lambda: p.but(rows=4097),
        lambda: p.but(rows=p.rows + 1),
        lambda: p.but(rows=p.rows + 1),
        lambda: p.but(minimum=0),
        lambda: p.but(minimum=1441),
        lambda: p.but(minimum=1440),
        lambda: p.but(minimum=p.minimum + 1),
        lambda: p.but_cut(end, END - 1),
        lambda: p.but_cut(end, END + 1),
        lambda: p.but_cut(i, p.lasts[i + 1]),
        lambda: p.but_cut(i, p.lasts[i] + 1),
    ][kind]() if kind < 20 else p

def drawn_minute(p, k, w):
    last = p.lasts[w % 4]
    return [0, END, last, last, (last + 1) % (END + 1)][k] if k < 5 else w % 30

def drawn_row(p, d):
    a, b = drawn_minute(p, d[1] % 16, d[2]), drawn_minute(p, d[3] % 16, d[4])
    return [1, 1, 1, 2, 2, LABELS][d[0] % 6], d[5] % 4, d[6] % 4, min(a, b), max(a, b)

# the rows of each lane, and the state after them; one row in four is drawn twice; one that is too short, or whose lane
# is full, is left out
def drawn_lanes(p, state, n):
    lanes = [[] for _ in range(p.count)]
    for k in range(n):
        d, after = fill(state, 8)
        row = drawn_row(p, d)
        lane = lanes[lane_of(p, row[4])]
        if len(lane) < p.rows and row[4] - row[3] + 1 >= p.minimum:
            lane.append(row)
        state = state if k % 4 == 3 else after
    return lanes, state

def as_words(p, lanes):
    words = []
    for lane in lanes:
        held = [w for row in lane for w in row]
        words += [len(lane), *held, *[0] * (5 * p.rows - len(held))]
    return words + [0] * (ROW_WORDS - len(words))

def meddled(p, d, words):
    if d[8] % 6:
        return words
    at = d[7] % ROW_WORDS if d[6] % 4 else d[5] % 4 * (1 + 5 * p.rows)
    w = words[at]
    new = [w + 1, w + 1, (w - 1) % 10 ** 12, (w - 1) % 10 ** 12, 0, END + 1, HUGE][d[9] % 7]
    return words[:at] + [new] + words[at + 1:]

# the earliest minute of a list's questions
def drawn_earliest(p, k, w):
    last = p.lasts[w % 4]
    return {0: last, 1: last + 1, 2: last + 1, 3: END, 4: END, 5: END + 1}.get(k, 0)

def drawn_question(p, words, d, earliest):
    lane = d[0] % 4 if d[0] % 4 < p.count else 0
    at = lane * (1 + 5 * p.rows) % 124 + d[1] % 3 * 5 + 1
    row = words[at:at + 5]
    label = [1, 1, 1, 2, 2, 3, 0, LABELS, LABELS + 1, HUGE][d[2] % 16] if d[2] % 16 < 10 else row[0]
    first, last, cut = row[3], row[4], p.lasts[d[4] % 4]
    minutes = [(first - 1) % 10 ** 9, first, first + 1, (last - 1) % 10 ** 9, last, last + 1]
    minutes += [cut, cut + 1, 0, END, END + 1, HUGE]
    minute = minutes[d[3] % 16] if d[3] % 16 < 12 else d[4] % 46
    return label, max(minute, earliest), d[5] if d[5] % 4 else HUGE

def bent_length(n, k):
    return [(n - 1) % 1000, n + 1, n + 2][k] if k < 3 else n

# ---- documents 01 and 02

def plan_number(p):
    if not 1 <= p.count <= 64:
        return 1
    used = p.lasts[:p.count]
    if any(b <= a for a, b in zip(used, used[1:])) or used[-1] != END:
        return 2
    if not 1 <= p.tuples <= 512 or not 1 <= p.rows <= 4096:
        return 3
    if not 1 <= p.minimum <= 1440:
        return 18
    return 0

# the lane, from 0, that contains a minute
def lane_of(p, minute):
    starts = [0] + [last + 1 for last in p.lasts[:p.count - 1]]
    found = [i for i, (start, last) in enumerate(zip(starts, p.lasts)) if start <= minute <= last]
    assert len(found) == 1
    return found[0]

def row_legal(minimum, row):
    label, drawing, spot, first, last = row
    numbers = drawing <= 999_999 and spot <= 999_999
    return 1 <= label <= LABELS and numbers and first <= last <= END and last - first + 1 >= minimum

# the rows of each lane, or nothing if the store is not sound
def taken_apart(p, words):
    room, lanes = 1 + 5 * p.rows, []
    for i in range(p.count):
        count, *rest = words[i * room:(i + 1) * room]
        if count > p.rows:
            return None
        rows = [tuple(rest[at:at + 5]) for at in range(0, 5 * count, 5)]
        if any(rest[5 * count:]) or not all(row_legal(p.minimum, r) and lane_of(p, r[4]) == i for r in rows):
            return None
        lanes.append(rows)
    return lanes

# The call of request (g): its answer, and the answers to the questions, which are (label, minute, old answer). For the
# form in words `whole` says whether they are whole questions.
def asked(p, words, questions, whole=True):
    old = [q[2] for q in questions]
    if plan_number(p):
        return (plan_number(p), 0, 0), old
    if len(words) != p.count * (1 + 5 * p.rows) or not whole:
        return (4, 0, 0), old
    lanes = taken_apart(p, words)
    if lanes is None:
        return (5, 0, 0), old
    answers = []
    for label, minute, _ in questions:
        legal = 1 <= label <= LABELS and minute <= END
        rows = [r for lane in lanes for r in lane if r[0] == label and minute in range(r[3], r[4] + 1)]
        answers.append(len(rows) if legal else 0)
    minutes = [minute for _, minute, _ in questions if minute <= END]
    read = sum(map(len, lanes[lane_of(p, min(minutes)):])) if minutes else 0
    return (0, 0, read), answers

# ---- the lists

TURNS = Counter()

# the turns of an accepted list
def note_turns(p, words, questions, answer, answers):
    lanes = taken_apart(p, words)
    minutes = [m for _, m, _ in questions if m <= END]
    every = sum(map(len, lanes))
    TURNS['no question'] += not questions
    TURNS['all eight questions'] += len(questions) == QUESTIONS
    TURNS['no legal minute, rows stored'] += bool(questions) and not minutes and every > 0
    TURNS['an answer above 1'] += sum(a > 1 for a in answers)
    TURNS['an answer above 3'] += sum(a > 3 for a in answers)
    TURNS['the last question above 0'] += bool(answers) and answers[-1] > 0
    for i, lane in enumerate(lanes):
        TURNS['an empty lane between lanes with rows'] += not lane and any(lanes[:i]) and any(lanes[i + 1:])
    if minutes:
        start, first, largest = (lane_of(p, m) for m in (min(minutes), minutes[0], max(minutes)))
        TURNS['read from lane 1, of several'] += start == 0 and p.count > 1
        TURNS['not all rows read'] += answer[2] < every
        TURNS['none read of some'] += answer[2] == 0 < every
        TURNS['the first minute in a higher lane'] += any(lanes[start:first])
        TURNS['the largest minute in a higher lane'] += any(lanes[start:largest])
        legal = [m for label, m, _ in questions if m <= END and 1 <= label <= LABELS]
        TURNS['started by an illegal label'] += not legal or any(lanes[start:lane_of(p, min(legal))])
    for (label, minute, old), a in zip(questions, answers):
        rows = [r for lane in lanes for r in lane if r[0] == label]
        here = [r for lane in lanes for r in lane if r[3] <= minute <= r[4]]
        met = [r for r in here if r[0] == label]
        TURNS['illegal label'] += not 1 <= label <= LABELS
        TURNS['illegal minute'] += minute > END
        TURNS['at a first minute'] += any(r[3] == minute for r in rows)
        TURNS['at a last minute'] += any(r[4] == minute for r in rows)
        TURNS['just before a first'] += any(r[3] == minute + 1 for r in rows)
        TURNS['just after a last'] += any(r[4] + 1 == minute for r in rows)
        TURNS['in the spans of another label alone'] += a == 0 < len(here)
        TURNS['equal rows'] += len(set(met)) < a
        TURNS['rows of several lanes'] += len({lane_of(p, r[4]) for r in met}) > 1
        TURNS['the largest old answer'] += old == HUGE

def one_list(seed, times):
    d, state = fill(seed, 20)
    p = drawn_plan(d)
    lanes, state = drawn_lanes(p, state, 3 + d[13] % 22)
    words = as_words(p, lanes)
    earliest = drawn_earliest(p, d[16] % 16, d[12])
    questions = []
    for _ in range(QUESTIONS):
        numbers, state = fill(state, 8)
        questions.append(drawn_question(p, words, numbers, earliest))
    n = d[14] % 9
    length = bent_length(p.count * (1 + 5 * p.rows), d[15] % 40)
    words = meddled(p, d, words)[:length]
    q = bent_plan(bent_plan(p, d[10] % 100, d[12]), d[11] % 100, d[12])
    # as a slice of questions
    answer, answers = asked(q, words, questions[:n])
    answers += [old for _, _, old in questions[n:]]
    h = digest(seed, answer)
    h = digest(h, [w for (label, minute, _), a in zip(questions, answers) for w in (label, minute, a)])
    h = digest(h, [0] * (WORDS - 3 * QUESTIONS))
    # as words
    length = min(bent_length(3 * n, d[19] % 12), WORDS)
    whole = length % 3 == 0
    other, more = asked(q, words, questions[:length // 3], whole)
    left = [w for question in questions for w in question] + [0] * (WORDS - 3 * QUESTIONS)
    for i, a in enumerate(more):
        left[3 * i + 2] = a
    h = digest(digest(h, other), left)
    times[0, answer[0]] += 1
    times[1, other[0]] += 1
    if answer[0] == 0:
        note_turns(q, words, questions[:n], answer, answers[:n])
    TURNS['4 of the words alone'] += (answer[0], other[0]) == (0, 4)
    TURNS['4 of the words, of a store that is not sound'] += (answer[0], other[0]) == (5, 4)
    TURNS['18 before 4 and 5'] += answer[0] == 18 and (not whole or len(words) != q.count * (1 + 5 * q.rows))
    TURNS['refused, with an old answer'] += answer[0] != 0 and n > 0
    return h, answer, other

def main():
    times = Counter()
    for seed in SEEDS:
        h, answer, other = one_list(seed, times)
        print(seed, h, answer[0], answer[2], other[0], other[2], sep=',')
    if sys.argv[1:] == ['--turns']:
        for number in (0, 1, 2, 3, 4, 5, 18):
            print(f'{times[0, number]:6} {times[1, number]:6} number {number}, of either form', file=sys.stderr)
        for turn, n in TURNS.items():
            print(f'{n:6} {turn}', file=sys.stderr)
    for number in (0, 1, 2, 3, 4, 5, 18):
        assert min(times[0, number], times[1, number]) >= 3, f'{number} is rare'
    for turn, n in TURNS.items():
        assert n >= 2, f'rare: {turn}'

main()
