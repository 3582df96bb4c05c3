# What the program interval_cases must write, worked out from documents 01 and 02 alone: python3 this > stdout.
# Sets of minutes, words of letters in order, and lists of conditions; nothing is taken from the program.
from itertools import product, islice
import string

A = string.ascii_uppercase
# what a label field may hold: document 02, (a)
LETTERS = A + string.ascii_lowercase

def in_order():
    n = 1
    while True:
        for w in product(A, repeat=n):
            yield ''.join(w)
        n += 1

spans = [set(range(f, l + 1)) for f in range(13) for l in range(13)]
pairs = [a & b for a in spans for b in spans]
print(f'overlap,{len(pairs)},0,{sum(1 for p in pairs if p)}')

# the number of a label is its place in the order of all labels
words = list(islice(in_order(), 20000))
assert words[:3] == ['A', 'B', 'C'] and words[26] == 'AA' and words[18278] == 'AAAA'
print(f'labels,{len(words)},0')

upto = [sum(26 ** i for i in range(1, k + 1)) for k in range(9)]
assert upto[8] == 217180147158
print('ends,5,0')

# of labels with one length the number follows the alphabet: their letters are the digits of a number to base 26
def number(word):
    return upto[len(word) - 1] + 1 + int(''.join('0123456789abcdefghijklmnop'[A.index(c)] for c in word), 26)

assert all(number(word) == k for k, word in enumerate(words, 1))
places = ['A' * k + 'B' + 'A' * (7 - k) for k in range(8)] + ['SPACEMUG', 'SPACEMUG'[::-1]]
print(','.join(map(str, ['places', *map(number, places)])))

good = [b for b in range(256) if bytes([b]).decode('latin-1') in LETTERS]
print(f'bytes,256,0,{len(good)},{256 - len(good)}')

twos = [bytes(p) for p in product(range(256), repeat=2)]
good = [t for t in twos if all(c in LETTERS for c in t.decode('latin-1'))]
print(f'twos,{len(twos)},0,{len(good)},{len(twos) - len(good)}')

rows = [letter * n for n in range(11) for letter in 'Zz']
fit = [row for row in rows if 1 <= len(row) <= 8]
print(f'lengths,{len(rows)},0,{len(fit)},{len(rows) - len(fit)}')

big = 2 ** 64 - 1
labels = [0, 1, upto[8], upto[8] + 1, big]
items = [0, 999999, 1000000, big]
minutes = [0, 1, 99999998, 99999999, 100000000, big]
answers = {0: 0, 6: 0, 7: 0, 8: 0, 17: 0}
for l, i, f, t in product(labels, items, minutes, minutes):
    hits = [n for n, legal in ((6, l in range(1, upto[8] + 1)), (7, i in range(0, 10 ** 6)),
                               (8, f <= t), (17, t in range(0, 10 ** 8))) if not legal]
    answers[min(hits, default=0)] += 1
print(','.join(map(str, ['tuples', sum(answers.values()), 0, *answers.values()])))

# request (f) of document 02: a span lasts last minus first plus one minutes, a reversed one as long as one minute
def minimums(f, t):
    length = max(t - f, 0) + 1
    return [0, 1, 2, 1439, 1440, 1441, 2 ** 63 - 1, 2 ** 63, big - 1, big, *(
        min(n, big) for n in (length - 1, length, length + 1))]

def told(name, cases, holds):
    affirmed = [0] * 13
    for case in cases:
        for k, minimum in enumerate(minimums(*case[-2:])):
            affirmed[k] += max(case[-1] - case[-2], 0) + 1 >= minimum and holds(*case)
    print(','.join(map(str, [name, 13 * len(cases), 0, *affirmed])))

minutes = [0, 1, 2, 1438, 1439, 1440, 10 ** 8 - 2, 10 ** 8 - 1, 10 ** 8, 2 ** 63 - 1, 2 ** 63, big - 1, big]
told('minutes', list(product(minutes, minutes)), lambda f, t: True)

labels = [0, 1, upto[8], upto[8] + 1]
items = [0, 999999, 1000000]
told('rows', list(product(labels, items, items, minutes, minutes)), lambda label, drawing, spot, f, t: (
    label in range(1, upto[8] + 1) and {drawing, spot} <= {0, 999999} and f <= t and t in range(10 ** 8)))
