// What the benchmark's parts share: the data of one shape, and the form of a peer.
#ifndef BENCH_H
#define BENCH_H
#include <stddef.h>
#include <stdint.h>

enum { MOST_LANES = 64, TUPLES = 512, ROWS = 4096 };
enum { TUPLE_ROOM = 1 + 4 * TUPLES, ROW_ROOM = 1 + 5 * ROWS };
#define LAST_MINUTE UINT64_C(99999999)
#define LAST_LABEL UINT64_C(217180147158)
#define LAST_NUMBER UINT64_C(999999)

typedef struct {
    uint64_t label, number, first, last;
} tuple;

typedef struct {
    uint64_t label, drawing, spot, first, last;
} row;

// One shape: the lanes' last minutes, the two lists, and rows that stand there before an insert. Each peer gets a copy.
typedef struct {
    uint64_t lanes, cuts[MOST_LANES];
    const tuple *drawings, *spots;
    size_t drawing_count, spot_count;
    const row *rows;
    size_t row_count;
} shape;

// Rows as a multiset: how many, and the sum of a mix of each, whatever their order.
typedef struct {
    uint64_t rows, sum;
} fingerprint;

enum { DONE = 0, WRONG = 1, TOO_LONG = 2 };

// A way of joining. `open`, `rows` and `close` are not timed. Each of the other four answers DONE, WRONG or TOO_LONG (past
// the limit of limit_ms milliseconds).
typedef struct {
    const char *name;
    int (*open)(const shape *);
    int (*join)(uint64_t *pairs);                    // all rows anew; the pairs looked at, 0 where nobody counts them
    int (*insert)(const tuple *drawing, uint64_t *rows);   // one drawing more, and its rows
    int (*withdraw)(const tuple *drawing, uint64_t *rows); // that drawing and its rows gone
    int (*check)(void);                              // all that is stored is read and found legal
    fingerprint (*rows)(void);
    void (*close)(void);
} peer;

extern double limit_ms; // of a statement or a join

extern const peer library, by_hand, nested_loops, hash_join, sqlite, postgres, postgres_gist;

// What a sweep of the library's stores will take: the rows of each lane, the needs of both sides, the pairs.
typedef struct {
    uint64_t rows[MOST_LANES], outer, inner, pairs;
} requirements;

int ask_library(requirements *r);

// A call of the library that is refused with 5, 6, 14 or 10 straight after a known check, of its stores 1 and 2 and an
// empty store 3 with room for that many rows a lane:
//   5   a sweep, the first word of store 3 being wrong: after check 5 of stores 1 and 2
//   6   an insert of label 0: after check 5 of the three stores
//   14  a sweep, the spots' cache being a word too short by what was asked: after check 14 of both sides
//   10  a sweep, the caches being just long enough: after check 10 of the lanes up to the first with too many rows
// Answers DONE if that is its number.
int refused_library(uint64_t number, uint64_t rows, const requirements *asked);

// Three stores. The C by hand, while it is open, works on those that it was lent last; it answers with those before.
typedef struct {
    uint64_t *outer, *inner, *made;
} stores;

stores stores_of_library(void);
stores lend_by_hand(stores lent);

// A recut to other last minutes, as many as there are lanes; answers with the call's number.
uint64_t recut_library(const uint64_t *next);
uint64_t recut_by_hand(const uint64_t *next);

// A question of a screenful: how many rows have that label and contain that minute.
typedef struct {
    uint64_t label, minute, answer;
} question;

// A way of answering a list of questions about a shape's rows. `open`, `lay` and `close` are not timed, and may be null.
// `ask` answers DONE, WRONG or TOO_LONG; the rows read are 0 where nobody counts them. With no questions it makes its checks
// only.
typedef struct {
    const char *name;
    int served; // whether another process answers, so that only the clock tells its time
    int (*open)(const shape *);
    int (*lay)(const question *list, size_t count); // puts the questions where a statement reads them
    int (*ask)(question *list, size_t count, uint64_t *read);
    void (*close)(void);
} asker;

extern const asker asking_library, asking_by_hand, asking_by_label, asking_sqlite;
extern const asker asking_postgres_label, asking_postgres, asking_postgres_gist;

// A way of listing the gaps of a shape's drawings: the longest stretches of a drawing's span that no row it makes covers.
// `open` and `close` are not timed, and may be null. `list` answers DONE, WRONG or TOO_LONG, and how many records there
// are; a program in C writes them, in the order of the drawings, to a buffer of that many records, and is refused if they
// do not fit. `records` is a database's: what it has listed.
typedef struct {
    const char *name;
    int served; // whether another process lists them, so that only the clock tells its time
    int (*open)(const shape *);
    int (*list)(tuple *out, size_t room, uint64_t *count);
    fingerprint (*records)(void);
    void (*close)(void);
} lister;

enum { REFUSED_SHORT = 19 };

extern const lister listing_library, listing_by_hand, listing_sorted, listing_postgres;

// the spots that the C by hand has looked at since the last time it was asked
uint64_t spots_looked_at(void);

double now_ms(void);
// each word of the library's three stores read once
uint64_t sum_of_stores(void);
void *room(size_t count, size_t size);
void mix(fingerprint *f, row r);
// writes a shape's tuples and rows into three stores laid out as document 01 says
void fill_stores(const shape *s, uint64_t *outer, uint64_t *inner, uint64_t *made);
fingerprint rows_in_store(uint64_t lanes, const uint64_t *made);
int legal_tuple(const tuple *t);
// the lane of a minute, counted from 0, by the lanes' last minutes
size_t lane_of(const uint64_t *cuts, uint64_t minute);

// The overlap of two tuples that agree on the label, if there is one: document 01's rule. The peers know no minimum of
// minutes; the library's is 1, which is the same.
static inline int pair_row(const tuple *d, const tuple *s, row *r)
{
    if (d->label != s->label)
        return 0;
    uint64_t first = d->first > s->first ? d->first : s->first, last = d->last < s->last ? d->last : s->last;
    if (first > last)
        return 0;
    *r = (row){d->label, d->number, s->number, first, last};
    return 1;
}

static inline int same_row(const row *a, const row *b)
{
    return a->label == b->label && a->drawing == b->drawing && a->spot == b->spot && a->first == b->first && a->last == b->last;
}

static inline int same_tuple(const tuple *a, const tuple *b)
{
    return a->label == b->label && a->number == b->number && a->first == b->first && a->last == b->last;
}
#endif
