// Times the whole join, an insert, a withdrawal and check 5 of the static library beside its peers, on the same data in one
// run, what a sweep will take beside the sweep's own checks, a recut beside the same by hand in C, a screenful of
// questions beside others' ways of answering and the gaps of all drawings beside others' ways of listing them, and prints
// tables.
// Shapes after figures 11 to 13 of document 002. Exits 1 if any peer's rows are not the library's.
#include "bench.h"
#include <inttypes.h>
#include <stdio.h>
#include <stdlib.h>
#include <string.h>
#include <time.h>

double limit_ms = 10000;

double now_ms(void)
{
    struct timespec t;
    clock_gettime(CLOCK_MONOTONIC, &t);
    return (double)t.tv_sec * 1e3 + (double)t.tv_nsec / 1e6;
}

void *room(size_t count, size_t size)
{
    void *p = calloc(count ? count : 1, size);
    if (!p)
        exit(2);
    return p;
}

void mix(fingerprint *f, row r)
{
    const uint64_t w[5] = {r.label, r.drawing, r.spot, r.first, r.last};
    uint64_t h = 1469598103934665603u;
    for (int i = 0; i < 5; i++)
        h = (h ^ w[i]) * 1099511628211u, h ^= h >> 29;
    f->rows++, f->sum += h;
}

int legal_tuple(const tuple *t)
{
    return 1 <= t->label && t->label <= LAST_LABEL && t->number <= LAST_NUMBER && t->first <= t->last && t->last <= LAST_MINUTE;
}

size_t lane_of(const uint64_t *cuts, uint64_t minute)
{
    size_t i = 0;
    while (minute > cuts[i])
        i++;
    return i;
}

// the record goes to the end of its last minute's lane
static void append(const shape *s, uint64_t *store, size_t lane_room, size_t width, uint64_t capacity, const uint64_t *record)
{
    uint64_t *lane = store + lane_of(s->cuts, record[width - 1]) * lane_room;
    if (lane[0] == capacity) {
        fprintf(stderr, "a lane is full\n");
        exit(1);
    }
    memcpy(lane + 1 + width * lane[0]++, record, width * sizeof *record);
}

void fill_stores(const shape *s, uint64_t *outer, uint64_t *inner, uint64_t *made)
{
    for (size_t a = 0; a < s->drawing_count; a++)
        append(s, outer, TUPLE_ROOM, 4, TUPLES, (const uint64_t *)(s->drawings + a));
    for (size_t b = 0; b < s->spot_count; b++)
        append(s, inner, TUPLE_ROOM, 4, TUPLES, (const uint64_t *)(s->spots + b));
    for (size_t k = 0; k < s->row_count; k++)
        append(s, made, ROW_ROOM, 5, ROWS, (const uint64_t *)(s->rows + k));
}

fingerprint rows_in_store(uint64_t lanes, const uint64_t *made)
{
    fingerprint f = {0, 0};
    for (uint64_t i = 0; i < lanes; i++)
        for (uint64_t k = 0; k < made[i * ROW_ROOM]; k++) {
            const uint64_t *w = made + i * ROW_ROOM + 1 + 5 * k;
            mix(&f, (row){w[0], w[1], w[2], w[3], w[4]});
        }
    return f;
}

// ---- data

static uint64_t seed;

static uint64_t from_to(uint64_t low, uint64_t high)
{
    seed = seed * 6364136223846793005u + 1442695040888963407u;
    return low + (seed >> 20) % (high - low + 1);
}

typedef struct {
    uint64_t lanes, side;  // tuples a side
    uint64_t labels;       // how many labels there are
    int colliding;         // whether all labels' numbers end in the same 20 bits
    uint64_t minutes;      // how many minutes the spans of one minute stand on
    uint64_t long_percent; // the share of tuples that run for half of the calendar
} kind;

static tuple random_tuple(const kind *k)
{
    tuple t;
    uint64_t label = from_to(1, k->labels);
    t.label = k->colliding ? 1 + (label << 20) : label;
    t.number = from_to(0, LAST_NUMBER);
    if (from_to(1, 100) <= k->long_percent) { // as 002 makes them
        t.first = from_to(0, LAST_MINUTE / 2);
        t.last = t.first + LAST_MINUTE / 2;
    } else
        t.first = t.last = from_to(0, k->minutes - 1) * (LAST_MINUTE / k->minutes) + LAST_MINUTE / (2 * k->minutes);
    return t;
}

static void even_cuts(shape *s)
{
    for (uint64_t i = 0; i < s->lanes; i++)
        s->cuts[i] = (i + 1) * ((LAST_MINUTE + 1) / s->lanes) - 1;
    s->cuts[s->lanes - 1] = LAST_MINUTE;
}

static shape make(const kind *k)
{
    shape s = {.lanes = k->lanes, .drawing_count = k->side, .spot_count = k->side};
    tuple *d = room(k->side, sizeof *d), *p = room(k->side, sizeof *p);
    seed = 1;
    for (size_t i = 0; i < k->side; i++)
        d[i] = random_tuple(k), p[i] = random_tuple(k);
    s.drawings = d, s.spots = p;
    even_cuts(&s);
    return s;
}

// ---- times

enum { MOST_RUNS = 15 };
#define ENOUGH_MS 1200.0

typedef struct {
    double at[MOST_RUNS];
    int runs;
} times;

// the shortest: on a machine that does other things now and then, the time of the work itself
static double best(const times *t)
{
    double least = t->at[0];
    for (int i = 1; i < t->runs; i++)
        if (t->at[i] < least)
            least = t->at[i];
    return least;
}

static const peer *const peers[] = {&library,
                                    &by_hand,
                                    &nested_loops,
                                    &hash_join,
#ifdef WITH_SQLITE
                                    &sqlite,
#endif
#ifdef WITH_POSTGRES
                                    &postgres,
                                    &postgres_gist,
#endif
};
enum { PEERS = sizeof peers / sizeof *peers, IN_C = 4 }; // the first four are programs in C, which count their pairs

static void wrong(const char *what, const char *who)
{
    printf("\n%s: %s\n", who, what);
    exit(1);
}

// a time in milliseconds, or that the limit was passed
static void cell(double ms)
{
    if (ms < 0)
        printf(" over %.0f |", limit_ms);
    else
        printf(ms < 10 ? " %.3f |" : " %.1f |", ms);
}

static void ratio(double ours, double theirs)
{
    if (theirs < 0)
        printf(" under %.4f |", ours / limit_ms);
    else
        printf(ours / theirs < 0.1 ? " %.4f |" : " %.2f |", ours / theirs);
}

static void ratio_head(const char *what, const char *x)
{
    printf("\n| %s: library's time as a part of the peer's | %s", what, x);
    for (int p = 1; p < PEERS; p++)
        printf(" | of %s", peers[p]->name);
    printf(" |\n|---|---|");
    for (int p = 1; p < PEERS; p++)
        printf("---|");
    printf("\n");
}

typedef struct {
    const char *x; // what the row's first cell says
    kind k;
} point;

// one table of joins, and one of ratios
static void joins(const char *title, const char *x, const point *points, size_t count)
{
    double ms[32][PEERS];
    printf("\n### %s\n\n| %s", title, x);
    for (int p = 0; p < IN_C; p++)
        if (peers[p] != &by_hand)
            printf(" | pairs, %s", peers[p]->name);
    for (int p = 0; p < PEERS; p++)
        printf(" | ms, %s", peers[p]->name);
    printf(" | rows |\n|---|---|---|---|");
    for (int p = 0; p <= PEERS; p++)
        printf("---|");
    printf("\n");
    for (size_t c = 0; c < count; c++) {
        shape s = make(&points[c].k);
        fingerprint first = {0, 0};
        uint64_t pairs[PEERS] = {0};
        // the programs in C have three turns each, so that none of them has the machine's better moments alone
        for (int turn = 0; turn < 3; turn++)
            for (int p = 0; p < (turn ? IN_C : PEERS); p++) {
                const peer *who = peers[p];
                times t = {.runs = 0};
                if (who->open(&s))
                    wrong("not opened", who->name);
                int answer = DONE;
                double spent = 0;
                for (int run = -1; run < MOST_RUNS && spent < ENOUGH_MS && !answer; run++) {
                    double began = now_ms();
                    answer = who->join(pairs + p);
                    double took = now_ms() - began;
                    if (run >= 0 || took > ENOUGH_MS) // the first one warms up
                        t.at[t.runs++] = took, spent += took;
                }
                if (answer == WRONG)
                    wrong("the join was refused", who->name);
                double time = answer == TOO_LONG ? -1 : best(&t);
                if (!turn || time < ms[c][p])
                    ms[c][p] = time;
                if (answer == DONE) {
                    fingerprint f = who->rows();
                    if (!p && !turn)
                        first = f;
                    else if (f.rows != first.rows || f.sum != first.sum)
                        wrong("its rows are not the library's", who->name);
                }
                who->close();
            }
        if (pairs[0] != pairs[1])
            wrong("it compared another number of pairs than the library", by_hand.name);
        printf("| %s |", points[c].x);
        for (int p = 0; p < IN_C; p++)
            if (peers[p] != &by_hand)
                printf(" %" PRIu64 " |", pairs[p]);
        for (int p = 0; p < PEERS; p++)
            cell(ms[c][p]);
        printf(" %" PRIu64 " |\n", first.rows);
        fflush(stdout);
        free((void *)s.drawings), free((void *)s.spots);
    }
    ratio_head("whole join", x);
    for (size_t c = 0; c < count; c++) {
        printf("| | %s |", points[c].x);
        for (int p = 1; p < PEERS; p++)
            ratio(ms[c][0], ms[c][p]);
        printf("\n");
    }
    fflush(stdout);
}

// only the library's: lanes and long-lived tuples together, as figure 13
static void both(const char *title)
{
    static const uint64_t lanes[] = {12, 16, 32, 64}, percent[] = {0, 6, 12, 24, 36, 49};
    printf("\n### %s\n\n| lanes", title);
    for (size_t b = 0; b < sizeof percent / sizeof *percent; b++)
        printf(" | pairs, %" PRIu64 " %%", percent[b]);
    for (size_t b = 0; b < sizeof percent / sizeof *percent; b++)
        printf(" | ms, %" PRIu64 " %%", percent[b]);
    printf(" |\n|---|");
    for (size_t b = 0; b < 2 * sizeof percent / sizeof *percent; b++)
        printf("---|");
    printf("\n");
    for (size_t a = 0; a < sizeof lanes / sizeof *lanes; a++) {
        uint64_t pairs[8];
        double ms[8];
        for (size_t b = 0; b < sizeof percent / sizeof *percent; b++) {
            kind k = {lanes[a], 3072, 4096, 0, 512, percent[b]};
            shape s = make(&k);
            times t = {.runs = 0};
            library.open(&s);
            for (int run = -1; run < MOST_RUNS; run++) {
                double began = now_ms();
                if (library.join(pairs + b))
                    wrong("the join was refused", library.name);
                double took = now_ms() - began;
                if (run >= 0)
                    t.at[t.runs++] = took;
            }
            ms[b] = best(&t);
            library.close();
            free((void *)s.drawings), free((void *)s.spots);
        }
        printf("| %" PRIu64 " |", lanes[a]);
        for (size_t b = 0; b < sizeof percent / sizeof *percent; b++)
            printf(" %" PRIu64 " |", pairs[b]);
        for (size_t b = 0; b < sizeof percent / sizeof *percent; b++)
            cell(ms[b]);
        printf("\n");
    }
    fflush(stdout);
}

static void changes(void)
{
    static const struct {
        const char *name;
        uint64_t tuples, rows; // in each lane
        int whole;             // whether the drawing's span begins with the calendar
    } shapes[] = {{"half full, one minute", 256, 2048, 0},
                  {"half full, 0 to the last minute of lane 41", 256, 2048, 1},
                  {"nearly full, one minute", 511, 4050, 0},
                  {"nearly full, 0 to the last minute of lane 41", 511, 4050, 1}};
    enum { SHAPES = sizeof shapes / sizeof *shapes, CALLS = 3 };
    static const char *const calls[CALLS] = {"insert", "withdraw", "check 5"};
    double ms[SHAPES][CALLS][PEERS], reading[SHAPES];
    printf("\n### Insert, withdraw and check 5 at the largest plan: 64 lanes, 512 tuples and 4,096 rows a lane\n\n");
    printf("| call | stores and span");
    for (int p = 0; p < PEERS; p++)
        printf(" | ms, %s", peers[p]->name);
    printf(" | ms, reading the three stores once in C | library / reading | rows |\n|---|---|---|---|---|");
    for (int p = 0; p < PEERS; p++)
        printf("---|");
    printf("\n");
    for (size_t c = 0; c < SHAPES; c++) {
        shape s = {.lanes = MOST_LANES};
        even_cuts(&s);
        s.drawing_count = s.spot_count = MOST_LANES * shapes[c].tuples, s.row_count = MOST_LANES * shapes[c].rows;
        tuple *d = room(s.drawing_count, sizeof *d), *q = room(s.spot_count, sizeof *q);
        row *r = room(s.row_count, sizeof *r);
        seed = 1;
        size_t n = 0, m = 0;
        for (size_t lane = 0; lane < MOST_LANES; lane++) {
            // 64 labels, and spans of one minute, on one of eight minutes of the lane
            for (uint64_t k = 0; k < shapes[c].tuples; k++, n++) {
                uint64_t last = s.cuts[lane] - 1000 * from_to(0, 7);
                d[n] = (tuple){from_to(1, 64), from_to(100, LAST_NUMBER), last, last};
                last = s.cuts[lane] - 1000 * from_to(0, 7);
                q[n] = (tuple){from_to(1, 64), from_to(100, LAST_NUMBER), last, last};
            }
            // rows of labels that no tuple has, so that the lanes are as full as the shape says
            for (uint64_t k = 0; k < shapes[c].rows; k++, m++)
                r[m] = (row){65 + m, from_to(100, LAST_NUMBER), from_to(100, LAST_NUMBER), s.cuts[lane], s.cuts[lane]};
        }
        s.drawings = d, s.spots = q, s.rows = r;
        tuple one = {32, 77, shapes[c].whole ? 0 : s.cuts[40], s.cuts[40]};
        uint64_t expected = 0;
        for (size_t b = 0; b < s.spot_count; b++) {
            row unused;
            expected += (uint64_t)pair_row(&one, q + b, &unused);
        }
        reading[c] = -1;
        // the programs in C have three turns each; the library's calls and the reading of its stores take turns
        for (int turn = 0; turn < 3; turn++)
            for (int p = 0; p < (turn ? IN_C : PEERS); p++) {
                const peer *who = peers[p];
                times t[CALLS + 1] = {{.runs = 0}};
                if (who->open(&s))
                    wrong("not opened", who->name);
                fingerprint before = who->rows();
                for (int run = -1; run < MOST_RUNS; run++) {
                    uint64_t added = 0, removed = 0;
                    double at[CALLS + 2];
                    at[0] = now_ms();
                    int x = who->insert(&one, &added);
                    at[1] = now_ms();
                    int y = who->withdraw(&one, &removed);
                    at[2] = now_ms();
                    int z = who->check();
                    at[3] = now_ms();
                    volatile uint64_t sum = p ? 0 : sum_of_stores();
                    at[4] = now_ms();
                    (void)sum;
                    if (x || y || z || added != expected || removed != expected)
                        wrong("an insert, a withdrawal or a check did not go as expected", who->name);
                    for (int call = 0; run >= 0 && call <= CALLS; call++)
                        t[call].at[t[call].runs++] = at[call + 1] - at[call];
                }
                fingerprint after = who->rows();
                if (before.rows != s.row_count || after.rows != before.rows || after.sum != before.sum)
                    wrong("its rows are not those from before", who->name);
                for (int call = 0; call < CALLS; call++)
                    if (!turn || best(t + call) < ms[c][call][p])
                        ms[c][call][p] = best(t + call);
                if (!p && (reading[c] < 0 || best(t + CALLS) < reading[c]))
                    reading[c] = best(t + CALLS);
                who->close();
            }
        for (int call = 0; call < CALLS; call++) {
            printf("| %s | %s |", calls[call], shapes[c].name);
            for (int p = 0; p < PEERS; p++)
                cell(ms[c][call][p]);
            cell(reading[c]);
            printf(" %.2f | %" PRIu64 " |\n", ms[c][call][0] / reading[c], call == 2 ? 0 : expected);
        }
        fflush(stdout);
        free(d), free(q), free(r);
    }
    ratio_head("one call", "stores and span");
    for (size_t c = 0; c < SHAPES; c++)
        for (int call = 0; call < CALLS; call++) {
            printf("| %s | %s |", calls[call], shapes[c].name);
            for (int p = 1; p < PEERS; p++)
                ratio(ms[c][call][0], ms[c][call][p]);
            printf("\n");
        }
    fflush(stdout);
}

// The time that the processor spent on this program: other work on the machine lengthens it less than the clock's.
static double processor_ms(void)
{
    struct timespec t;
    clock_gettime(CLOCK_PROCESS_CPUTIME_ID, &t);
    return (double)t.tv_sec * 1e3 + (double)t.tv_nsec / 1e6;
}

typedef struct {
    const char *name;
    uint64_t tuples;               // of each side in each lane
    uint64_t labels, long_percent; // of the tuples in all lanes but the last: how many labels, the share of long-lived
} wall;

// A tuple ends on one of eight minutes of its lane, and if it is long-lived began half of the calendar before. The last
// lane has few labels, of its own, and short spans, so that it makes the most rows.
static tuple tuple_in(const wall *w, const shape *s, size_t lane)
{
    int last_lane = lane + 1 == s->lanes;
    tuple t;
    t.label = last_lane ? LAST_LABEL - from_to(0, 15) : from_to(1, w->labels);
    t.number = from_to(0, LAST_NUMBER);
    t.first = t.last = s->cuts[lane] - 1000 * from_to(0, 7);
    if (!last_lane && from_to(1, 100) <= w->long_percent)
        t.first -= t.last < LAST_MINUTE / 2 ? t.last : LAST_MINUTE / 2;
    return t;
}

static shape make_wall(const wall *w)
{
    shape s = {.lanes = MOST_LANES, .drawing_count = MOST_LANES * w->tuples, .spot_count = MOST_LANES * w->tuples};
    tuple *d = room(s.drawing_count, sizeof *d), *p = room(s.spot_count, sizeof *p);
    even_cuts(&s);
    seed = 1;
    for (size_t i = 0; i < s.drawing_count; i++)
        d[i] = tuple_in(w, &s, i / w->tuples), p[i] = tuple_in(w, &s, i / w->tuples);
    p[s.spot_count - 1].first = s.cuts[s.lanes - 2]; // one has to be carried, so that a cache can be too short
    s.drawings = d, s.spots = p;
    return s;
}

// What a sweep will take, beside what a sweep itself spends on the same: check 5 of stores 1 and 2, and checks 14 and
// 10, which count the same tuples and pairs. No call makes one of these alone, so calls are timed that are refused
// straight after one (bench.h). Check 5 of stores 1 and 2 is the time of that refused with 5; check 14 is that of the
// one refused with 14 less that of 6; check 10 is that of 10 less that of 14: it has counted the rows of all lanes,
// since only the last gets more than it has room for. The calls take turns, and the one for requirements follows the
// sweep, which has written store 3: if that makes a difference, it is to its disadvantage.
static void asking(void)
{
    static const wall walls[] = {{"16,384 a side, spans of one minute", 256, 64, 0},
                                 {"32,768 a side, spans of one minute", 512, 64, 0},
                                 {"32,768 a side, 6 per cent long-lived", 512, 4096, 6},
                                 {"32,768 a side, 49 per cent long-lived", 512, 16384, 49}};
    enum { SWEEP, ASK, AFTER_5, AFTER_6, AFTER_14, AFTER_10, CALLS, ROUNDS = 45 };
    static const uint64_t numbers[CALLS] = {0, 0, 5, 6, 14, 10};
    printf("\n### What a sweep will take, beside a sweep's own checks: 64 lanes, the library alone\n\n");
    printf("| stores and spans | pairs | rows | ms, requirements | ms, sweep | ms, check 5 of stores 1 and 2 |");
    printf(" ms, check 14 | ms, check 10 | requirements / the three checks |\n|---|---|---|---|---|---|---|---|---|\n");
    for (size_t c = 0; c < sizeof walls / sizeof *walls; c++) {
        shape s = make_wall(walls + c);
        requirements asked;
        uint64_t pairs = 0, sum = 0, most = 0;
        double ms[CALLS];
        if (library.open(&s) || ask_library(&asked))
            wrong("not opened", library.name);
        for (size_t i = 0; i < s.lanes; i++)
            sum += asked.rows[i], most = i + 1 < s.lanes && asked.rows[i] > most ? asked.rows[i] : most;
        uint64_t few = asked.rows[s.lanes - 1] - 1; // rows a lane: enough for all but the last
        if (most > few)
            wrong("another lane than the last gets the most rows", library.name);
        double spent = 0;
        for (int run = -1; run < ROUNDS && spent < 30000; run++)
            for (int call = 0; call < CALLS; call++) {
                double began = processor_ms();
                int answer = call == SWEEP ? library.join(&pairs)
                             : call == ASK ? ask_library(&asked)
                                           : refused_library(numbers[call], few, &asked);
                double took = processor_ms() - began;
                if (answer)
                    wrong("a call did not go as expected", library.name);
                if (run <= 0 || took < ms[call]) // the first one warms up
                    ms[call] = took;
                spent += took;
            }
        if (pairs != asked.pairs || library.rows().rows != sum)
            wrong("the sweep's counts are not those that were told", library.name);
        double check_14 = ms[AFTER_14] - ms[AFTER_6], check_10 = ms[AFTER_10] - ms[AFTER_14];
        printf("| %s | %" PRIu64 " | %" PRIu64 " |", walls[c].name, pairs, sum);
        cell(ms[ASK]), cell(ms[SWEEP]), cell(ms[AFTER_5]), cell(check_14), cell(check_10);
        printf(" %.2f |\n", ms[ASK] / (ms[AFTER_5] + check_14 + check_10));
        fflush(stdout);
        library.close();
        free((void *)s.drawings), free((void *)s.spots);
    }
}

// ---- recut

enum { TURNS = 101, HALF_LANE = 781250 }; // half a lane in minutes, where 64 lanes are even

// The lanes of three stores, each as a multiset, one after another.
static uint64_t sum_of_lanes(const stores *w, uint64_t lanes)
{
    uint64_t sum = 0;
    for (int store = 1; store <= 3; store++)
        for (uint64_t i = 0; i < lanes; i++) {
            const uint64_t *lane = store == 3 ? w->made + i * ROW_ROOM : (store == 1 ? w->outer : w->inner) + i * TUPLE_ROOM;
            fingerprint f = {0, 0};
            for (uint64_t k = 0; k < lane[0]; k++) {
                const uint64_t *r = lane + 1 + (store == 3 ? 5 : 4) * k;
                mix(&f, store == 3 ? (row){r[0], r[1], r[2], r[3], r[4]} : (row){r[0], r[1], 0, r[2], r[3]});
            }
            sum = ((sum ^ f.rows) * 1099511628211u ^ f.sum) * 1099511628211u;
        }
    return sum;
}

static void put(const stores *to, const stores *from, uint64_t lanes)
{
    memcpy(to->outer, from->outer, lanes * TUPLE_ROOM * 8);
    memcpy(to->inner, from->inner, lanes * TUPLE_ROOM * 8);
    memcpy(to->made, from->made, lanes * ROW_ROOM * 8);
}

static int by_size(const void *a, const void *b)
{
    double x = *(const double *)a, y = *(const double *)b;
    return (x > y) - (x < y);
}

// the number that so many per cent of a call's numbers do not pass: 0 the least, 50 the median
static double passed_by(const double *of_turns, int percent)
{
    double sorted[TURNS];
    memcpy(sorted, of_turns, sizeof sorted);
    qsort(sorted, TURNS, sizeof *sorted, by_size);
    return sorted[percent * (TURNS - 1) / 100];
}

// A last minute in the lower or the upper half of a lane, by chance; `left` is how many each half still gets. The last
// minute of a half is left to the rows.
static uint64_t minute_in(size_t lane, uint64_t left[2])
{
    uint64_t upper = from_to(1, left[0] + left[1]) > left[0];
    left[upper]--;
    return (2 * lane + upper) * HALF_LANE + from_to(0, HALF_LANE - 2);
}

// So many tuples of each side and rows in each lane, in both halves alike; none in the upper half of the last lane. The
// last minute of a lower half is that of one row.
static shape make_halves(uint64_t tuples, uint64_t rows)
{
    shape s = {.lanes = MOST_LANES};
    tuple *d = room(MOST_LANES * tuples, sizeof *d), *p = room(MOST_LANES * tuples, sizeof *p);
    row *r = room(MOST_LANES * rows, sizeof *r);
    even_cuts(&s);
    seed = 1;
    for (size_t i = 0; i < s.lanes; i++) {
        uint64_t both = i + 1 < s.lanes, middle = (2 * i + 1) * HALF_LANE - 1;
        uint64_t left[3][2] = {{tuples / 2, both * tuples / 2}, {tuples / 2, both * tuples / 2}, {rows / 2, both * rows / 2}};
        while (left[0][0] + left[0][1]) {
            uint64_t last = minute_in(i, left[0]);
            d[s.drawing_count++] = (tuple){from_to(1, 4096), from_to(0, LAST_NUMBER), last, last};
            last = minute_in(i, left[1]);
            p[s.spot_count++] = (tuple){from_to(1, 4096), from_to(0, LAST_NUMBER), last, last};
        }
        while (left[2][0] + left[2][1]) {
            uint64_t last = minute_in(i, left[2]);
            if (!left[2][0] && last < middle)
                last = middle;
            r[s.row_count++] = (row){from_to(1, 4096), from_to(0, LAST_NUMBER), from_to(0, LAST_NUMBER), last, last};
        }
    }
    s.drawings = d, s.spots = p, s.rows = r;
    return s;
}

// Every cut is moved down by half a lane, so that the upper half of each lane has to go to the next, and then back. The
// last lane is half as full as the others, and after the move the first one is: full lanes leave no more to be moved.
// The library and the C by hand take turns on the same stores, which are put back before to the order in which they were
// filled: check 5, a recut that is refused with 10 when all is counted, since the last lane would get one row too many,
// and the two recuts. After each call the stores have to be sound under the cuts, and each lane's records the same in both.
static void recuts(void)
{
    static const struct {
        const char *name;
        uint64_t tuples, rows; // in each lane
        uint64_t filling;      // so many lanes' rows fill one; 0: not even all of them
    } walls[] = {{"full", TUPLES, ROWS, 1}, {"half full", TUPLES / 2, ROWS / 2, 2}, {"8 tuples a side and 64 rows a lane", 8, 64, 0}};
    enum { WALLS = sizeof walls / sizeof *walls, PROGRAMS = 2, CHECK = 0, REFUSED, THERE, BACK, CALLS };
    static const peer *const programs[PROGRAMS] = {&library, &by_hand};
    static uint64_t (*const recut[PROGRAMS])(const uint64_t *) = {recut_library, recut_by_hand};
    static double ms[WALLS][PROGRAMS][CALLS][TURNS];
    double median[WALLS][PROGRAMS][CALLS];
    printf("\n### Recut at the largest plan: 64 lanes, 512 tuples and 4,096 rows a lane, every cut moved by half a lane\n\n");
    printf("| stores | cuts | tuples and rows | moved | best ms, library | best ms, by hand in C | median ms, library | median ms, by hand in C |");
    printf(" library / by hand, best | .. medians | .. of a turn: median, and of 80 in 100 |\n|---|---|---|---|---|---|---|---|---|---|---|\n");
    for (size_t c = 0; c < WALLS; c++) {
        shape s = make_halves(walls[c].tuples, walls[c].rows);
        uint64_t next[MOST_LANES], crowded[MOST_LANES];
        for (size_t i = 0; i < s.lanes; i++)
            crowded[i] = next[i] = s.cuts[i] - (i + 1 < s.lanes ? HALF_LANE : 0);
        if (walls[c].filling) {
            uint64_t most = next[s.lanes - 1 - walls[c].filling] - 1;
            for (size_t i = s.lanes - 1; i-- > 0 && crowded[i] > most; most--)
                crowded[i] = most;
        }
        if (library.open(&s) || by_hand.open(&s))
            wrong("not opened", "recut");
        const stores now = stores_of_library(), own = lend_by_hand(now);
        const stores filled = {room(s.lanes * TUPLE_ROOM, 8), room(s.lanes * TUPLE_ROOM, 8), room(s.lanes * ROW_ROOM, 8)};
        put(&filled, &now, s.lanes);
        uint64_t before = sum_of_lanes(&filled, s.lanes), after = 0;
        for (int turn = -1; turn < TURNS; turn++) // the first one warms up
            for (int p = 0; p < PROGRAMS; p++) {
                int who = (p + turn) & 1; // now one is first, now the other
                put(&now, &filled, s.lanes);
                for (int call = 0; call < CALLS; call++) {
                    if (call == REFUSED && !walls[c].filling)
                        continue;
                    const uint64_t *cuts = call == REFUSED ? crowded : call == THERE ? next : s.cuts;
                    double began = processor_ms();
                    uint64_t number = call == CHECK ? (uint64_t)programs[who]->check() : recut[who](cuts);
                    double took = processor_ms() - began;
                    if (number != (call == REFUSED ? 10 : 0))
                        wrong("a call did not go as expected", programs[who]->name);
                    if (turn >= 0)
                        ms[c][who][call][turn] = took;
                    uint64_t sum = sum_of_lanes(&now, s.lanes);
                    if (call == THERE && !after)
                        after = sum;
                    if (sum != (call == THERE ? after : before) || programs[who]->check())
                        wrong("its lanes are not as expected", programs[who]->name);
                }
            }
        for (int call = 0; call < CALLS; call++)
            for (int p = 0; p < PROGRAMS; p++)
                median[c][p][call] = passed_by(ms[c][p][call], 50);
        uint64_t moved = (s.lanes - 1) * (2 * walls[c].tuples + walls[c].rows) / 2;
        for (int call = THERE; call <= BACK; call++) {
            double least[PROGRAMS], ratios[TURNS];
            for (int p = 0; p < PROGRAMS; p++)
                least[p] = passed_by(ms[c][p][call], 0);
            for (int turn = 0; turn < TURNS; turn++)
                ratios[turn] = ms[c][0][call][turn] / ms[c][1][call][turn];
            printf("| %s | %s | %zu | %" PRIu64 " |", walls[c].name, call == THERE ? "moved" : "moved back",
                   s.drawing_count + s.spot_count + s.row_count, moved);
            cell(least[0]), cell(least[1]), cell(median[c][0][call]), cell(median[c][1][call]);
            printf(" %.2f | %.2f | %.2f, %.2f to %.2f |\n", least[0] / least[1], median[c][0][call] / median[c][1][call],
                   passed_by(ratios, 50), passed_by(ratios, 10), passed_by(ratios, 90));
        }
        fflush(stdout);
        lend_by_hand(own);
        library.close(), by_hand.close();
        free(filled.outer), free(filled.inner), free(filled.made);
        free((void *)s.drawings), free((void *)s.spots), free((void *)s.rows);
    }
    printf("\n| parts of a recut, cuts moved: median ms | check 5, library | check 5, by hand in C | counting, library | counting, by hand in C |");
    printf(" moving, library | moving, by hand in C | recut / check 5, library |\n|---|---|---|---|---|---|---|---|\n");
    for (size_t c = 0; c < WALLS; c++) {
        printf("| %s |", walls[c].name);
        cell(median[c][0][CHECK]), cell(median[c][1][CHECK]);
        for (int call = REFUSED; call <= THERE; call++)
            for (int p = 0; p < PROGRAMS; p++)
                if (call == REFUSED && !walls[c].filling)
                    printf(" with moving |");
                else
                    cell(median[c][p][call] - median[c][p][call == THERE && !walls[c].filling ? CHECK : call - 1]);
        printf(" %.2f |\n", median[c][0][THERE] / median[c][0][CHECK]);
    }
    fflush(stdout);
}

// ---- a screenful of questions

enum { MOST_QUESTIONS = 1000, MOST_TURNS = 45 };

static const asker *const askers[] = {&asking_library,
                                      &asking_by_hand,
                                      &asking_by_label,
#ifdef WITH_SQLITE
                                      &asking_sqlite,
#endif
#ifdef WITH_POSTGRES
                                      &asking_postgres_label,
                                      &asking_postgres,
                                      &asking_postgres_gist,
#endif
};
// the first three are programs in C and work on the library's stores; the first two of them make check 5
enum { ASKERS = sizeof askers / sizeof *askers, STORED = 3, CHECKED = 2 };

static uint64_t label_in(uint64_t labels, int colliding)
{
    uint64_t label = from_to(1, labels);
    return colliding ? 1 + (label << 20) : label; // as those of the joins
}

// Full lanes of rows. A row ends anywhere in its lane and lasts 1 to 60 minutes; 6 of 100 run for half of the calendar, or
// from its first minute.
static shape make_rows(uint64_t labels, int colliding)
{
    shape s = {.lanes = MOST_LANES};
    row *r = room(MOST_LANES * ROWS, sizeof *r);
    even_cuts(&s);
    seed = 1;
    for (size_t i = 0; i < s.lanes; i++)
        for (int k = 0; k < ROWS; k++) {
            uint64_t last = from_to(i ? s.cuts[i - 1] + 1 : 0, s.cuts[i]);
            uint64_t more = from_to(1, 100) <= 6 ? LAST_MINUTE / 2 : from_to(0, 59);
            uint64_t label = label_in(labels, colliding), drawing = from_to(0, LAST_NUMBER), spot = from_to(0, LAST_NUMBER);
            r[s.row_count++] = (row){label, drawing, spot, last < more ? 0 : last - more, last};
        }
    s.rows = r;
    return s;
}

// A list of questions, with what the library answers, the rows that have to be read for it, counted here of the rows as
// they were made, and how many of them have a minute from the smallest to the largest one asked for.
typedef struct {
    question list[MOST_QUESTIONS];
    size_t count;
    uint64_t stored, met, above; // above: the answers above 0
} screen;

// Questions about these minutes. Where they are more than one, every other question is about the label and a minute of a row
// that ends among them, the others are about any.
static screen make_screen(const shape *s, uint64_t labels, int colliding, size_t count, uint64_t first, uint64_t last)
{
    screen c = {.count = count};
    uint64_t least = LAST_MINUTE, most = 0;
    for (size_t q = 0; q < count; q++) {
        c.list[q].label = label_in(labels, colliding), c.list[q].minute = from_to(first, last);
        if (q % 2 == 0 && first < last) {
            const row *r = s->rows + from_to(lane_of(s->cuts, first) * ROWS, s->row_count - 1);
            c.list[q].label = r->label, c.list[q].minute = from_to(r->first < first ? first : r->first, r->last);
        }
        least = c.list[q].minute < least ? c.list[q].minute : least;
        most = c.list[q].minute > most ? c.list[q].minute : most;
    }
    for (size_t k = 0; k < s->row_count; k++)
        if (lane_of(s->cuts, s->rows[k].last) >= lane_of(s->cuts, least))
            c.stored++, c.met += s->rows[k].first <= most && least <= s->rows[k].last;
    return c;
}

// the list as it is handed over: what stands in the places for answers is to make no difference
static void hand_over(const screen *c, question *given)
{
    for (size_t q = 0; q < c->count; q++)
        given[q] = (question){c->list[q].label, c->list[q].minute, UINT64_MAX - q};
}

static void same_answers(const screen *c, const question *given, const asker *who)
{
    if (memcmp(given, c->list, c->count * sizeof *given))
        wrong("its answers are not the library's", who->name);
}

// The programs in C take turns. A call with no questions makes the checks and reads nothing: that is check 5.
static void by_turns(screen *c, double ms[STORED], double check[CHECKED])
{
    static question given[MOST_QUESTIONS];
    double spent = 0;
    for (int turn = -1; turn < MOST_TURNS && spent < 1.5 * ENOUGH_MS; turn++) // the first one warms up
        for (int p = 0; p < STORED; p++) {
            int who = (p + turn + 1) % STORED; // now one is first, now another
            uint64_t none = 0, read;
            double at[3];
            hand_over(c, given);
            at[0] = processor_ms();
            int x = who < CHECKED ? askers[who]->ask(given, 0, &none) : DONE;
            at[1] = processor_ms();
            int y = askers[who]->ask(given, c->count, &read);
            at[2] = processor_ms();
            if (x || y || none || read != c->stored)
                wrong("it was refused, or read other rows than it should", askers[who]->name);
            if (turn < 0 && !who)
                for (size_t q = 0; q < c->count; q++)
                    c->list[q].answer = given[q].answer, c->above += given[q].answer > 0;
            same_answers(c, given, askers[who]);
            if (turn <= 0 || at[2] - at[1] < ms[who])
                ms[who] = at[2] - at[1];
            if (who < CHECKED && (turn <= 0 || at[1] - at[0] < check[who]))
                check[who] = at[1] - at[0];
            spent += turn < 0 ? 0 : at[2] - at[0];
        }
}

// a database, which is open
static double by_statement(const screen *c, const asker *who)
{
    static question given[MOST_QUESTIONS];
    const double enough = ENOUGH_MS / 4;
    times t = {.runs = 0};
    double spent = 0;
    int answer = who->lay ? who->lay(c->list, c->count) : DONE;
    for (int run = -1; run < MOST_RUNS && spent < enough && !answer; run++) {
        uint64_t unknown;
        hand_over(c, given);
        double began = who->served ? now_ms() : processor_ms();
        answer = who->ask(given, c->count, &unknown);
        double took = (who->served ? now_ms() : processor_ms()) - began;
        if (!answer)
            same_answers(c, given, who);
        if (run >= 0 || took > enough) // the first one warms up
            t.at[t.runs++] = took, spent += took;
    }
    if (answer == WRONG)
        wrong("the questions were not answered", who->name);
    return answer == TOO_LONG ? -1 : best(&t);
}

static void open_stored(const shape *s, stores *own)
{
    if (asking_library.open(s) || asking_by_hand.open(s))
        wrong("not opened", "questions");
    *own = lend_by_hand(stores_of_library());
}

static void close_stored(stores own)
{
    lend_by_hand(own);
    asking_library.close(), asking_by_hand.close();
}

// the middle cells of a table's head, and the line below it
static void asker_head(const char *what, int from, int to, int others)
{
    for (int p = from; p < to; p++)
        printf(" | %s%s", what, askers[p]->name);
    printf(" |\n|");
    for (int p = from; p < to + others; p++)
        printf("---|");
    printf("\n");
}

static void screenfuls(void)
{
    enum { LABELS = 4096, SCREENS = 6 };
    const double usual = limit_ms;
    shape s = make_rows(LABELS, 0);
    const uint64_t middle = (LAST_MINUTE + 1) / 2, last_lane = s.cuts[s.lanes - 2] + 1;
    const struct {
        const char *name;
        size_t count;
        uint64_t first, last; // the minutes that are asked for
    } kinds[SCREENS] = {{"1, anywhere", 1, 0, LAST_MINUTE},
                        {"10, anywhere", 10, 0, LAST_MINUTE},
                        {"100, anywhere", 100, 0, LAST_MINUTE},
                        {"1,000, anywhere", 1000, 0, LAST_MINUTE},
                        {"1,000, all at one minute in the middle", 1000, middle, middle},
                        {"1,000, minutes of the last lane", 1000, last_lane, LAST_MINUTE}};
    static screen screens[SCREENS];
    double ms[SCREENS][ASKERS], check[SCREENS][CHECKED];
    stores own;
    open_stored(&s, &own);
    for (size_t c = 0; c < SCREENS; c++) {
        screens[c] = make_screen(&s, LABELS, 0, kinds[c].count, kinds[c].first, kinds[c].last);
        by_turns(screens + c, ms[c], check[c]);
    }
    close_stored(own);
    limit_ms = 2000;
    for (int p = STORED; p < ASKERS; p++) {
        if (askers[p]->open(&s))
            wrong("not opened", askers[p]->name);
        for (size_t c = 0; c < SCREENS; c++)
            ms[c][p] = by_statement(screens + c, askers[p]);
        askers[p]->close();
    }
    free((void *)s.rows);
    printf("\n### A screenful of questions: 64 lanes of 4,096 rows, 4,096 labels, 6 rows of 100 for half of the calendar\n\n");
    printf("| questions | rows read | rows compared | answers above 0");
    asker_head("ms, ", 0, ASKERS, 4);
    for (size_t c = 0; c < SCREENS; c++) {
        printf("| %s | %" PRIu64 " | %" PRIu64 " | %" PRIu64 " |", kinds[c].name, screens[c].stored, screens[c].met, screens[c].above);
        for (int p = 0; p < ASKERS; p++)
            cell(ms[c][p]);
        printf("\n");
    }
    printf("\n| a screenful: library's time as a part of the peer's | questions");
    asker_head("of ", 1, ASKERS, 2);
    for (size_t c = 0; c < SCREENS; c++) {
        printf("| | %s |", kinds[c].name);
        for (int p = 1; p < ASKERS; p++)
            ratio(ms[c][0], ms[c][p]);
        printf("\n");
    }
    limit_ms = usual;
    // check 5 is a call with no questions, reading the rest of a screenful
    printf("\n| parts of a screenful | pairs compared | ms, check 5, library | ms, check 5, by hand in C | ms, reading, library |");
    printf(" ms, reading, by hand in C | reading, library / by hand | nanoseconds a row read, library | .. by hand in C |");
    printf(" nanoseconds a pair, library | .. by hand in C |\n|---|---|---|---|---|---|---|---|---|---|---|\n");
    for (size_t c = 0; c < SCREENS; c++) {
        uint64_t pairs = screens[c].met * screens[c].count;
        double reading[CHECKED];
        printf("| %s | %" PRIu64 " |", kinds[c].name, pairs);
        cell(check[c][0]), cell(check[c][1]);
        for (int p = 0; p < CHECKED; p++)
            cell(reading[p] = ms[c][p] - check[c][p]);
        printf(" %.2f |", reading[0] / reading[1]);
        for (int p = 0; p < CHECKED; p++)
            printf(" %.2f |", 1e6 * reading[p] / (double)screens[c].stored);
        for (int p = 0; p < CHECKED; p++)
            printf(" %.2f |", 1e6 * reading[p] / (double)pairs);
        printf("\n");
    }
    // of how many labels a list of questions in a hash table has to do with
    static const struct {
        const char *name;
        uint64_t labels;
        int colliding;
    } sets[] = {{"1", 1, 0}, {"8", 8, 0}, {"64", 64, 0}, {"512", 512, 0}, {"4096", 4096, 0}, {"4096, colliding", 4096, 1}};
    printf("\n| labels: 1,000 questions, minutes of the last lane | answers above 0");
    asker_head("ms, ", 0, STORED, 2);
    for (size_t c = 0; c < sizeof sets / sizeof *sets; c++) {
        double took[STORED], unused[CHECKED];
        s = make_rows(sets[c].labels, sets[c].colliding);
        screens[0] = make_screen(&s, sets[c].labels, sets[c].colliding, 1000, last_lane, LAST_MINUTE);
        open_stored(&s, &own);
        by_turns(screens, took, unused);
        close_stored(own);
        printf("| %s | %" PRIu64 " |", sets[c].name, screens[0].above);
        for (int p = 0; p < STORED; p++)
            cell(took[p]);
        printf("\n");
        free((void *)s.rows);
    }
    fflush(stdout);
}

// ---- gaps

static const lister *const listers[] = {&listing_library,
                                        &listing_by_hand,
                                        &listing_sorted,
#ifdef WITH_POSTGRES
                                        &listing_postgres,
#endif
};
// the first three are programs in C and work on the library's stores; the first two of them make check 5 and count first
enum { LISTERS = sizeof listers / sizeof *listers, LISTING = 3, COUNTING = 2, MOST_RECORDS = 1 << 18 };

// One drawing over the whole calendar and full lanes of spots with its label, of one minute and 3,000 minutes apart.
static shape make_comb(void)
{
    shape s = {.lanes = MOST_LANES, .drawing_count = 1, .spot_count = MOST_LANES * TUPLES};
    tuple *d = room(1, sizeof *d), *p = room(s.spot_count, sizeof *p);
    even_cuts(&s);
    d[0] = (tuple){1, 1, 0, LAST_MINUTE};
    for (size_t k = 0; k < s.spot_count; k++) {
        size_t lane = k / TUPLES, place = k % TUPLES * 77 % TUPLES; // in another order than that of time
        uint64_t minute = (lane ? s.cuts[lane - 1] + 1 : 0) + 3000 * place + 100;
        p[k] = (tuple){1, k, minute, minute};
    }
    s.drawings = d, s.spots = p;
    return s;
}

static fingerprint mixed(const tuple *list, uint64_t count)
{
    fingerprint f = {0, 0};
    for (uint64_t k = 0; k < count; k++)
        mix(&f, (row){list[k].label, list[k].number, 0, list[k].first, list[k].last});
    return f;
}

// The programs in C take turns. With room for no record the first two make their checks, count and are refused.
static void listed_by_turns(tuple *first, uint64_t *records, double ms[LISTING], double counting[COUNTING])
{
    tuple *out = room(MOST_RECORDS, sizeof *out);
    double spent = 0;
    for (int turn = -1; turn < MOST_RUNS && (turn < 1 || spent < 3 * ENOUGH_MS); turn++) // the first one warms up
        for (int p = 0; p < LISTING; p++) {
            int who = (p + turn + 1) % LISTING; // now one is first, now another
            uint64_t none = 0, count = 0;
            double at[3];
            at[0] = processor_ms();
            int x = who < COUNTING ? listers[who]->list(out, 0, &none) : REFUSED_SHORT;
            at[1] = processor_ms();
            int y = listers[who]->list(who || turn >= 0 ? out : first, MOST_RECORDS, &count);
            at[2] = processor_ms();
            if (!who && turn < 0)
                *records = count;
            if (x != REFUSED_SHORT || none || y || count != *records)
                wrong("it was refused, or listed another number of gaps than the library", listers[who]->name);
            if ((who || turn >= 0) && memcmp(out, first, count * sizeof *out))
                wrong("its gaps are not the library's", listers[who]->name);
            if (turn <= 0 || at[2] - at[1] < ms[who])
                ms[who] = at[2] - at[1];
            if (who < COUNTING && (turn <= 0 || at[1] - at[0] < counting[who]))
                counting[who] = at[1] - at[0];
            spent += turn < 0 ? 0 : at[2] - at[0];
        }
    free(out);
}

static double listed_by_statement(const shape *s, const lister *who, fingerprint wanted)
{
    times t = {.runs = 0};
    double spent = 0;
    int answer = DONE;
    if (who->open(s))
        wrong("not opened", who->name);
    for (int run = -1; run < MOST_RUNS && spent < ENOUGH_MS && !answer; run++) {
        uint64_t count = 0;
        double began = now_ms();
        answer = who->list(0, 0, &count);
        double took = now_ms() - began;
        if (!answer && count != wanted.rows)
            wrong("it listed another number of gaps than the library", who->name);
        if (run >= 0 || took > ENOUGH_MS) // the first one warms up
            t.at[t.runs++] = took, spent += took;
    }
    if (answer == WRONG)
        wrong("the gaps were not listed", who->name);
    fingerprint f = answer ? wanted : who->records();
    if (f.rows != wanted.rows || f.sum != wanted.sum)
        wrong("its gaps are not the library's", who->name);
    who->close();
    return answer == TOO_LONG ? -1 : best(&t);
}

static void lister_head(const char *what, int from, int to, int others)
{
    for (int p = from; p < to; p++)
        printf(" | %s%s", what, listers[p]->name);
    printf(" |\n|");
    for (int p = from; p < to + others; p++)
        printf("---|");
    printf("\n");
}

static void missed(void)
{
    enum { WALLS = 5, COMB = WALLS - 1 };
    static const point walls[COMB] = {{"16,384 and 16,384, one minute", {64, 16384, 1638, 0, 512, 0}},
                                      {"16,384 and 16,384, 6 per cent long-lived", {64, 16384, 1638, 0, 512, 6}},
                                      {"16,384 and 16,384, 24 per cent long-lived", {64, 16384, 1638, 0, 512, 24}},
                                      {"16,384 and 16,384, 49 per cent long-lived", {64, 16384, 1638, 0, 512, 49}}};
    double ms[WALLS][LISTERS], counting[WALLS][COUNTING];
    uint64_t records[WALLS], looked[WALLS];
    tuple *list = room(MOST_RECORDS, sizeof *list);
    for (size_t c = 0; c < WALLS; c++) {
        shape s = c < COMB ? make(&walls[c].k) : make_comb();
        if (listing_library.open(&s) || listing_by_hand.open(&s))
            wrong("not opened", "gaps");
        stores own = lend_by_hand(stores_of_library());
        listed_by_turns(list, records + c, ms[c], counting[c]);
        uint64_t again;
        spots_looked_at(), listing_by_hand.list(list, MOST_RECORDS, &again);
        looked[c] = spots_looked_at();
        lend_by_hand(own);
        listing_library.close(), listing_by_hand.close();
        for (int p = LISTING; p < LISTERS; p++)
            ms[c][p] = listed_by_statement(&s, listers[p], mixed(list, records[c]));
        free((void *)s.drawings), free((void *)s.spots);
    }
    free(list);
    printf("\n### Minutes without a spot: 64 lanes, 16,384 drawings and as many spots with 1,638 labels; one drawing and 32,768 spots\n\n");
    printf("| drawings and spots | gaps | spots looked at");
    lister_head("ms, ", 0, LISTERS, 3);
    for (size_t c = 0; c < WALLS; c++) {
        printf("| %s | %" PRIu64 " | %" PRIu64 " |", c < COMB ? walls[c].x : "1 and 32,768 apart, one label", records[c], looked[c]);
        for (int p = 0; p < LISTERS; p++)
            cell(ms[c][p]);
        printf("\n");
    }
    printf("\n| gaps: library's time as a part of the peer's | drawings and spots");
    lister_head("of ", 1, LISTERS, 2);
    for (size_t c = 0; c < WALLS; c++) {
        printf("| | %s |", c < COMB ? walls[c].x : "1 and 32,768 apart, one label");
        for (int p = 1; p < LISTERS; p++)
            ratio(ms[c][0], ms[c][p]);
        printf("\n");
    }
    // counting is a call with room for no record, which is refused with 19
    printf("\n| parts of a list of gaps | ms, checks and counting, library | .. by hand in C | ms, writing, library | .. by hand in C |");
    printf(" nanoseconds a spot looked at, library | .. by hand in C |\n|---|---|---|---|---|---|---|\n");
    for (size_t c = 0; c < WALLS; c++) {
        printf("| %s |", c < COMB ? walls[c].x : "1 and 32,768 apart, one label");
        cell(counting[c][0]), cell(counting[c][1]);
        cell(ms[c][0] - counting[c][0]), cell(ms[c][1] - counting[c][1]);
        printf(" %.2f | %.2f |\n", 1e6 * ms[c][0] / (double)looked[c], 1e6 * ms[c][1] / (double)looked[c]);
    }
    fflush(stdout);
}

#define COUNT(a) (sizeof(a) / sizeof *(a))

int main(int count, char **words)
{
    static const point lanes512[] = {{"1", {1, 512, 64, 0, 512, 0}},   {"2", {2, 512, 64, 0, 512, 0}},   {"4", {4, 512, 64, 0, 512, 0}},
                                     {"8", {8, 512, 64, 0, 512, 0}},   {"16", {16, 512, 64, 0, 512, 0}}, {"32", {32, 512, 64, 0, 512, 0}},
                                     {"64", {64, 512, 64, 0, 512, 0}}};
    static const point lanes3072[] = {{"8", {8, 3072, 64, 0, 512, 0}}, {"16", {16, 3072, 64, 0, 512, 0}}, {"32", {32, 3072, 64, 0, 512, 0}},
                                      {"48", {48, 3072, 64, 0, 512, 0}}, {"64", {64, 3072, 64, 0, 512, 0}}};
    static const point lanes16384[] = {{"48", {48, 16384, 64, 0, 512, 0}}, {"56", {56, 16384, 64, 0, 512, 0}}, {"64", {64, 16384, 64, 0, 512, 0}}};
    static const point longs[] = {{"0", {64, 16384, 4096, 0, 512, 0}},   {"3", {64, 16384, 4096, 0, 512, 3}},   {"6", {64, 16384, 4096, 0, 512, 6}},
                                  {"12", {64, 16384, 4096, 0, 512, 12}}, {"24", {64, 16384, 4096, 0, 512, 24}}, {"36", {64, 16384, 4096, 0, 512, 36}},
                                  {"49", {64, 16384, 4096, 0, 512, 49}}};
    static const point sides[] = {{"1024", {64, 1024, 1638, 0, 512, 0}},   {"2048", {64, 2048, 1638, 0, 512, 0}},   {"4096", {64, 4096, 1638, 0, 512, 0}},
                                  {"8192", {64, 8192, 1638, 0, 512, 0}},   {"16384", {64, 16384, 1638, 0, 512, 0}}, {"24576", {64, 24576, 1638, 0, 512, 0}}};
    static const point labels[] = {{"1", {64, 16384, 1, 0, 4096, 0}},       {"8", {64, 16384, 8, 0, 4096, 0}},         {"64", {64, 16384, 64, 0, 4096, 0}},
                                   {"512", {64, 16384, 512, 0, 4096, 0}},   {"4096", {64, 16384, 4096, 0, 4096, 0}},   {"65536", {64, 16384, 65536, 0, 4096, 0}},
                                   {"4096, colliding", {64, 16384, 4096, 1, 4096, 0}}};
    const char *only = count > 1 ? words[1] : "";
    if (!*only || !strcmp(only, "lanes")) {
        joins("Lanes, 512 tuples a side, spans of one minute (after figure 11)", "lanes", lanes512, COUNT(lanes512));
        joins("Lanes, 3,072 tuples a side, spans of one minute (after figure 11)", "lanes", lanes3072, COUNT(lanes3072));
        joins("Lanes, 16,384 tuples a side, spans of one minute (after figure 11)", "lanes", lanes16384, COUNT(lanes16384));
    }
    if (!*only || !strcmp(only, "long"))
        joins("Share of long-lived tuples, 64 lanes, 16,384 tuples a side (after figure 12)", "per cent long-lived", longs, COUNT(longs));
    if (!*only || !strcmp(only, "both"))
        both("Lanes and share of long-lived tuples, 3,072 tuples a side, the library alone (after figure 13)");
    if (!*only || !strcmp(only, "sides"))
        joins("Tuples a side, 64 lanes, spans of one minute", "tuples a side", sides, COUNT(sides));
    if (!*only || !strcmp(only, "labels"))
        joins("Labels, 64 lanes, 16,384 tuples a side, spans of one minute", "labels", labels, COUNT(labels));
    if (!*only || !strcmp(only, "changes"))
        changes();
    if (!*only || !strcmp(only, "requirements"))
        asking();
    if (!*only || !strcmp(only, "recut"))
        recuts();
    if (!*only || !strcmp(only, "questions"))
        screenfuls();
    if (!*only || !strcmp(only, "gaps"))
        missed();
    return 0;
}
