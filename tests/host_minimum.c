// What a plan's minimum does, in a C host (document 02, (f)). All numbers, counts and rows that must come were worked
// out by hand and stand here. Built and run by tests/host.sh. Prints 'minimum: N checks, all hold', or the first that
// does not, and exits 1.
#include <inttypes.h>
#include <stdio.h>
#include <stdlib.h>
#include <string.h>

#include "ruthgarwy.h"

// the minimum is the 68th word, after the 64 last minutes, and every other word stands where it stood
_Static_assert(RUTHGARWY_PLAN_WORDS == 68 && RUTHGARWY_PLAN_MINIMUM == 67, "the place of the minimum");
_Static_assert(RUTHGARWY_PLAN_LANES == 0 && RUTHGARWY_PLAN_TUPLES == 1 && RUTHGARWY_PLAN_ROWS == 2, "the plan's head");
_Static_assert(RUTHGARWY_PLAN_LASTS == 3 && RUTHGARWY_CUT_WORDS == 64, "the places for last minutes");
_Static_assert(RUTHGARWY_LEAST_MINIMUM == 1 && RUTHGARWY_MOST_MINIMUM == 1440 && RUTHGARWY_MINIMUM == 18, "its range");

enum { LANES = 2, TUPLES = 8, ROWS = 8, LABEL = 38 };

static uint64_t plan[RUTHGARWY_PLAN_WORDS];
static uint64_t outer[RUTHGARWY_TUPLE_STORE_WORDS(LANES, TUPLES)], inner[RUTHGARWY_TUPLE_STORE_WORDS(LANES, TUPLES)];
static uint64_t rows[RUTHGARWY_ROW_STORE_WORDS(LANES, ROWS)], report[LANES];
static uint64_t outer_cache[RUTHGARWY_CACHE_WORDS(LANES, TUPLES)], inner_cache[RUTHGARWY_CACHE_WORDS(LANES, TUPLES)];
static uint64_t cuts[RUTHGARWY_CUT_WORDS], questions[RUTHGARWY_QUESTION_WORDS];
static uint64_t answer[RUTHGARWY_REQUIREMENTS_WORDS];

// an array as a slice: its address and its length in words
#define COUNT(words) (sizeof(words) / sizeof((words)[0]))
#define SLICE(words) (words), COUNT(words)
#define STORES SLICE(outer), SLICE(inner), SLICE(rows)
#define ANSWER answer, RUTHGARWY_ANSWER_WORDS

static unsigned checks;

static void holds(int right, const char *what, uint64_t about)
{
    checks++;
    if (!right) {
        printf("minimum: wrong: %s (%" PRIu64 ")\n", what, about);
        exit(1);
    }
}

// two lanes, minutes 0 to 99 and the rest; what stands in the places beyond is nobody's and has to stay
static void make_plan(uint64_t minimum)
{
    for (size_t place = 0; place < RUTHGARWY_PLAN_WORDS; place++)
        plan[place] = 7000 + place;
    plan[RUTHGARWY_PLAN_LANES] = LANES, plan[RUTHGARWY_PLAN_TUPLES] = TUPLES, plan[RUTHGARWY_PLAN_ROWS] = ROWS;
    plan[RUTHGARWY_PLAN_LASTS] = 99, plan[RUTHGARWY_PLAN_LASTS + 1] = RUTHGARWY_LAST_MINUTE;
    plan[RUTHGARWY_PLAN_MINIMUM] = minimum;
}

// ---- refusals: every call that takes a plan

typedef struct {
    size_t plan_words, store_words_less, answer_words_less, cut_words_less;
} lengths;

static const lengths right = {RUTHGARWY_PLAN_WORDS, 0, 0, 0};

static uint64_t call(int k, lengths n)
{
    size_t o = COUNT(outer) - n.store_words_less, i = COUNT(inner) - n.store_words_less;
    size_t r = COUNT(rows) - n.store_words_less, q = COUNT(report) - n.store_words_less;
    size_t a = RUTHGARWY_ANSWER_WORDS - n.answer_words_less, c = RUTHGARWY_CUT_WORDS - n.cut_words_less;
#define LENT outer, o, inner, i, rows, r, answer, a
    // the tuple is not legal, which is looked at after all that is refused here
    switch (k) {
    case 0:
        return ruthgarwy_open(plan, n.plan_words, LENT);
    case 1:
        return ruthgarwy_insert(plan, n.plan_words, RUTHGARWY_OUTER, 0, 0, 1, 0, LENT);
    case 2:
        return ruthgarwy_insert(plan, n.plan_words, RUTHGARWY_INNER, 0, 0, 1, 0, LENT);
    case 3:
        return ruthgarwy_delete(plan, n.plan_words, RUTHGARWY_OUTER, 0, 0, 1, 0, LENT);
    case 4:
        return ruthgarwy_delete(plan, n.plan_words, RUTHGARWY_INNER, 0, 0, 1, 0, LENT);
    case 5:
        return ruthgarwy_sweep(plan, n.plan_words, outer, o, inner, i, rows, r, outer_cache, 0,
                               inner_cache, 0, answer, a);
    case 6:
        return ruthgarwy_repartition(plan, n.plan_words, cuts, c, LENT);
    case 7:
        return ruthgarwy_questions(plan, n.plan_words, rows, r, SLICE(questions), answer, a);
    default:
        return ruthgarwy_requirements(plan, n.plan_words, outer, o, inner, i, report, q, answer, a + 1);
    }
}

enum { CALLS = 9, RECUT = 6 };

// Every call is refused with that number, whatever the stores hold, and writes no word but its answer's: the number and
// zeros, or none where the answer has another length than it must. Words of new last minutes are the recut's alone.
static void refused(const char *what, uint64_t number, lengths n)
{
    static uint64_t was[7][sizeof rows / sizeof *rows];
    uint64_t *const all[] = {plan, outer, inner, rows, report, cuts, questions};
    const size_t bytes[] = {sizeof plan,   sizeof outer, sizeof inner,    sizeof rows,
                            sizeof report, sizeof cuts,  sizeof questions};
    memset(outer, 0xff, sizeof outer), memset(inner, 0xff, sizeof inner), memset(rows, 0xff, sizeof rows);
    memset(report, 0xee, sizeof report), memset(cuts, 0, sizeof cuts), memset(questions, 1, sizeof questions);
    for (size_t b = 0; b < COUNT(all); b++)
        memcpy(was[b], all[b], bytes[b]);
    for (int k = n.cut_words_less ? RECUT : 0; k < (n.cut_words_less ? RECUT + 1 : CALLS); k++) {
        uint64_t answered[RUTHGARWY_REQUIREMENTS_WORDS] = {5555, 5555, 5555, 5555};
        memcpy(answer, answered, sizeof answer);
        if (!n.answer_words_less) {
            answered[0] = number, answered[1] = answered[2] = 0;
            if (k == CALLS - 1)
                answered[3] = 0;
        }
        holds(call(k, n) == number, what, (uint64_t)k);
        holds(!memcmp(answer, answered, sizeof answer), what, (uint64_t)k);
        for (size_t b = 0; b < COUNT(all); b++)
            holds(!memcmp(was[b], all[b], bytes[b]), what, (uint64_t)k);
    }
}

static void refusals(void)
{
    static const uint64_t illegal[] = {0, 1441, UINT64_MAX};
    lengths old = right, stores = right, answers = right, minutes = right;
    old.plan_words = 67, stores.store_words_less = 1, answers.answer_words_less = 1, minutes.cut_words_less = 1;
    for (size_t k = 0; k < COUNT(illegal); k++) {
        make_plan(illegal[k]);
        refused("18: the minimum is out of its range", 18, right);
        // 18 comes before 4
        refused("18 before 4: a store or the report is a word too short", 18, stores);
        refused("18 before 4: the answer is a word too short", 18, answers);
        refused("18 before 4: the new last minutes are a word too few", 18, minutes);
        // 1, 2 and 3 come before 18
        plan[RUTHGARWY_PLAN_TUPLES] = 0;
        refused("3 before 18: no tuple fits a lane", 3, right);
        plan[RUTHGARWY_PLAN_TUPLES] = 513;
        refused("3 before 18: 513 tuples a lane", 3, stores);
        plan[RUTHGARWY_PLAN_TUPLES] = TUPLES, plan[RUTHGARWY_PLAN_ROWS] = 4097;
        refused("3 before 18: 4,097 rows a lane", 3, right);
        plan[RUTHGARWY_PLAN_LASTS + 1]--;
        refused("2 before 18: the calendar's end is not reached", 2, right);
        plan[RUTHGARWY_PLAN_LANES] = 65;
        refused("1 before 18: 65 lanes", 1, right);
        // without its last word it is no plan: 4, before 1, 2, 3 and 18
        refused("4: a plan of 67 words that is wrong in all", 4, old);
        make_plan(illegal[k]);
        refused("4: a plan of 67 words with the minimum behind it", 4, old);
    }
    make_plan(5);
    refused("4: a plan of 67 words", 4, old);
    refused("4: a store or the report is a word too short", 4, stores);
    refused("4: the answer is a word too short", 4, answers);
    refused("4: the new last minutes are a word too few", 4, minutes);
    // the ends of the range are legal
    static const uint64_t legal[] = {1, 2, 1439, 1440};
    for (size_t k = 0; k < COUNT(legal); k++) {
        make_plan(legal[k]);
        holds(ruthgarwy_open(SLICE(plan), STORES, ANSWER) == 0, "opened", legal[k]);
    }
}

// ---- a wall with the minimum 5

static void told(const char *what, uint64_t got, uint64_t number, uint64_t changed, uint64_t examined)
{
    holds(got == number, what, got);
    holds(answer[RUTHGARWY_ANSWER_NUMBER] == number, what, answer[0]);
    holds(answer[RUTHGARWY_ANSWER_CHANGED] == changed, what, answer[1]);
    holds(answer[RUTHGARWY_ANSWER_EXAMINED] == examined, what, answer[2]);
}

static void insert(uint64_t side, uint64_t item, uint64_t first, uint64_t last, uint64_t added, uint64_t looked)
{
    told(side == RUTHGARWY_OUTER ? "insert drawing" : "insert spot",
         ruthgarwy_insert(SLICE(plan), side, LABEL, item, first, last, STORES, ANSWER), 0, added, looked);
}

static void withdraw(uint64_t side, uint64_t item, uint64_t first, uint64_t last, uint64_t gone, uint64_t looked)
{
    told(side == RUTHGARWY_OUTER ? "withdraw drawing" : "withdraw spot",
         ruthgarwy_delete(SLICE(plan), side, LABEL, item, first, last, STORES, ANSWER), 0, gone, looked);
}

static uint64_t recut(void)
{
    return ruthgarwy_repartition(SLICE(plan), SLICE(cuts), STORES, ANSWER);
}

static uint64_t sweep(void)
{
    return ruthgarwy_sweep(SLICE(plan), STORES, SLICE(outer_cache), SLICE(inner_cache), ANSWER);
}

// drawing number, spot number, first and last minute of a row
typedef struct {
    uint64_t drawing, spot, first, last;
} shown;

// A lane holds these rows, all different, in any order, and zeros behind them.
static void lane_holds(const char *what, size_t lane, size_t count, const shown *want)
{
    const uint64_t *part = rows + lane * RUTHGARWY_ROW_STORE_WORDS(1, ROWS);
    holds(part[0] == count, what, part[0]);
    for (size_t w = 0; w < count; w++) {
        const uint64_t row[RUTHGARWY_ROW_WORDS] = {LABEL, want[w].drawing, want[w].spot, want[w].first, want[w].last};
        size_t k = 0;
        while (k < count && memcmp(part + 1 + RUTHGARWY_ROW_WORDS * k, row, sizeof row))
            k++;
        holds(k < count, what, w);
    }
    for (size_t w = 1 + RUTHGARWY_ROW_WORDS * count; w < RUTHGARWY_ROW_STORE_WORDS(1, ROWS); w++)
        holds(part[w] == 0, what, w);
}

// What a sweep will take under a minimum, and what it does with store 3 as it is, or with one of zeros. Whatever the
// minimum: drawing 7 and spot 4 are carried down to lane 1, which all tuples touch, so 6 * 4 pairs are compared.
static void foreseen(uint64_t minimum, uint64_t first_lane, uint64_t second_lane, int fits)
{
    plan[RUTHGARWY_PLAN_MINIMUM] = minimum;
    uint64_t got = ruthgarwy_requirements(SLICE(plan), SLICE(outer), SLICE(inner), SLICE(report), SLICE(answer));
    holds(got == 0, "requirements", minimum);
    holds(answer[RUTHGARWY_REQUIREMENTS_OUTER] == 1 && answer[RUTHGARWY_REQUIREMENTS_INNER] == 1, "needs", minimum);
    holds(answer[RUTHGARWY_REQUIREMENTS_PAIRS] == 24, "pairs", minimum);
    holds(report[0] == first_lane && report[1] == second_lane, "reported rows", minimum);
    uint64_t stood[COUNT(rows)];
    memcpy(stood, rows, sizeof rows);
    memset(rows, 0, sizeof rows);
    if (fits)
        told("sweep", sweep(), 0, first_lane + second_lane, 24);
    else
        told("sweep without room", sweep(), 10, 0, 0);
    memcpy(rows, stood, sizeof rows);
    plan[RUTHGARWY_PLAN_MINIMUM] = 5;
}

// the calls that are lent store 3, with a legal tuple: refused with 5 for a row that is too short
static void short_row(const char *what)
{
    told(what, ruthgarwy_insert(SLICE(plan), RUTHGARWY_OUTER, LABEL, 1, 0, 0, STORES, ANSWER), 5, 0, 0);
    told(what, ruthgarwy_delete(SLICE(plan), RUTHGARWY_OUTER, LABEL, 4, 16, 30, STORES, ANSWER), 5, 0, 0);
    told(what, sweep(), 5, 0, 0);
    told(what, recut(), 5, 0, 0);
    told(what, ruthgarwy_questions(SLICE(plan), SLICE(rows), SLICE(questions), ANSWER), 5, 0, 0);
}

static void wall(void)
{
    make_plan(5);
    told("open", ruthgarwy_open(SLICE(plan), STORES, ANSWER), 0, 0, 0);

    // With spot 1, minutes 10 to 19: drawing 4 has 16 to 19 in common, four minutes; drawing 5 has 15 to 19, five;
    // drawing 6 has 10 to 15, six. A row's span is all of them. Each looks at the one spot, whether or not it makes a
    // row.
    insert(RUTHGARWY_INNER, 1, 10, 19, 0, 0);
    insert(RUTHGARWY_OUTER, 4, 16, 30, 0, 1);
    insert(RUTHGARWY_OUTER, 5, 15, 30, 1, 1);
    insert(RUTHGARWY_OUTER, 6, 5, 15, 1, 1);
    static const shown first[] = {{5, 1, 15, 19}, {6, 1, 10, 15}};
    lane_holds("rows of three drawings", 0, 2, first);
    lane_holds("no rows", 1, 0, first);

    // The other side alike. Spot 2, 12 to 18, has three, four and four minutes in common with the drawings 4, 5 and 6;
    // spot 3, 11 to 19, four, five (15 to 19) and five (11 to 15).
    insert(RUTHGARWY_INNER, 2, 12, 18, 0, 3);
    insert(RUTHGARWY_INNER, 3, 11, 19, 2, 3);
    // Across the cut after 99. Spot 4, 90 to 120, is in lane 2, as is drawing 7, 97 to 101: five minutes, three of them
    // in lane 1. Drawings 8, 96 to 99, and 9, 95 to 99, end with lane 1: four and five minutes. Spot 4 begins in lane 1
    // and looks at the three drawings there; each of the drawings looks at all four spots.
    insert(RUTHGARWY_INNER, 4, 90, 120, 0, 3);
    insert(RUTHGARWY_OUTER, 7, 97, 101, 1, 4);
    insert(RUTHGARWY_OUTER, 8, 96, 99, 0, 4);
    insert(RUTHGARWY_OUTER, 9, 95, 99, 1, 4);
    static const shown lower[] = {{5, 1, 15, 19}, {6, 1, 10, 15}, {5, 3, 15, 19}, {6, 3, 11, 15}, {9, 4, 95, 99}};
    static const shown upper[] = {{7, 4, 97, 101}};
    lane_holds("rows of lane 1", 0, 5, lower);
    lane_holds("rows of lane 2", 1, 1, upper);

    // Twelve pairs overlap: drawing 4 with the spots 1, 2 and 3 by 4, 3 and 4 minutes, drawing 5 by 5, 4 and 5, drawing
    // 6 by 6, 4 and 5; and the drawings 7, 8 and 9 with spot 4 by 5, 4 and 5, of which only 7's ends in lane 2. So with
    // at least 3 minutes there are 11 and 1, with 4 there are 10 and 1, with 5 there are 5 and 1, with 6 there is 1. A
    // lane has room for eight.
    foreseen(1, 11, 1, 0);
    foreseen(3, 11, 1, 0);
    foreseen(4, 10, 1, 0);
    foreseen(5, 5, 1, 1);
    foreseen(6, 1, 0, 1);
    foreseen(7, 0, 0, 1);
    foreseen(1440, 0, 0, 1);
    told("sweep", sweep(), 0, 6, 24);
    lane_holds("rows of lane 1 swept", 0, 5, lower);
    lane_holds("rows of lane 2 swept", 1, 1, upper);

    // stored rows of five minutes are not legal where the minimum is 6; nor is one of four minutes where it is 5
    memset(cuts, 0, sizeof cuts);
    cuts[0] = 17, cuts[1] = RUTHGARWY_LAST_MINUTE;
    plan[RUTHGARWY_PLAN_MINIMUM] = 6;
    short_row("5: rows of five minutes under a minimum of 6");
    plan[RUTHGARWY_PLAN_MINIMUM] = 5;
    uint64_t *part = rows + RUTHGARWY_ROW_STORE_WORDS(1, ROWS);
    part[1 + 3]++; // 98 to 101
    short_row("5: a row of four minutes under a minimum of 5");
    part[1 + 3]--;

    // A recut writes the two last minutes into the plan, and no other word. Rows that end by 17 are then in lane 1.
    cuts[2] = 1;
    uint64_t after[RUTHGARWY_PLAN_WORDS];
    memcpy(after, plan, sizeof plan);
    cuts[1]--;
    told("recut to a calendar without end", recut(), 2, 0, 0);
    holds(!memcmp(plan, after, sizeof plan), "a refused recut leaves the plan", 0);
    cuts[1]++;
    told("recut", recut(), 0, 0, 0);
    after[RUTHGARWY_PLAN_LASTS] = 17;
    holds(plan[67] == 5, "the minimum after a recut", plan[67]);
    holds(!memcmp(plan, after, sizeof plan), "the other words of the plan after a recut", 0);
    static const shown by_17[] = {{6, 1, 10, 15}, {6, 3, 11, 15}};
    static const shown rest[] = {{5, 1, 15, 19}, {5, 3, 15, 19}, {9, 4, 95, 99}, {7, 4, 97, 101}};
    lane_holds("rows of lane 1 after a recut", 0, 2, by_17);
    lane_holds("rows of lane 2 after a recut", 1, 4, rest);

    // The minimum is still 5. Drawing 10, 14 to 18, has five minutes in common with each of spots 1, 2 and 3, and looks
    // at all four. Drawing 4 has made no row and takes none out; drawing 5 takes its two; both begin in lane 1. Spot 4,
    // which begins in lane 2, takes two and looks at the drawings there: at 7, 8, 9 and 10.
    insert(RUTHGARWY_OUTER, 10, 14, 18, 3, 4);
    withdraw(RUTHGARWY_OUTER, 4, 16, 30, 0, 4);
    withdraw(RUTHGARWY_OUTER, 5, 15, 30, 2, 4);
    withdraw(RUTHGARWY_INNER, 4, 90, 120, 2, 4);
    static const shown left[] = {{10, 1, 14, 18}, {10, 2, 14, 18}, {10, 3, 14, 18}};
    lane_holds("rows of lane 1 at the end", 0, 2, by_17);
    lane_holds("rows of lane 2 at the end", 1, 3, left);
}

// ---- the smallest minima, and the largest

// A pair that shares one minute, which shows as a flicker, makes a row with the minimum 1 and none with 2; a pair that
// shares two makes one with either; one that shares none makes none.
static void smallest(void)
{
    for (uint64_t minimum = 1; minimum <= 2; minimum++) {
        uint64_t one = minimum == 1;
        make_plan(minimum);
        told("open", ruthgarwy_open(SLICE(plan), STORES, ANSWER), 0, 0, 0);
        insert(RUTHGARWY_INNER, 1, 10, 20, 0, 0);
        insert(RUTHGARWY_OUTER, 2, 20, 30, one, 1);
        insert(RUTHGARWY_OUTER, 3, 15, 15, one, 1);
        insert(RUTHGARWY_OUTER, 4, 0, 11, 1, 1);
        insert(RUTHGARWY_OUTER, 5, 21, 30, 0, 1);
        static const shown all[] = {{4, 1, 10, 11}, {2, 1, 20, 20}, {3, 1, 15, 15}};
        lane_holds("rows of one minute", 0, one ? 3 : 1, all);
        // rows of one minute are not legal where the minimum is 2
        plan[RUTHGARWY_PLAN_MINIMUM] = 2;
        told("sweep", sweep(), one ? 5 : 0, one ? 0 : 1, one ? 0 : 4);
    }
}

static void largest(void)
{
    // The spot has 1,440 minutes, 1,000 to 2,439. Drawings 2 and 3 have one less of them, drawings 4 and 5 have all.
    make_plan(1440);
    told("open", ruthgarwy_open(SLICE(plan), STORES, ANSWER), 0, 0, 0);
    insert(RUTHGARWY_INNER, 1, 1000, 2439, 0, 0);
    insert(RUTHGARWY_OUTER, 2, 1001, 5000, 0, 1);
    insert(RUTHGARWY_OUTER, 3, 0, 2438, 0, 1);
    insert(RUTHGARWY_OUTER, 4, 0, 5000, 1, 1);
    insert(RUTHGARWY_OUTER, 5, 1000, 2439, 1, 1);
    // The calendar's last 1,440 minutes begin with 99,998,560. All is in lane 2.
    insert(RUTHGARWY_INNER, 6, 99998560, RUTHGARWY_LAST_MINUTE, 0, 4);
    insert(RUTHGARWY_OUTER, 7, 99998561, RUTHGARWY_LAST_MINUTE, 0, 2);
    insert(RUTHGARWY_OUTER, 8, 99998560, RUTHGARWY_LAST_MINUTE, 1, 2);
    static const shown all[] = {{4, 1, 1000, 2439}, {5, 1, 1000, 2439}, {8, 6, 99998560, RUTHGARWY_LAST_MINUTE}};
    lane_holds("no row in lane 1", 0, 0, all);
    lane_holds("rows of 1,440 minutes", 1, 3, all);
}

int main(void)
{
    refusals();
    wall();
    smallest();
    largest();
    printf("minimum: %u checks, all hold\n", checks);
    return 0;
}
