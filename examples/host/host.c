// A small host of the static library: opens a wall, inserts document 01's example, shows on an info screen how much
// hangs when, lists for the curators when a drawing was due and hung nowhere, asks what a sweep will take, sweeps, also
// for a hall whose projectors fade, withdraws, recuts with the drawings on the wall when the opening hours change, and
// prints each call's answer (its number and its counts), the rows where they change, the screens and the lists.
#include <inttypes.h>
#include <stdio.h>

#include "ruthgarwy.h"

enum { LANES = 3, TUPLES = 4, ROWS = 8 };
enum { AL = 38, LA = 313 }; // the labels AL: 26 * 1 + 12, and LA: 26 * 12 + 1

// every overlap makes a row: the minimum is 1
static uint64_t plan[RUTHGARWY_PLAN_WORDS] = {LANES, TUPLES, ROWS, 34, 40, RUTHGARWY_LAST_MINUTE,
                                              [RUTHGARWY_PLAN_MINIMUM] = 1};
static uint64_t outer[RUTHGARWY_TUPLE_STORE_WORDS(LANES, TUPLES)];
static uint64_t inner[RUTHGARWY_TUPLE_STORE_WORDS(LANES, TUPLES)];
static uint64_t rows[RUTHGARWY_ROW_STORE_WORDS(LANES, ROWS)];
static uint64_t outer_cache[RUTHGARWY_CACHE_WORDS(LANES, TUPLES)];
static uint64_t inner_cache[RUTHGARWY_CACHE_WORDS(LANES, TUPLES)];
static uint64_t answer[RUTHGARWY_ANSWER_WORDS];

// what a sweep will take: the rows of each lane, and an answer of its own kind
static uint64_t report[LANES];
static uint64_t required[RUTHGARWY_REQUIREMENTS_WORDS];

// the curators' list: a drawing has at most one gap more than rows, so this is enough for any drawings and rows that a
// wall of this size can hold
static uint64_t gaps[RUTHGARWY_GAP_WORDS(LANES * (TUPLES + ROWS))];

// a hall with the same lanes and room for one row in each
static const uint64_t small_plan[RUTHGARWY_PLAN_WORDS] = {LANES, TUPLES, 1, 34, 40, RUTHGARWY_LAST_MINUTE,
                                                          [RUTHGARWY_PLAN_MINIMUM] = 1};
static uint64_t small_rows[RUTHGARWY_ROW_STORE_WORDS(LANES, 1)];

// a hall with the same lanes whose projectors fade: less than five minutes would be a flicker
static const uint64_t fading_plan[RUTHGARWY_PLAN_WORDS] = {LANES, TUPLES, ROWS, 34, 40, RUTHGARWY_LAST_MINUTE,
                                                           [RUTHGARWY_PLAN_MINIMUM] = 5};
static uint64_t fading_rows[RUTHGARWY_ROW_STORE_WORDS(LANES, ROWS)];

// an array as a slice: its address and its length in words
#define SLICE(words) (words), sizeof(words) / sizeof((words)[0])

// what a loader says of a span that is refused
static const char *span_fault(uint64_t number)
{
    switch (number) {
    case RUTHGARWY_REVERSED:
        return ", the span was entered backward";
    case RUTHGARWY_LATE:
        return ", the span runs past the calendar";
    default:
        return "";
    }
}

static void told(const char *call, uint64_t number)
{
    printf("%s: number %" PRIu64 ", counts %" PRIu64 " %" PRIu64 "%s\n", call, number,
           answer[RUTHGARWY_ANSWER_CHANGED], answer[RUTHGARWY_ANSWER_EXAMINED], span_fault(number));
}

static void insert(uint64_t side, uint64_t item, uint64_t first, uint64_t last)
{
    uint64_t number = ruthgarwy_insert(SLICE(plan), side, AL, item, first, last, SLICE(outer), SLICE(inner),
                                       SLICE(rows), SLICE(answer));
    told(side == RUTHGARWY_OUTER ? "insert drawing" : "insert spot", number);
}

static void withdraw(uint64_t side, uint64_t item, uint64_t first, uint64_t last)
{
    uint64_t number = ruthgarwy_delete(SLICE(plan), side, AL, item, first, last, SLICE(outer), SLICE(inner),
                                       SLICE(rows), SLICE(answer));
    told(side == RUTHGARWY_OUTER ? "withdraw drawing" : "withdraw spot", number);
}

// Will the truck's list, which stands in stores 1 and 2, fit a hall? Prints what a sweep of it will take there.
static void ask(const uint64_t hall[RUTHGARWY_PLAN_WORDS])
{
    uint64_t number = ruthgarwy_requirements(hall, RUTHGARWY_PLAN_WORDS, SLICE(outer), SLICE(inner), SLICE(report),
                                             SLICE(required));
    printf("requirements: number %" PRIu64, number);
    printf(", drawings to carry %" PRIu64, required[RUTHGARWY_REQUIREMENTS_OUTER]);
    printf(", spots to carry %" PRIu64, required[RUTHGARWY_REQUIREMENTS_INNER]);
    printf(", pairs %" PRIu64 "\n", required[RUTHGARWY_REQUIREMENTS_PAIRS]);
    for (size_t lane = 0; lane < LANES; lane++)
        printf("  rows of lane %zu: %" PRIu64 ", %s\n", lane + 1, report[lane],
               report[lane] <= hall[RUTHGARWY_PLAN_ROWS] ? "they fit" : "they do not fit");
}

// A sweep in a hall, with that many words of the two caches lent.
static void sweep(const uint64_t hall[RUTHGARWY_PLAN_WORDS], uint64_t *hall_rows, size_t hall_rows_words,
                  size_t outer_words, size_t inner_words)
{
    uint64_t number = ruthgarwy_sweep(hall, RUTHGARWY_PLAN_WORDS, SLICE(outer), SLICE(inner), hall_rows,
                                      hall_rows_words, outer_cache, outer_words, inner_cache, inner_words,
                                      SLICE(answer));
    char call[80];
    snprintf(call, sizeof call, "sweep, caches of %zu and %zu words", outer_words, inner_words);
    told(call, number);
}

// New lanes for the wall as it hangs: refused, plan and stores are as they were.
static void recut(const uint64_t cuts[RUTHGARWY_CUT_WORDS])
{
    uint64_t number = ruthgarwy_repartition(SLICE(plan), cuts, RUTHGARWY_CUT_WORDS, SLICE(outer), SLICE(inner),
                                            SLICE(rows), SLICE(answer));
    told("recut", number);
    printf("  last minutes");
    for (size_t lane = 0; lane < LANES; lane++)
        printf(" %" PRIu64, plan[RUTHGARWY_PLAN_LASTS + lane]);
    printf("\n");
}

// The info screen: a list of questions, each a label, a minute and a place for the answer, asked in one go. Prints how
// many rows with that label hang at that minute, and how many rows were read for the whole list.
static void screen(uint64_t (*questions)[RUTHGARWY_QUESTION_WORDS], size_t count)
{
    uint64_t number = ruthgarwy_questions(SLICE(plan), SLICE(rows), questions[0], count * RUTHGARWY_QUESTION_WORDS,
                                          SLICE(answer));
    printf("questions: number %" PRIu64 ", rows read %" PRIu64 "\n", number, answer[RUTHGARWY_ANSWER_EXAMINED]);
    for (size_t k = 0; k < count; k++) {
        printf("  label %" PRIu64, questions[k][RUTHGARWY_QUESTION_LABEL]);
        printf(" at minute %" PRIu64, questions[k][RUTHGARWY_QUESTION_MINUTE]);
        printf(": %" PRIu64 "\n", questions[k][RUTHGARWY_QUESTION_ANSWER]);
    }
}

// How many records a store of that many words for each lane holds: the sum of its count words.
static size_t stored(const uint64_t *store, size_t lane_words)
{
    size_t records = 0;
    for (size_t lane = 0; lane < LANES; lane++)
        records += store[lane * lane_words];
    return records;
}

// How many records a hall's list has at the most: as many as there are drawings and rows in the hall together. A buffer
// that is too short is refused, and the refusal does not say how many records there are.
static size_t enough(const uint64_t *hall_rows)
{
    size_t drawings = stored(outer, RUTHGARWY_TUPLE_STORE_WORDS(1, TUPLES));
    return drawings + stored(hall_rows, RUTHGARWY_ROW_STORE_WORDS(1, ROWS));
}

// The curators' list, with room for that many records: the minutes when a drawing was due in a hall and hung nowhere.
static void missed(const uint64_t hall[RUTHGARWY_PLAN_WORDS], size_t records)
{
    uint64_t number = ruthgarwy_gaps(hall, RUTHGARWY_PLAN_WORDS, SLICE(outer), SLICE(inner), gaps,
                                     RUTHGARWY_GAP_WORDS(records), SLICE(answer));
    printf("gaps, room for %zu records: number %" PRIu64, records, number);
    printf(", records %" PRIu64 "\n", answer[RUTHGARWY_ANSWER_CHANGED]);
    for (uint64_t k = 0; k < answer[RUTHGARWY_ANSWER_CHANGED]; k++) {
        const uint64_t *gap = gaps + RUTHGARWY_GAP_WORDS(k);
        printf("  due and not hung: label %" PRIu64 ", drawing %" PRIu64, gap[0], gap[1]);
        printf(", minutes %" PRIu64 " to %" PRIu64 "\n", gap[2], gap[3]);
    }
}

static void print_rows(const uint64_t *hall_rows)
{
    for (size_t lane = 0; lane < LANES; lane++) {
        const uint64_t *part = hall_rows + lane * RUTHGARWY_ROW_STORE_WORDS(1, ROWS);
        for (uint64_t k = 0; k < part[0]; k++) {
            const uint64_t *row = part + 1 + k * RUTHGARWY_ROW_WORDS;
            printf("  lane %zu: label %" PRIu64, lane + 1, row[0]);
            printf(", drawing %" PRIu64 ", spot %" PRIu64, row[1], row[2]);
            printf(", minutes %" PRIu64 " to %" PRIu64 "\n", row[3], row[4]);
        }
    }
}

int main(void)
{
    // the lanes of other opening hours; all drawings in the first lane; last minutes that fall
    static const uint64_t cuts[RUTHGARWY_CUT_WORDS] = {31, 47, RUTHGARWY_LAST_MINUTE};
    static const uint64_t early[RUTHGARWY_CUT_WORDS] = {99, 199, RUTHGARWY_LAST_MINUTE};
    static const uint64_t falling[RUTHGARWY_CUT_WORDS] = {47, 31, RUTHGARWY_LAST_MINUTE};

    // what the info screen asks: of the whole day, with a label that hangs nowhere and a minute past the calendar; of
    // the evening; of the day again
    static uint64_t day[][RUTHGARWY_QUESTION_WORDS] = {
        {AL, 29}, {AL, 30}, {AL, 32}, {AL, 48}, {AL, 49}, {LA, 30}, {AL, RUTHGARWY_LAST_MINUTE + 1}};
    static uint64_t evening[][RUTHGARWY_QUESTION_WORDS] = {{AL, 48}, {AL, 41}, {LA, 50}};
    static uint64_t again[][RUTHGARWY_QUESTION_WORDS] = {{AL, 46}, {AL, 48}, {AL, 32}, {AL, 60}};

    told("open", ruthgarwy_open(SLICE(plan), SLICE(outer), SLICE(inner), SLICE(rows), SLICE(answer)));

    insert(RUTHGARWY_OUTER, 10, 30, 31);
    insert(RUTHGARWY_OUTER, 11, 32, 32);
    insert(RUTHGARWY_OUTER, 10, 33, 40);
    insert(RUTHGARWY_OUTER, 11, 41, 48);
    insert(RUTHGARWY_INNER, 1, 30, 35);
    insert(RUTHGARWY_INNER, 2, 36, 48);
    insert(RUTHGARWY_INNER, 3, 50, 49);                        // refused: entered backward
    insert(RUTHGARWY_INNER, 3, 50, RUTHGARWY_LAST_MINUTE + 1); // refused: past the calendar
    insert(RUTHGARWY_INNER, 3, RUTHGARWY_LAST_MINUTE + 2, RUTHGARWY_LAST_MINUTE + 1); // refused: both, told as backward
    print_rows(rows);
    screen(SLICE(day));
    screen(SLICE(evening)); // reads only what may hang then
    missed(plan, enough(rows)); // nothing: each drawing hangs throughout

    ask(plan);
    size_t outer_words = RUTHGARWY_NEED_WORDS(required[RUTHGARWY_REQUIREMENTS_OUTER]);
    size_t inner_words = RUTHGARWY_NEED_WORDS(required[RUTHGARWY_REQUIREMENTS_INNER]);
    sweep(plan, SLICE(rows), outer_words, inner_words);     // counts: the sum of those rows, and those pairs
    sweep(plan, SLICE(rows), outer_words, inner_words - 1); // refused: a cache is a word too short
    ask(small_plan);                                        // accepted: it only says which lanes are too small
    sweep(small_plan, SLICE(small_rows), outer_words, inner_words); // refused: two lanes are too small
    ask(fading_plan);
    sweep(fading_plan, SLICE(fading_rows), outer_words, inner_words); // fewer rows, and the same pairs
    print_rows(fading_rows);
    missed(fading_plan, enough(fading_rows)); // the minutes of the rows that are too short there
    missed(fading_plan, 2);                   // refused: they are three records
    sweep(fading_plan, SLICE(rows), outer_words, inner_words); // refused: rows stand there that last too short for it

    withdraw(RUTHGARWY_OUTER, 11, 32, 32);
    withdraw(RUTHGARWY_OUTER, 11, 32, 32); // refused: it is gone
    withdraw(RUTHGARWY_OUTER, 11, 32, RUTHGARWY_LAST_MINUTE + 1); // refused: past the calendar, so never there
    print_rows(rows);

    sweep(plan, SLICE(rows), RUTHGARWY_CACHE_WORDS(LANES, TUPLES), RUTHGARWY_CACHE_WORDS(LANES, TUPLES));
    print_rows(rows);

    recut(cuts); // what hangs moves to the new lanes
    print_rows(rows);
    insert(RUTHGARWY_OUTER, 12, 45, 47);
    insert(RUTHGARWY_OUTER, 13, 48, 60);
    print_rows(rows);
    screen(SLICE(again));
    missed(plan, enough(rows)); // drawing 13 runs past the last spot
    recut(falling); // refused: last minutes rise
    recut(early);   // refused: five drawings in a lane for four
    withdraw(RUTHGARWY_OUTER, 13, 48, 60);
    recut(early);
    print_rows(rows);
    return 0;
}
