// Minutes without a spot in a C host (document 02, (h)). All records, counts and numbers that must come were worked out
// by hand and stand here. Each list is asked for with a buffer of just its words, with longer ones, whose other words
// must stay, and with shorter ones, which must be refused with 19. Built and run by tests/host.sh. Prints 'gaps: N
// checks, all hold', or the first that does not, and exits 1.
#include <inttypes.h>
#include <stdio.h>
#include <stdlib.h>
#include <string.h>

#include "ruthgarwy.h"

// a record is a tuple's four words: label, drawing number, first, last
_Static_assert(RUTHGARWY_TUPLE_WORDS == 4 && RUTHGARWY_GAP_WORDS(3) == 12, "a record's words");
_Static_assert(RUTHGARWY_GAPS_SHORT == 19, "the number of a buffer that is too short");

enum { LANES = 3, TUPLES = 8, STORE = RUTHGARWY_TUPLE_STORE_WORDS(LANES, TUPLES), MOST = 24 };
enum { A = 1, B = 2, END = RUTHGARWY_LAST_MINUTE };
static const uint64_t Z8 = 217180147158; // the last label, ZZZZZZZZ
static const uint64_t HALF = 1ull << 32; // labels that differ by this are alike in their lower half

static uint64_t plan[RUTHGARWY_PLAN_WORDS], outer[STORE + 1], inner[STORE + 1], answer[RUTHGARWY_ANSWER_WORDS + 1];
static uint64_t gaps[RUTHGARWY_GAP_WORDS(MOST) + 16];

static unsigned checks;

static void holds(int right, const char *what, uint64_t about)
{
    checks++;
    if (!right) {
        printf("gaps: wrong: %s (%" PRIu64 ")\n", what, about);
        exit(1);
    }
}

typedef struct {
    uint64_t label, item, first, last;
} tuple;

typedef struct {
    size_t count;
    tuple at[MOST];
} list;

#define LIST(...) ((list){sizeof((tuple[]){__VA_ARGS__}) / sizeof(tuple), {__VA_ARGS__}})
#define NONE ((list){0, {{0}}})

// Three lanes: minutes 0 to 9, 10 to 19 and the rest. What is in the places beyond does not matter.
static void three_lanes(uint64_t minimum)
{
    for (size_t place = 0; place < RUTHGARWY_PLAN_WORDS; place++)
        plan[place] = 7000 + place;
    plan[RUTHGARWY_PLAN_LANES] = LANES, plan[RUTHGARWY_PLAN_TUPLES] = TUPLES, plan[RUTHGARWY_PLAN_ROWS] = 1;
    plan[RUTHGARWY_PLAN_LASTS] = 9, plan[RUTHGARWY_PLAN_LASTS + 1] = 19, plan[RUTHGARWY_PLAN_LASTS + 2] = END;
    plan[RUTHGARWY_PLAN_MINIMUM] = minimum;
}

// The tuples go to the lanes that contain their last minutes, in the order of the list.
static void store(uint64_t *words, list tuples)
{
    memset(words, 0, (STORE + 1) * sizeof *words);
    for (size_t k = 0; k < tuples.count; k++) {
        const tuple t = tuples.at[k];
        uint64_t *lane = words + RUTHGARWY_TUPLE_STORE_WORDS(t.last < 10 ? 0 : t.last < 20 ? 1 : 2, TUPLES);
        memcpy(lane + 1 + RUTHGARWY_TUPLE_WORDS * lane[0]++, &t, sizeof t);
    }
}

static uint64_t junk(size_t w) { return 0xabcd000000000000 + 31 * w; }

// One call with a buffer of that many words: that number, so many records, and of the buffer only they are written. The
// plan and the stores stay as they are.
static void called(const char *what, size_t words, uint64_t number, list wanted)
{
    const uint64_t none = 0xeeeeeeeeeeeeeeee, records = number ? 0 : wanted.count;
    static uint64_t plan_before[RUTHGARWY_PLAN_WORDS], outer_before[STORE + 1], inner_before[STORE + 1];
    memcpy(plan_before, plan, sizeof plan);
    memcpy(outer_before, outer, sizeof outer), memcpy(inner_before, inner, sizeof inner);
    for (size_t w = 0; w < sizeof gaps / sizeof *gaps; w++)
        gaps[w] = junk(w);
    memset(answer, 0xee, sizeof answer);
    uint64_t got = ruthgarwy_gaps(plan, RUTHGARWY_PLAN_WORDS, outer, STORE, inner, STORE, gaps, words, answer,
                                  RUTHGARWY_ANSWER_WORDS);
    holds(got == number && answer[RUTHGARWY_ANSWER_NUMBER] == number, what, got);
    holds(answer[RUTHGARWY_ANSWER_CHANGED] == records, what, answer[RUTHGARWY_ANSWER_CHANGED]);
    holds(answer[RUTHGARWY_ANSWER_EXAMINED] == 0 && answer[3] == none, what, answer[RUTHGARWY_ANSWER_EXAMINED]);
    uint64_t record[RUTHGARWY_GAP_WORDS(MOST)];
    memcpy(record, wanted.at, sizeof record);
    for (size_t w = 0; w < sizeof gaps / sizeof *gaps; w++)
        holds(gaps[w] == (w < RUTHGARWY_GAP_WORDS(records) ? record[w] : junk(w)), what, w);
    holds(!memcmp(plan_before, plan, sizeof plan), what, 1);
    holds(!memcmp(outer_before, outer, sizeof outer) && !memcmp(inner_before, inner, sizeof inner), what, 2);
}

// These drawings and spots give these records: in a buffer of just their words, in longer ones, also of no whole number
// of records; and none where a word, a record or all is missing.
static void listed(const char *what, list drawings, list spots, list wanted)
{
    size_t words = RUTHGARWY_GAP_WORDS(wanted.count);
    store(outer, drawings), store(inner, spots);
    called(what, words, 0, wanted);
    for (size_t more = 1; more <= 9; more++)
        called(what, words + more, 0, wanted);
    called(what, sizeof gaps / sizeof *gaps, 0, wanted);
    for (size_t less = 1; less <= 5 && less <= words; less++)
        called(what, words - less, RUTHGARWY_GAPS_SHORT, wanted);
    if (words)
        called(what, 0, RUTHGARWY_GAPS_SHORT, wanted);
}

// One drawing, number 7, from minute 5 to 15, which is in the second lane.
static void one(const char *what, list spots, list wanted)
{
    listed(what, LIST({A, 7, 5, 15}), spots, wanted);
}

static void of_one_drawing(void)
{
    listed("nothing stored", NONE, NONE, NONE);
    listed("spots alone", NONE, LIST({A, 1, 0, 9}, {A, 2, 10, END}), NONE);
    one("no spot", NONE, LIST({A, 7, 5, 15}));
    one("spots before and after", LIST({A, 1, 0, 4}, {A, 2, 16, 16}), LIST({A, 7, 5, 15}));
    one("hung throughout on an equal span", LIST({A, 1, 5, 15}), NONE);
    one("on a longer one", LIST({A, 1, 4, 16}), NONE);
    one("on the whole calendar", LIST({A, 1, 0, END}), NONE);
    one("on two that overlap", LIST({A, 1, 5, 11}, {A, 2, 8, 15}), NONE);
    one("on two that touch", LIST({A, 1, 5, 9}, {A, 2, 10, 15}), NONE);
    one("on two that touch, the later one first", LIST({A, 1, 13, 15}, {A, 2, 5, 12}), NONE);
    one("on many that touch", LIST({A, 1, 15, 15}, {A, 2, 11, 14}, {A, 3, 5, 5}, {A, 4, 6, 6}, {A, 5, 7, 10}), NONE);
    one("a minute at the front", LIST({A, 1, 6, 15}), LIST({A, 7, 5, 5}));
    one("a minute in the middle", LIST({A, 1, 5, 9}, {A, 2, 11, 15}), LIST({A, 7, 10, 10}));
    one("a minute at the end", LIST({A, 1, 5, 14}), LIST({A, 7, 15, 15}));
    one("a minute at each place", LIST({A, 1, 6, 9}, {A, 2, 11, 14}),
        LIST({A, 7, 5, 5}, {A, 7, 10, 10}, {A, 7, 15, 15}));
    one("every other minute", LIST({A, 1, 14, 14}, {A, 2, 12, 12}, {A, 3, 10, 10}, {A, 4, 8, 8}, {A, 5, 6, 6}),
        LIST({A, 7, 5, 5}, {A, 7, 7, 7}, {A, 7, 9, 9}, {A, 7, 11, 11}, {A, 7, 13, 13}, {A, 7, 15, 15}));
    one("the front", LIST({A, 1, 9, 20}), LIST({A, 7, 5, 8}));
    one("the end", LIST({A, 1, 0, 9}), LIST({A, 7, 10, 15}));
    one("front, middle and end", LIST({A, 1, 12, 13}, {A, 2, 7, 8}),
        LIST({A, 7, 5, 6}, {A, 7, 9, 11}, {A, 7, 14, 15}));
    one("rows inside a row", LIST({A, 1, 8, 9}, {A, 2, 7, 13}, {A, 3, 12, 13}, {A, 4, 7, 7}),
        LIST({A, 7, 5, 6}, {A, 7, 14, 15}));
    one("rows inside a row, that one first", LIST({A, 2, 7, 13}, {A, 1, 8, 9}, {A, 3, 12, 13}, {A, 4, 7, 7}),
        LIST({A, 7, 5, 6}, {A, 7, 14, 15}));
    one("rows that begin together", LIST({A, 1, 6, 6}, {A, 2, 6, 10}, {A, 3, 6, 8}),
        LIST({A, 7, 5, 5}, {A, 7, 11, 15}));
    one("rows that end together", LIST({A, 1, 9, 12}, {A, 2, 7, 12}, {A, 3, 11, 12}),
        LIST({A, 7, 5, 6}, {A, 7, 13, 15}));
    one("a chain of overlaps", LIST({A, 3, 9, 11}, {A, 1, 6, 8}, {A, 2, 7, 9}), LIST({A, 7, 5, 5}, {A, 7, 12, 15}));
    one("equal spots", LIST({A, 1, 6, 8}, {A, 1, 6, 8}), LIST({A, 7, 5, 5}, {A, 7, 9, 15}));
    one("another label", LIST({B, 7, 5, 15}), LIST({A, 7, 5, 15}));
    one("labels alike in their lower half", LIST({A + HALF, 7, 5, 15}), LIST({A, 7, 5, 15}));
    one("another label within a gap", LIST({A, 1, 5, 8}, {B, 2, 9, 12}, {A, 3, 13, 15}), LIST({A, 7, 9, 12}));
    listed("the last label", LIST({Z8, 999999, 5, 15}), LIST({Z8 - 1, 1, 5, 9}, {Z8, 2, 10, 12}),
           LIST({Z8, 999999, 5, 9}, {Z8, 999999, 13, 15}));
    listed("the first drawing number", LIST({A, 0, 5, 15}), LIST({A, 0, 5, 14}), LIST({A, 0, 15, 15}));
}

// Spots lie in the lanes of their own last minutes.
static void of_lanes(void)
{
    listed("a long spot in a lane above", LIST({A, 7, 5, 8}), LIST({A, 1, 0, END}), NONE);
    listed("a spot in the next lane", LIST({A, 7, 5, 8}), LIST({A, 1, 7, 12}), LIST({A, 7, 5, 6}));
    listed("spots in three lanes", LIST({A, 7, 0, END}), LIST({A, 1, 18, 30}, {A, 2, 3, 12}, {A, 3, 2, 4}),
           LIST({A, 7, 0, 1}, {A, 7, 13, 17}, {A, 7, 31, END}));
    listed("spots that touch where lanes do", LIST({A, 7, 0, 25}),
           LIST({A, 1, 0, 9}, {A, 2, 10, 19}, {A, 3, 20, 25}), NONE);
    listed("gaps next to where lanes touch", LIST({A, 7, 0, 25}), LIST({A, 1, 0, 8}, {A, 2, 11, 18}, {A, 3, 21, 25}),
           LIST({A, 7, 9, 10}, {A, 7, 19, 20}));
    listed("a gap that is a lane", LIST({A, 7, 0, 25}), LIST({A, 1, 0, 9}, {A, 3, 20, 25}), LIST({A, 7, 10, 19}));
    listed("spots of lanes below the drawing's", LIST({A, 7, 2, 30}), LIST({A, 1, 0, 4}, {A, 2, 9, 11}),
           LIST({A, 7, 5, 8}, {A, 7, 12, 30}));
    listed("the calendar's first minute", LIST({A, 7, 0, 0}), NONE, LIST({A, 7, 0, 0}));
    listed("hung there", LIST({A, 7, 0, 0}), LIST({A, 1, 0, 0}), NONE);
    listed("the calendar's last minute", LIST({A, 7, END, END}), NONE, LIST({A, 7, END, END}));
    listed("hung there", LIST({A, 7, END, END}), LIST({A, 1, END, END}), NONE);
    listed("all but these two", LIST({A, 7, 0, END}), LIST({A, 1, 0, 0}, {A, 2, END, END}), LIST({A, 7, 1, END - 1}));
    listed("these two alone", LIST({A, 7, 0, END}), LIST({A, 1, 1, END - 1}), LIST({A, 7, 0, 0}, {A, 7, END, END}));
    listed("the whole calendar", LIST({A, 7, 0, END}), LIST({B, 1, 0, END}), LIST({A, 7, 0, END}));
    listed("the whole calendar hung", LIST({A, 7, 0, END}), LIST({A, 1, 0, END}), NONE);
}

// Each stored drawing has its own rows and its own records, in store order: by lanes, and in a lane as they stand
// there.
static void of_drawings(void)
{
    const list spot = LIST({A, 1, 6, 12});
    listed("equal drawings", LIST({A, 7, 5, 15}, {A, 7, 5, 15}), spot,
           LIST({A, 7, 5, 5}, {A, 7, 13, 15}, {A, 7, 5, 5}, {A, 7, 13, 15}));
    listed("drawings that differ in span alone", LIST({A, 7, 5, 15}, {A, 7, 6, 13}, {A, 7, 4, 12}, {A, 7, 6, 12}), spot,
           LIST({A, 7, 5, 5}, {A, 7, 13, 15}, {A, 7, 13, 13}, {A, 7, 4, 5}));
    listed("drawings that differ in number alone", LIST({A, 9, 5, 12}, {A, 8, 5, 12}), spot,
           LIST({A, 9, 5, 5}, {A, 8, 5, 5}));
    listed("another label between", LIST({A, 7, 5, 12}, {B, 7, 5, 12}, {A, 7, 5, 12}), spot,
           LIST({A, 7, 5, 5}, {B, 7, 5, 12}, {A, 7, 5, 5}));
    listed("store order is by lanes",
           LIST({A, 3, 20, 30}, {A, 4, 0, 3}, {B, 1, 1, 19}, {A, 2, 1, 40}, {A, 1, 2, 9}), spot,
           LIST({A, 4, 0, 3}, {A, 1, 2, 5}, {B, 1, 1, 19}, {A, 3, 20, 30}, {A, 2, 1, 5}, {A, 2, 13, 40}));
    listed("drawings with none between",
           LIST({A, 1, 6, 6}, {A, 2, 5, 6}, {A, 3, 7, 9}, {A, 4, 12, 13}, {A, 5, 8, 12}), spot,
           LIST({A, 2, 5, 5}, {A, 4, 13, 13}));
    listed("a lane full on both sides",
           LIST({A, 1, 10, 19}, {A, 2, 10, 19}, {A, 3, 10, 19}, {A, 4, 10, 19}, {A, 5, 10, 19}, {A, 6, 10, 19},
                {A, 7, 10, 19}, {A, 8, 10, 19}),
           LIST({A, 1, 11, 11}, {A, 2, 12, 12}, {A, 3, 13, 13}, {A, 4, 15, 15}, {A, 5, 16, 16}, {A, 6, 17, 17},
                {A, 7, 18, 18}, {A, 8, 19, 19}),
           LIST({A, 1, 10, 10}, {A, 1, 14, 14}, {A, 2, 10, 10}, {A, 2, 14, 14}, {A, 3, 10, 10}, {A, 3, 14, 14},
                {A, 4, 10, 10}, {A, 4, 14, 14}, {A, 5, 10, 10}, {A, 5, 14, 14}, {A, 6, 10, 10}, {A, 6, 14, 14},
                {A, 7, 10, 10}, {A, 7, 14, 14}, {A, 8, 10, 10}, {A, 8, 14, 14}));
}

// What two have in common makes a row only from the minimum's minutes on; below that it is a gap.
static void of_minima(void)
{
    three_lanes(3);
    one("two minutes in common", LIST({A, 1, 5, 6}), LIST({A, 7, 5, 15}));
    one("three minutes", LIST({A, 1, 5, 7}), LIST({A, 7, 8, 15}));
    one("two minutes at the end of a long spot", LIST({A, 1, 0, 6}), LIST({A, 7, 5, 15}));
    one("three", LIST({A, 1, 0, 7}), LIST({A, 7, 8, 15}));
    one("two minutes at its start", LIST({A, 1, 14, 40}), LIST({A, 7, 5, 15}));
    one("three", LIST({A, 1, 13, 40}), LIST({A, 7, 5, 12}));
    one("short overlaps side by side", LIST({A, 1, 5, 6}, {A, 2, 7, 8}, {A, 3, 9, 10}), LIST({A, 7, 5, 15}));
    one("a short one between two rows", LIST({A, 1, 5, 8}, {A, 2, 9, 10}, {A, 3, 11, 15}), LIST({A, 7, 9, 10}));
    one("a short one that laps over a row", LIST({A, 1, 5, 8}, {A, 2, 8, 9}), LIST({A, 7, 9, 15}));
    one("all rows of three minutes", LIST({A, 1, 5, 7}, {A, 2, 8, 10}, {A, 3, 11, 13}, {A, 4, 13, 15}), NONE);
    listed("a drawing that is too short", LIST({A, 7, 5, 6}), LIST({A, 1, 0, END}), LIST({A, 7, 5, 6}));
    listed("a drawing that is just long enough", LIST({A, 7, 5, 7}), LIST({A, 1, 0, END}), NONE);
    three_lanes(1);
    one("a minute in common, with the least minimum", LIST({A, 1, 5, 5}, {A, 2, 15, 40}), LIST({A, 7, 6, 14}));
    three_lanes(1440);
    listed("1,440 minutes, with the most", LIST({A, 7, 0, 5000}),
           LIST({A, 1, 100, 1539}, {A, 2, 3000, 4438}, {A, 3, 3561, 9000}),
           LIST({A, 7, 0, 99}, {A, 7, 1540, 3560}));
    three_lanes(1);
    plan[RUTHGARWY_PLAN_ROWS] = 4096;
    one("another row capacity", LIST({A, 1, 6, 15}), LIST({A, 7, 5, 5}));
    three_lanes(1);
}

// Refused with that number, lent so many words of each: only the answer is written, where it has three words.
static void refused(const char *what, uint64_t number, size_t plan_words, size_t outer_words, size_t inner_words,
                    size_t words, size_t answered)
{
    const uint64_t said[] = {number, 0, 0, 5555};
    static uint64_t plan_before[RUTHGARWY_PLAN_WORDS], outer_before[STORE + 1], inner_before[STORE + 1];
    memcpy(plan_before, plan, sizeof plan);
    memcpy(outer_before, outer, sizeof outer), memcpy(inner_before, inner, sizeof inner);
    for (size_t w = 0; w < sizeof gaps / sizeof *gaps; w++)
        gaps[w] = junk(w);
    for (size_t w = 0; w < 4; w++)
        answer[w] = 5555;
    uint64_t got = ruthgarwy_gaps(plan, plan_words, outer, outer_words, inner, inner_words, gaps, words, answer,
                                  answered);
    holds(got == number, what, got);
    for (size_t w = 0; w < 4; w++)
        holds(answer[w] == (answered == RUTHGARWY_ANSWER_WORDS ? said[w] : 5555), what, w);
    for (size_t w = 0; w < sizeof gaps / sizeof *gaps; w++)
        holds(gaps[w] == junk(w), what, w);
    holds(!memcmp(plan_before, plan, sizeof plan), what, 1);
    holds(!memcmp(outer_before, outer, sizeof outer) && !memcmp(inner_before, inner, sizeof inner), what, 2);
}

// The wall of the refusals: two records, eight words.
static void make_wall(void)
{
    three_lanes(1);
    store(outer, LIST({A, 7, 5, 15})), store(inner, LIST({A, 1, 7, 12}));
}

// One word of a store made wrong: 5, whatever the buffer's length, and 4 before it.
static void unsound(const char *what, uint64_t *words, size_t place, uint64_t word)
{
    make_wall();
    uint64_t *lane = words + RUTHGARWY_TUPLE_STORE_WORDS(1, TUPLES);
    lane[place] = word;
    refused(what, 5, 68, STORE, STORE, 8, 3);
    refused(what, 5, 68, STORE, STORE, 64, 3);
    refused(what, 5, 68, STORE, STORE, 7, 3); // before 19
    refused(what, 5, 68, STORE, STORE, 0, 3);
    refused(what, 4, 68, STORE, STORE, 8, 2); // after 4
    refused(what, 4, 68, STORE - 1, STORE, 8, 3);
    refused(what, 4, 68, STORE, STORE + 1, 8, 3);
    make_wall();
}

static void refusals(void)
{
    make_wall();
    called("two records", 8, 0, LIST({A, 7, 5, 6}, {A, 7, 13, 15}));
    for (size_t words = 0; words < 8; words++)
        refused("19: a buffer that is too short", 19, 68, STORE, STORE, words, 3);
    for (size_t words = 0; words <= 9; words += 3) {
        refused("4: a plan of 67 words", 4, 67, STORE, STORE, words, 3);
        refused("4: a plan of no words", 4, 0, STORE, STORE, words, 3);
        refused("4: store 1 a word too short", 4, 68, STORE - 1, STORE, words, 3);
        refused("4: store 1 a word too long", 4, 68, STORE + 1, STORE, words, 3);
        refused("4: store 2 a word too short", 4, 68, STORE, STORE - 1, words, 3);
        refused("4: store 2 a word too long", 4, 68, STORE, STORE + 1, words, 3);
        refused("4: stores of no words", 4, 68, 0, 0, words, 3);
        refused("4: an answer of two words", 4, 68, STORE, STORE, words, 2);
        refused("4: an answer of four words", 4, 68, STORE, STORE, words, 4);
        refused("4: an answer of no words", 4, 68, STORE, STORE, words, 0);
    }
    uint64_t *const stores[] = {outer, inner};
    for (size_t side = 0; side < 2; side++) {
        unsound("5: a count past capacity", stores[side], 0, TUPLES + 1);
        unsound("5: a large count", stores[side], 0, UINT64_MAX);
        unsound("5: a tuple that is not counted", stores[side], 0, 0);
        unsound("5: a counted record of zeros", stores[side], 0, 2);
        unsound("5: a word behind the tuples", stores[side], 4 * TUPLES, 1);
        unsound("5: no label", stores[side], 1, 0);
        unsound("5: a label past the last", stores[side], 1, Z8 + 1);
        unsound("5: a number past the last", stores[side], 2, 1000000);
        unsound("5: first after last", stores[side], 3, 16);
        unsound("5: a tuple of the lane below", stores[side], 4, 9);
        unsound("5: a tuple of the lane above", stores[side], 4, 20);
    }
    outer[STORE - 1] = 1;
    refused("5: the last word of store 1", 5, 68, STORE, STORE, 8, 3);
    outer[STORE - 1] = 0, inner[STORE - 1] = 1;
    refused("5: the last word of store 2", 5, 68, STORE, STORE, 8, 3);
    store(outer, NONE);
    refused("5: without a drawing", 5, 68, STORE, STORE, 0, 3);
    // the plan's own, each before those above and before 4, but for a plan of another length
    plan[RUTHGARWY_PLAN_MINIMUM] = 0;
    refused("18: the minimum", 18, 68, STORE, STORE, 8, 3);
    plan[RUTHGARWY_PLAN_MINIMUM] = 1441;
    refused("18: the minimum", 18, 68, STORE, STORE, 8, 3);
    refused("18: the minimum, before 4 and 19", 18, 68, STORE - 1, STORE, 0, 3);
    refused("18: the minimum, before 4", 18, 68, STORE, STORE, 8, 2);
    plan[RUTHGARWY_PLAN_ROWS] = 4097;
    refused("3: the row capacity", 3, 68, STORE, STORE, 8, 3);
    plan[RUTHGARWY_PLAN_ROWS] = 0;
    refused("3: the row capacity", 3, 68, STORE, STORE, 8, 4);
    plan[RUTHGARWY_PLAN_ROWS] = 1, plan[RUTHGARWY_PLAN_TUPLES] = 513;
    refused("3: the tuple capacity", 3, 68, STORE, STORE + 1, 8, 3);
    plan[RUTHGARWY_PLAN_LASTS + 1] = 9;
    refused("2: last minutes that do not rise", 2, 68, STORE, STORE, 8, 3);
    refused("2: last minutes that do not rise, before 4", 2, 68, STORE, STORE, 8, 4);
    plan[RUTHGARWY_PLAN_LANES] = 65;
    refused("1: too many lanes", 1, 68, STORE, STORE, 8, 3);
    plan[RUTHGARWY_PLAN_LANES] = 0;
    refused("1: no lane", 1, 68, STORE, STORE, 8, 2);
    refused("4: a plan of 67 words, before 1", 4, 67, STORE, STORE, 8, 3);
    refused("4: a plan of 67 words, and an answer of two", 4, 67, STORE, STORE, 8, 2);
}

// the largest plan, and room for the longer of the two lists below
enum { SIDE = RUTHGARWY_TUPLE_STORE_WORDS(64, 512), RECORDS = 64 * (5 + 2 * 296 + 3 * 211) };
static uint64_t wide_plan[RUTHGARWY_PLAN_WORDS] = {64, 512, 1, [RUTHGARWY_PLAN_MINIMUM] = 1};
static uint64_t wide_outer[SIDE], wide_inner[SIDE], wide_gaps[RUTHGARWY_GAP_WORDS(RECORDS) + 1];

// lent room for so many records, and so many words more or less
static uint64_t wide_call(size_t records, int more)
{
    wide_gaps[RUTHGARWY_GAP_WORDS(records)] = 77;
    return ruthgarwy_gaps(wide_plan, RUTHGARWY_PLAN_WORDS, wide_outer, SIDE, wide_inner, SIDE, wide_gaps,
                          RUTHGARWY_GAP_WORDS(records) + (size_t)more, answer, RUTHGARWY_ANSWER_WORDS);
}

// The largest plan, lanes of 1,000 minutes and the rest. First one drawing over the whole calendar and 64 spots in each
// lane, of one minute, ten minutes apart: a gap before each, and one after the last. Then 512 drawings in each lane,
// which begin with it and end on its minutes 0 to 511, and spots over minutes 3 to 4 and over minute 300 of each lane.
// The first three drawings hang nowhere, the next two miss minutes 0 to 2, those after these also minutes 5 to 299, as
// far as they go, and those that go past minute 300 also what follows it.
static void largest(void)
{
    for (uint64_t lane = 0; lane < 64; lane++) {
        uint64_t *part = wide_inner + RUTHGARWY_TUPLE_STORE_WORDS(lane, 512);
        wide_plan[RUTHGARWY_PLAN_LASTS + lane] = lane < 63 ? 1000 * lane + 999 : END;
        for (uint64_t k = 0; k < 64; k++) {
            const tuple spot = {Z8, k, 1000 * lane + 10 * k + 5, 1000 * lane + 10 * k + 5};
            memcpy(part + 1 + RUTHGARWY_TUPLE_WORDS * part[0]++, &spot, sizeof spot);
        }
    }
    uint64_t *top = wide_outer + RUTHGARWY_TUPLE_STORE_WORDS(63, 512);
    const tuple whole = {Z8, 999999, 0, END};
    top[0] = 1, memcpy(top + 1, &whole, sizeof whole);
    const size_t records = 64 * 64 + 1;
    holds(wide_call(records, -1) == 19 && answer[1] == 0 && wide_gaps[0] == 0, "largest: a word too short", answer[1]);
    holds(wide_call(records, 1) == 0 && answer[1] == records, "largest: gaps of one drawing", answer[1]);
    holds(wide_gaps[RUTHGARWY_GAP_WORDS(records)] == 77, "largest: the word after them", 0);
    uint64_t first = 0;
    for (size_t k = 0; k < records; k++) {
        uint64_t last = k + 1 < records ? 1000 * (k / 64) + 10 * (k % 64) + 4 : END;
        const tuple gap = {Z8, 999999, first, last};
        holds(!memcmp(wide_gaps + RUTHGARWY_GAP_WORDS(k), &gap, sizeof gap), "largest: a gap of one drawing", k);
        first = last + 2;
    }
    memset(wide_inner, 0, sizeof wide_inner);
    for (uint64_t lane = 0; lane < 64; lane++) {
        uint64_t *drawings = wide_outer + RUTHGARWY_TUPLE_STORE_WORDS(lane, 512), begin = 1000 * lane;
        uint64_t *spots = wide_inner + RUTHGARWY_TUPLE_STORE_WORDS(lane, 512);
        const tuple two[] = {{A, 1, begin + 300, begin + 300}, {A, 2, begin + 3, begin + 4}};
        drawings[0] = 512, spots[0] = 2, memcpy(spots + 1, two, sizeof two);
        for (uint64_t k = 0; k < 512; k++) {
            const tuple drawing = {A, k, begin, begin + k};
            memcpy(drawings + 1 + RUTHGARWY_TUPLE_WORDS * k, &drawing, sizeof drawing);
        }
    }
    // of a lane's drawings 0 to 4 give one record each, 5 to 300 two, 301 to 511 three
    holds(wide_call(RECORDS, -1) == 19 && answer[1] == 0, "largest: a word too short", answer[1]);
    holds(wide_call(RECORDS, 0) == 0 && answer[1] == 78720, "largest: gaps of all drawings", answer[1]);
    holds(answer[2] == 0 && wide_gaps[RUTHGARWY_GAP_WORDS(RECORDS)] == 77, "largest: the word after them", answer[2]);
    const uint64_t *at = wide_gaps;
    for (uint64_t lane = 0; lane < 64; lane++)
        for (uint64_t k = 0; k < 512; k++) {
            const uint64_t begin = 1000 * lane, count = k < 5 ? 1 : k < 301 ? 2 : 3;
            const tuple wanted[] = {{A, k, begin, begin + (k < 3 ? k : 2)},
                                    {A, k, begin + 5, begin + (k < 300 ? k : 299)},
                                    {A, k, begin + 301, begin + k}};
            holds(!memcmp(at, wanted, count * sizeof *wanted), "largest: the gaps of a drawing", k);
            at += RUTHGARWY_GAP_WORDS(count);
        }
}

int main(void)
{
    three_lanes(1);
    of_one_drawing();
    of_lanes();
    of_drawings();
    of_minima();
    refusals();
    largest();
    printf("gaps: %u checks, all hold\n", checks);
    return 0;
}
