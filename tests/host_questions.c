// A screenful of questions in a C host (document 02, (g)). All numbers, answers and rows read that must come were
// worked out by hand and stand here. Built and run by tests/host.sh. Prints 'questions: N checks, all hold', or the
// first that does not, and exits 1.
#include <inttypes.h>
#include <stdio.h>
#include <stdlib.h>
#include <string.h>

#include "ruthgarwy.h"

// a question is three words: label, minute, answer
_Static_assert(RUTHGARWY_QUESTION_WORDS == 3 && RUTHGARWY_QUESTION_LABEL == 0, "a question's words");
_Static_assert(RUTHGARWY_QUESTION_MINUTE == 1 && RUTHGARWY_QUESTION_ANSWER == 2, "the places in a question");

enum { LANES = 3, ROWS = 4, LONGEST = 32, STORE = RUTHGARWY_ROW_STORE_WORDS(LANES, ROWS) };
enum { A = 1, B = 2, C = 3, END = RUTHGARWY_LAST_MINUTE };
static const uint64_t Z8 = 217180147158; // the last label, ZZZZZZZZ

static uint64_t plan[RUTHGARWY_PLAN_WORDS], rows[STORE + 1], answer[RUTHGARWY_ANSWER_WORDS + 1];
static uint64_t lent[RUTHGARWY_QUESTION_WORDS * LONGEST];

static unsigned checks;

static void holds(int right, const char *what, uint64_t about)
{
    checks++;
    if (!right) {
        printf("questions: wrong: %s (%" PRIu64 ")\n", what, about);
        exit(1);
    }
}

// Three lanes: minutes 0 to 9, 10 to 19 and the rest, with 2, 4 and 2 rows. One row stands there twice.
static void make_wall(void)
{
    const uint64_t lasts[LANES] = {9, 19, END}, counts[LANES] = {2, 4, 2};
    const uint64_t stored[][RUTHGARWY_ROW_WORDS] = {
        {A, 1, 1, 0, 9},     {A, 1, 2, 5, 5},                                         // lane 1
        {A, 2, 1, 0, 10},    {A, 3, 1, 10, 19}, {A, 3, 1, 10, 19}, {B, 1, 9, 19, 19}, // lane 2
        {Z8, 4, 4, 20, END}, {A, 9, 1, 9, END}};                                      // lane 3
    for (size_t place = 0; place < RUTHGARWY_PLAN_WORDS; place++)
        plan[place] = 7000 + place;
    plan[RUTHGARWY_PLAN_LANES] = LANES, plan[RUTHGARWY_PLAN_TUPLES] = 1, plan[RUTHGARWY_PLAN_ROWS] = ROWS;
    plan[RUTHGARWY_PLAN_MINIMUM] = 1;
    memset(rows, 0, sizeof rows);
    for (size_t lane = 0, k = 0; lane < LANES; k += counts[lane++]) {
        uint64_t *part = rows + lane * RUTHGARWY_ROW_STORE_WORDS(1, ROWS);
        plan[RUTHGARWY_PLAN_LASTS + lane] = lasts[lane], part[0] = counts[lane];
        memcpy(part + 1, stored[k], counts[lane] * sizeof stored[0]);
    }
}

// a question, the answer that must come, and the rows that must be read if it is asked alone
typedef struct {
    uint64_t label, minute, answer, read;
} question;

// These questions, over answers of any kind: accepted, with those answers and that many rows read. Every other word
// stays as it is.
static void asked(const char *what, size_t count, const question *list, uint64_t read)
{
    const uint64_t olds[] = {0, 1, 262144, UINT64_MAX}, none = 0xeeeeeeeeeeeeeeee;
    uint64_t want[sizeof lent / sizeof *lent], rows_before[STORE + 1], plan_before[RUTHGARWY_PLAN_WORDS];
    memcpy(rows_before, rows, sizeof rows), memcpy(plan_before, plan, sizeof plan);
    for (size_t old = 0; old < 4; old++) {
        memset(lent, 0xee, sizeof lent), memset(want, 0xee, sizeof want), memset(answer, 0xee, sizeof answer);
        for (size_t k = 0; k < count; k++) {
            uint64_t *q = lent + RUTHGARWY_QUESTION_WORDS * k, *w = want + RUTHGARWY_QUESTION_WORDS * k;
            q[0] = w[0] = list[k].label, q[1] = w[1] = list[k].minute, q[2] = olds[old], w[2] = list[k].answer;
        }
        uint64_t got = ruthgarwy_questions(plan, RUTHGARWY_PLAN_WORDS, rows, STORE, lent,
                                           RUTHGARWY_QUESTION_WORDS * count, answer, RUTHGARWY_ANSWER_WORDS);
        holds(got == 0 && answer[0] == 0 && answer[1] == 0 && answer[3] == none, what, got);
        holds(answer[RUTHGARWY_ANSWER_EXAMINED] == read, what, answer[RUTHGARWY_ANSWER_EXAMINED]);
        for (size_t w = 0; w < sizeof want / sizeof *want; w++)
            holds(lent[w] == want[w], what, w);
        holds(!memcmp(rows_before, rows, sizeof rows) && !memcmp(plan_before, plan, sizeof plan), what, 0);
    }
}

static void answers(void)
{
    const uint64_t half = 1ull << 32;
    const question list[] = {
        {A, 20, 1, 2}, {A, END, 1, 2}, // 9 to the end; both rows of lane 3 are read
        {A, 19, 3, 6}, {A, 11, 3, 6},  // and twice 10 to 19; the rows of lane 2 are read too
        {A, 10, 4, 6},                 // and 0 to 10
        {A, 9, 3, 8},                  // 0 to 9, 0 to 10 and 9 to the end
        {A, 8, 2, 8},  {A, 0, 2, 8},   // 0 to 9 and 0 to 10
        {A, 4, 2, 8},  {A, 5, 3, 8},   {A, 6, 2, 8}, // and 5 to 5
        {B, 18, 0, 6}, {B, 19, 1, 6},  {B, 20, 0, 2},
        {Z8, 19, 0, 6}, {Z8, 20, 1, 2}, {Z8, END, 1, 2},
        {C, 10, 0, 6}, {Z8 - 1, 20, 0, 2}, {A + half, 10, 0, 6},       // labels that are stored nowhere
        {0, 10, 0, 6}, {Z8 + 1, 20, 0, 2}, {UINT64_MAX, 0, 0, 8},      // no labels, with legal minutes
        {A, END + 1, 0, 0}, {A, 5 + half, 0, 0}, {A, UINT64_MAX, 0, 0}, {0, END + 1, 0, 0}}; // no minutes
    const size_t all = sizeof list / sizeof *list;
    question back[LONGEST];
    for (size_t k = 0; k < all; k++) {
        asked("a question by itself", 1, &list[k], list[k].read);
        back[all - 1 - k] = list[k];
    }
    asked("all questions", all, list, 8);
    asked("all questions, from the last to the first", all, back, 8);
    asked("no question", 0, list, 0);
    asked("nothing before minute 20", 2, list, 2);
    asked("nothing before minute 10", 5, list, 6);
    asked("no legal minute", 4, &list[all - 4], 0);
    const question beside[] = {{A, 20, 1, 2}, {0, 19, 0, 6}, {A, END, 1, 2}};
    asked("the smallest minute beside no label", 3, beside, 6);
    const question often[] = {{A, 10, 4, 6}, {B, 19, 1, 6}, {A, 10, 4, 6}, {A, 10, 4, 6}};
    asked("a question three times", 4, often, 6);
    plan[RUTHGARWY_PLAN_TUPLES] = 512;
    asked("another capacity of the stores that are not lent", 5, list, 6);
    memset(rows, 0, sizeof rows);
    const question nothing[] = {{A, 0, 0, 0}, {B, END, 0, 0}};
    asked("no rows", 2, nothing, 0);
}

// Refused with that number, lent so many words of each: only the answer is written, where it has three words.
static void refused(const char *what, uint64_t number, size_t plan_words, size_t store, size_t words, size_t answered)
{
    const uint64_t said[] = {number, 0, 0, 5555};
    uint64_t rows_before[STORE + 1], plan_before[RUTHGARWY_PLAN_WORDS];
    memcpy(rows_before, rows, sizeof rows), memcpy(plan_before, plan, sizeof plan);
    for (size_t w = 0; w < sizeof lent / sizeof *lent; w++)
        lent[w] = 11 + w % RUTHGARWY_QUESTION_WORDS;
    for (size_t w = 0; w < 4; w++)
        answer[w] = 5555;
    uint64_t got = ruthgarwy_questions(plan, plan_words, rows, store, lent, words, answer, answered);
    holds(got == number, what, got);
    for (size_t w = 0; w < 4; w++)
        holds(answer[w] == (answered == RUTHGARWY_ANSWER_WORDS ? said[w] : 5555), what, w);
    for (size_t w = 0; w < sizeof lent / sizeof *lent; w++)
        holds(lent[w] == 11 + w % RUTHGARWY_QUESTION_WORDS, what, w);
    holds(!memcmp(rows_before, rows, sizeof rows) && !memcmp(plan_before, plan, sizeof plan), what, 0);
}

static void refusals(void)
{
    make_wall();
    refused("4: a plan of 67 words", 4, 67, STORE, 6, 3);
    refused("4: a store a word too short", 4, 68, STORE - 1, 6, 3);
    refused("4: a store a word too long", 4, 68, STORE + 1, 6, 3);
    refused("4: an answer of two words", 4, 68, STORE, 6, 2);
    refused("4: an answer of four words", 4, 68, STORE, 6, 4);
    for (size_t words = 1; words <= 8; words += words % 3)
        refused("4: no whole number of questions", 4, 68, STORE, words, 3);
    rows[0] = ROWS + 1; // of lane 1, which is not read for minute 12
    refused("5: a count past capacity", 5, 68, STORE, 6, 3);
    refused("5: without a question", 5, 68, STORE, 0, 3);
    refused("4 before 5", 4, 68, STORE, 7, 3);
    rows[0] = 2, rows[STORE - 1] = 1;
    refused("5: a word behind the rows", 5, 68, STORE, 6, 3);
    rows[STORE - 1] = 0, plan[RUTHGARWY_PLAN_MINIMUM] = 2;
    refused("5: rows of one minute", 5, 68, STORE, 6, 3);
    // the plan's own, each before those above and before 4
    plan[RUTHGARWY_PLAN_MINIMUM] = 1441;
    refused("18: the minimum", 18, 68, STORE, 7, 3);
    refused("18: the minimum", 18, 68, STORE, 6, 2);
    plan[RUTHGARWY_PLAN_ROWS] = 4097;
    refused("3: the row capacity", 3, 68, STORE, 7, 3);
    plan[RUTHGARWY_PLAN_ROWS] = ROWS, plan[RUTHGARWY_PLAN_TUPLES] = 0;
    refused("3: the tuple capacity", 3, 68, STORE, 6, 3);
    plan[RUTHGARWY_PLAN_LASTS + 1] = 9;
    refused("2: last minutes that do not rise", 2, 68, STORE, 7, 4);
    plan[RUTHGARWY_PLAN_LANES] = 0;
    refused("1: no lane", 1, 68, STORE, 7, 2);
}

// The largest store, full of rows that begin with minute 0 and end with their lane. A question at the first minute of a
// lane reads and counts all rows of this lane and of those above, 4,096 each.
static void largest(void)
{
    static uint64_t wide[RUTHGARWY_ROW_STORE_WORDS(64, 4096)], whole[RUTHGARWY_PLAN_WORDS] = {64, 512, 4096};
    whole[RUTHGARWY_PLAN_MINIMUM] = 1;
    for (uint64_t lane = 0; lane < 64; lane++) {
        uint64_t *part = wide + lane * RUTHGARWY_ROW_STORE_WORDS(1, 4096), last = lane < 63 ? 10 * lane + 9 : END;
        const uint64_t row[RUTHGARWY_ROW_WORDS] = {Z8, 999999, 999999, 0, last};
        whole[RUTHGARWY_PLAN_LASTS + lane] = last, part[0] = 4096;
        for (size_t k = 0; k < 4096; k++)
            memcpy(part + 1 + RUTHGARWY_ROW_WORDS * k, row, sizeof row);
    }
    for (uint64_t lane = 0; lane < 64; lane += 21) {
        uint64_t two[] = {Z8, END, 5, Z8, 10 * lane, 5}, above = 4096 * (64 - lane);
        holds(!ruthgarwy_questions(whole, 68, wide, sizeof wide / sizeof *wide, two, 6, answer, 3), "largest", lane);
        holds(two[2] == 4096 && two[5] == above && answer[2] == above, "rows of the largest store", two[5]);
    }
}

int main(void)
{
    make_wall();
    answers();
    refusals();
    largest();
    printf("questions: %u checks, all hold\n", checks);
    return 0;
}
