// The proved calls, from the static library.
#include <stdlib.h>
#include <string.h>
#include "bench.h"
#include "ruthgarwy.h"

static uint64_t plan[RUTHGARWY_PLAN_WORDS], answer[RUTHGARWY_ANSWER_WORDS];
static uint64_t *outer, *inner, *made, *outer_cache, *inner_cache;
static size_t tuple_words, row_words;

static int open_library(const shape *s)
{
    plan[0] = s->lanes, plan[1] = TUPLES, plan[2] = ROWS;
    plan[RUTHGARWY_PLAN_MINIMUM] = 1; // every overlap makes a row, as for the peers
    for (size_t i = 0; i < MOST_LANES; i++)
        plan[3 + i] = i < s->lanes ? s->cuts[i] : 0;
    tuple_words = s->lanes * TUPLE_ROOM, row_words = s->lanes * ROW_ROOM;
    outer = room(tuple_words, 8), inner = room(tuple_words, 8), made = room(row_words, 8);
    outer_cache = room(tuple_words, 8), inner_cache = room(tuple_words, 8);
    fill_stores(s, outer, inner, made);
    return DONE;
}

static int join_library(uint64_t *pairs)
{
    uint64_t number = ruthgarwy_sweep(plan, RUTHGARWY_PLAN_WORDS, outer, tuple_words, inner, tuple_words, made, row_words,
                                      outer_cache, tuple_words, inner_cache, tuple_words, answer, RUTHGARWY_ANSWER_WORDS);
    *pairs = answer[2];
    return number ? WRONG : DONE;
}

static int insert_library(const tuple *d, uint64_t *rows)
{
    uint64_t number = ruthgarwy_insert(plan, RUTHGARWY_PLAN_WORDS, RUTHGARWY_OUTER, d->label, d->number, d->first, d->last, outer,
                                       tuple_words, inner, tuple_words, made, row_words, answer, RUTHGARWY_ANSWER_WORDS);
    *rows = answer[1];
    return number ? WRONG : DONE;
}

static int withdraw_library(const tuple *d, uint64_t *rows)
{
    uint64_t number = ruthgarwy_delete(plan, RUTHGARWY_PLAN_WORDS, RUTHGARWY_OUTER, d->label, d->number, d->first, d->last, outer,
                                       tuple_words, inner, tuple_words, made, row_words, answer, RUTHGARWY_ANSWER_WORDS);
    *rows = answer[1];
    return number ? WRONG : DONE;
}

// an insert of label 0 is refused with 6, which is given only after check 5 has passed
static int check_library(void)
{
    uint64_t number = ruthgarwy_insert(plan, RUTHGARWY_PLAN_WORDS, RUTHGARWY_OUTER, 0, 0, 0, 0, outer, tuple_words, inner,
                                       tuple_words, made, row_words, answer, RUTHGARWY_ANSWER_WORDS);
    return number == 6 ? DONE : WRONG;
}

int ask_library(requirements *r)
{
    uint64_t required[RUTHGARWY_REQUIREMENTS_WORDS];
    uint64_t number = ruthgarwy_requirements(plan, RUTHGARWY_PLAN_WORDS, outer, tuple_words, inner, tuple_words,
                                             r->rows, plan[RUTHGARWY_PLAN_LANES], required,
                                             RUTHGARWY_REQUIREMENTS_WORDS);
    r->outer = required[RUTHGARWY_REQUIREMENTS_OUTER];
    r->inner = required[RUTHGARWY_REQUIREMENTS_INNER];
    r->pairs = required[RUTHGARWY_REQUIREMENTS_PAIRS];
    return number ? WRONG : DONE;
}

int refused_library(uint64_t number, uint64_t rows, const requirements *asked)
{
    static uint64_t none[RUTHGARWY_ROW_STORE_WORDS(MOST_LANES, ROWS)];
    uint64_t few[RUTHGARWY_PLAN_WORDS], got;
    memcpy(few, plan, sizeof few);
    few[RUTHGARWY_PLAN_ROWS] = rows;
    size_t words = RUTHGARWY_ROW_STORE_WORDS(few[RUTHGARWY_PLAN_LANES], rows);
    none[0] = number == 5 ? rows + 1 : 0;
    if (number == 6)
        got = ruthgarwy_insert(few, RUTHGARWY_PLAN_WORDS, RUTHGARWY_OUTER, 0, 0, 0, 0, outer, tuple_words, inner,
                               tuple_words, none, words, answer, RUTHGARWY_ANSWER_WORDS);
    else
        got = ruthgarwy_sweep(few, RUTHGARWY_PLAN_WORDS, outer, tuple_words, inner, tuple_words, none, words,
                              outer_cache, RUTHGARWY_NEED_WORDS(asked->outer), inner_cache,
                              RUTHGARWY_NEED_WORDS(asked->inner) - (number == 14), answer, RUTHGARWY_ANSWER_WORDS);
    return got == number ? DONE : WRONG;
}

stores stores_of_library(void) { return (stores){outer, inner, made}; }

uint64_t recut_library(const uint64_t *next)
{
    return ruthgarwy_repartition(plan, RUTHGARWY_PLAN_WORDS, next, RUTHGARWY_CUT_WORDS, outer, tuple_words, inner,
                                 tuple_words, made, row_words, answer, RUTHGARWY_ANSWER_WORDS);
}

static int questions_library(question *list, size_t count, uint64_t *read)
{
    uint64_t number = ruthgarwy_questions(plan, RUTHGARWY_PLAN_WORDS, made, row_words, (uint64_t *)list,
                                          count * RUTHGARWY_QUESTION_WORDS, answer, RUTHGARWY_ANSWER_WORDS);
    *read = answer[RUTHGARWY_ANSWER_EXAMINED];
    return number || answer[RUTHGARWY_ANSWER_CHANGED] ? WRONG : DONE;
}

static int gaps_library(tuple *out, size_t room, uint64_t *count)
{
    uint64_t number = ruthgarwy_gaps(plan, RUTHGARWY_PLAN_WORDS, outer, tuple_words, inner, tuple_words, (uint64_t *)out,
                                     RUTHGARWY_GAP_WORDS(room), answer, RUTHGARWY_ANSWER_WORDS);
    *count = answer[RUTHGARWY_ANSWER_CHANGED];
    return number == RUTHGARWY_GAPS_SHORT ? REFUSED_SHORT : number ? WRONG : DONE;
}

static uint64_t sum_of(const uint64_t *words, size_t count)
{
    uint64_t sum = 0;
    for (size_t i = 0; i < count; i++)
        sum += words[i];
    return sum;
}

uint64_t sum_of_stores(void) { return sum_of(outer, tuple_words) + sum_of(inner, tuple_words) + sum_of(made, row_words); }

static fingerprint rows_library(void) { return rows_in_store(plan[0], made); }

static void close_library(void) { free(outer), free(inner), free(made), free(outer_cache), free(inner_cache); }

const peer library = {"library", open_library, join_library, insert_library, withdraw_library, check_library, rows_library, close_library};
const asker asking_library = {"library", 0, open_library, 0, questions_library, close_library};
const lister listing_library = {"library", 0, open_library, gaps_library, 0, close_library};
