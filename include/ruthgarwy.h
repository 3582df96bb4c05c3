/*
 * Ruthgarwy: a valid-time join that is kept current, as a static library. The library is the crate `exports`, built
 * by `tests/library.sh` as target/staticlib/libexports.a, for x86-64 Linux; of the C library it needs memcpy
 * and memset only.
 *
 * A wall is three lent buffers of 64-bit words, the stores: store 1 holds drawings (outer), store 2 spots (inner),
 * store 3 rows. Every call takes the plan and is lent the stores that it needs. It answers with three words, or with
 * four where it says so, and returns the first of them.
 *
 * A slice argument is an address and a length in words. The address is not null and is aligned for uint64_t, the
 * length is what lies there, and a buffer that a call writes overlaps no other argument of that call. Nothing else
 * has to be checked before calling: every call answers for any words and any lengths. A refusal writes no word of
 * plan, stores, caches, report, questions or gaps; a plan may lie in memory that cannot be written, but for an accepted
 * recut.
 *
 * The answer's words are written by every call, refused or not, that is lent exactly as many as it answers with; an
 * answer of another length is not written, and the call is refused. A plan of another length than named here is
 * refused with 4: no other check can be made. So is a plan of 67 words, as it was before it had a minimum. An answer or
 * new last minutes of another length, and questions whose words are no multiple of three, are refused with 4 too, after
 * the plan's own checks 1 to 3 and 18 and before all others, as the stores' lengths are.
 */
#ifndef RUTHGARWY_H
#define RUTHGARWY_H

#include <stddef.h>
#include <stdint.h>

#ifdef __cplusplus
extern "C" {
#endif

/*
 * A plan: the lane count (1 to 64), the tuple capacity of a lane (1 to 512), the row capacity of a lane (1 to
 * 4096), then 64 places for last minutes, one for each lane; those beyond the lane count are ignored. Last minutes
 * rise strictly, and the last one is RUTHGARWY_LAST_MINUTE. The last word, at RUTHGARWY_PLAN_MINIMUM, is the minimum:
 * the fewest minutes that a row may last, RUTHGARWY_LEAST_MINIMUM to RUTHGARWY_MOST_MINIMUM. With 1 every overlap makes
 * a row.
 */
#define RUTHGARWY_PLAN_LANES 0
#define RUTHGARWY_PLAN_TUPLES 1
#define RUTHGARWY_PLAN_ROWS 2
#define RUTHGARWY_PLAN_LASTS 3

/* The places for last minutes: in a plan, and the words of the new ones that a recut is handed. */
#define RUTHGARWY_CUT_WORDS 64

/* The place of the minimum: 67, after all places for last minutes, used or not. Every other place is as it was. */
#define RUTHGARWY_PLAN_MINIMUM (RUTHGARWY_PLAN_LASTS + RUTHGARWY_CUT_WORDS)

/* The words of a plan: 68. */
#define RUTHGARWY_PLAN_WORDS (RUTHGARWY_PLAN_MINIMUM + 1)

/* The smallest and the largest minimum, in minutes. */
#define RUTHGARWY_LEAST_MINIMUM 1
#define RUTHGARWY_MOST_MINIMUM 1440

/* The last minute of all; the first is 0. */
#define RUTHGARWY_LAST_MINUTE 99999999

/*
 * An answer: the refusal number, then two counts, both 0 on a refusal and 0 where a call names none.
 */
#define RUTHGARWY_ANSWER_WORDS 3
#define RUTHGARWY_ANSWER_NUMBER 0
#define RUTHGARWY_ANSWER_CHANGED 1
#define RUTHGARWY_ANSWER_EXAMINED 2

/*
 * The answer of ruthgarwy_requirements: the refusal number, then each side's need in tuples and the pairs that a sweep
 * would compare, all three 0 on a refusal.
 */
#define RUTHGARWY_REQUIREMENTS_WORDS 4
#define RUTHGARWY_REQUIREMENTS_NUMBER 0
#define RUTHGARWY_REQUIREMENTS_OUTER 1
#define RUTHGARWY_REQUIREMENTS_INNER 2
#define RUTHGARWY_REQUIREMENTS_PAIRS 3

/*
 * A question, as ruthgarwy_questions is lent them, one after the other: a label number, a minute and the place for the
 * answer. Any words may stand there.
 */
#define RUTHGARWY_QUESTION_WORDS 3
#define RUTHGARWY_QUESTION_LABEL 0
#define RUTHGARWY_QUESTION_MINUTE 1
#define RUTHGARWY_QUESTION_ANSWER 2

/*
 * The words of a store, from the plan's numbers. A store is its lanes in order; a lane is one count word, then its
 * full capacity of records. A record of stores 1 and 2 is a tuple, four words: label number, item number, first
 * minute, last minute. A record of store 3 is a row, five words: label number, drawing number, spot number, first
 * minute, last minute.
 *
 * A drawing and a spot with the same label make a row if they have at least as many minutes in common as the plan's
 * minimum. The row's span is all of these minutes, from the later first to the earlier last: last - first + 1 of them.
 * A stored row with fewer minutes than the minimum is not legal (5). So after a change of a wall's minimum the rows are
 * made anew: by a sweep, lent a store 3 of zeros.
 *
 * A label's number starts at 0 and for each of its 1 to 8 letters becomes 26 times itself plus the letter's rank: A
 * and a have 1, Z and z have 26, so AL, Al and al are all 38. The same number is the sum of the ranks, each times the
 * weight of its place: from the last letter on 1, 26, 676, 17,576, 456,976, 11,881,376, 308,915,776, 8,031,810,176.
 * The calls take and store the number only.
 */
#define RUTHGARWY_TUPLE_WORDS 4
#define RUTHGARWY_ROW_WORDS 5
#define RUTHGARWY_TUPLE_STORE_WORDS(lanes, tuples) ((size_t)(lanes) * (1 + RUTHGARWY_TUPLE_WORDS * (size_t)(tuples)))
#define RUTHGARWY_ROW_STORE_WORDS(lanes, rows) ((size_t)(lanes) * (1 + RUTHGARWY_ROW_WORDS * (size_t)(rows)))

/*
 * The words of a cache that is large enough for every sweep under such a plan, and of one that is just large enough for
 * a need in tuples, which ruthgarwy_requirements tells.
 */
#define RUTHGARWY_CACHE_WORDS(lanes, tuples) (RUTHGARWY_TUPLE_WORDS * (size_t)(lanes) * (size_t)(tuples))
#define RUTHGARWY_NEED_WORDS(need) (RUTHGARWY_TUPLE_WORDS * (size_t)(need))

/*
 * The words of so many records of ruthgarwy_gaps. A record is a tuple: label number, drawing number, first minute, last
 * minute.
 */
#define RUTHGARWY_GAP_WORDS(records) (RUTHGARWY_TUPLE_WORDS * (size_t)(records))

/* The sides: drawings, and spots. Every word but 1 stands for spots. */
#define RUTHGARWY_OUTER 1
#define RUTHGARWY_INNER 2

/*
 * The refusal numbers. A call makes its checks in the order 1 to 3, 18, 4 to 8, 17, 9, 11, 12, 14, 10, 19, and the
 * first that applies answers.
 */
enum ruthgarwy_number {
    RUTHGARWY_ACCEPTED = 0,       /* no check applies */
    RUTHGARWY_LANE_COUNT = 1,     /* plan: the lane count is not 1 to 64 */
    RUTHGARWY_LAST_MINUTES = 2,   /* plan: last minutes don't rise strictly or don't end at 99,999,999
                                     (also a recut's new ones, after 5) */
    RUTHGARWY_CAPACITY = 3,       /* plan: a capacity is out of its range */
    RUTHGARWY_LENGTH = 4,         /* stores, report: a length isn't what the plan gives; a plan, an answer or new last
                                     minutes are not of the length above; the words of questions are no multiple of
                                     three */
    RUTHGARWY_UNSOUND = 5,        /* stores, not in open: a store is not sound; also if a row has fewer minutes than the
                                     plan's minimum */
    RUTHGARWY_LABEL = 6,          /* tuple: the label number is out of range (1 to 217,180,147,158) */
    RUTHGARWY_ITEM = 7,           /* tuple: the item number is above 999,999 */
    RUTHGARWY_REVERSED = 8,       /* tuple: first after last, whether or not the last is above 99,999,999 */
    RUTHGARWY_LANE_FULL = 9,      /* insert: the tuple's own lane is at capacity; recut: a tuple lane of either side would
                                     pass it */
    RUTHGARWY_ROWS_FULL = 10,     /* insert, sweep, recut: a rows lane would pass its capacity */
    RUTHGARWY_ABSENT = 11,        /* withdraw: no equal tuple is stored */
    RUTHGARWY_ROWS_MISSING = 12,  /* withdraw: store 3 holds fewer of a row than must go (meddled store) */
                                  /* 13 was a recut's on a wall that is not empty; no call gives it any more */
    RUTHGARWY_CACHE_SHORT = 14,   /* sweep: a cache has fewer words than 4 times its side's need */
    RUTHGARWY_LINE_FORM = 15,     /* line: not of the form that is read; of the program `wall`, and no call's answer */
    RUTHGARWY_LINE_PLACE = 16,    /* line: a change before the plan is complete, or a lane line or a `least` line after;
                                     the same */
    RUTHGARWY_LATE = 17,          /* tuple: last above 99,999,999, with first not after last; straight after 8 */
    RUTHGARWY_MINIMUM = 18,       /* plan: the minimum is not 1 to 1,440; straight after 3 (also a `least` line's) */
    RUTHGARWY_GAPS_SHORT = 19     /* gaps: the buffer has fewer words than 4 times the records; last of all */
};

/*
 * Open: sets every word of the three stores to 0. Can be refused with 1 to 3, 18 and 4. Counts: none.
 */
uint64_t ruthgarwy_open(const uint64_t *plan, size_t plan_words,
                        uint64_t *outer, size_t outer_words,
                        uint64_t *inner, size_t inner_words,
                        uint64_t *rows, size_t rows_words,
                        uint64_t *answer, size_t answer_words);

/*
 * Insert: appends the tuple to its lane on that side, and adds the rows it makes with the other side. Can be
 * refused with 1 to 3, 18, 4 to 8, 17, 9 and 10. Counts: rows added; tuples looked at, which is the number stored in
 * the other side's lanes from the one that contains the new tuple's first minute to the last lane, and does not depend
 * on the minimum.
 */
uint64_t ruthgarwy_insert(const uint64_t *plan, size_t plan_words,
                          uint64_t side, uint64_t label, uint64_t item, uint64_t first, uint64_t last,
                          uint64_t *outer, size_t outer_words,
                          uint64_t *inner, size_t inner_words,
                          uint64_t *rows, size_t rows_words,
                          uint64_t *answer, size_t answer_words);

/*
 * Withdraw: takes out one tuple of that side that is equal in all four words, and its rows, each with its
 * multiplicity. The lane's last record goes over the first equal one, and its own words become 0. Can be refused
 * with 1 to 3, 18, 4 to 8, 17, 11 and 12. Counts: rows removed; tuples looked at, as for insert.
 */
uint64_t ruthgarwy_delete(const uint64_t *plan, size_t plan_words,
                          uint64_t side, uint64_t label, uint64_t item, uint64_t first, uint64_t last,
                          uint64_t *outer, size_t outer_words,
                          uint64_t *inner, size_t inner_words,
                          uint64_t *rows, size_t rows_words,
                          uint64_t *answer, size_t answer_words);

/*
 * Sweep: writes store 3 afresh from stores 1 and 2, which it only reads, with two lent caches: outer_cache for
 * drawings, inner_cache for spots. A side's need is the largest number, over lanes i, of that side's tuples stored
 * above lane i whose first minute is at or before lane i's last; its cache has at least 4 words for each. After an
 * accepted sweep the caches' contents are free. Can be refused with 1 to 3, 18, 4, 5, 14 and 10. Counts: rows written;
 * pairs compared, which do not depend on the minimum; nor do the needs.
 */
uint64_t ruthgarwy_sweep(const uint64_t *plan, size_t plan_words,
                         const uint64_t *outer, size_t outer_words,
                         const uint64_t *inner, size_t inner_words,
                         uint64_t *rows, size_t rows_words,
                         uint64_t *outer_cache, size_t outer_cache_words,
                         uint64_t *inner_cache, size_t inner_cache_words,
                         uint64_t *answer, size_t answer_words);

/*
 * Recut: puts new last minutes, `cuts`, RUTHGARWY_CUT_WORDS words, into the plan's first places, as many as it has
 * lanes, and moves every tuple and every row to the lane that then contains its last minute, within the three stores
 * and with no other memory. The lane count, the capacities, the other places and the minimum stay. What moves are the
 * stored rows as they stand. The order of tuples and rows within a lane after it is free. Can be refused with 1 to 3,
 * 18, 4 and 5, then with 2 for the new last minutes, with 9 if a tuple lane of either side would pass its capacity,
 * then with 10 for a rows lane; a refusal changes no word of plan and stores. Counts: none.
 */
uint64_t ruthgarwy_repartition(uint64_t *plan, size_t plan_words,
                               const uint64_t *cuts, size_t cuts_words,
                               uint64_t *outer, size_t outer_words,
                               uint64_t *inner, size_t inner_words,
                               uint64_t *rows, size_t rows_words,
                               uint64_t *answer, size_t answer_words);

/*
 * What a sweep will take: from stores 1 and 2, which it only reads. The report has exactly one word for each lane of
 * the plan, and gets the rows that a sweep would put into that lane. The answer is four words: number, each side's
 * need in tuples, the pairs that a sweep would compare. Can be refused with 1 to 3, 18, 4 and 5, asked of these two
 * stores and the report. The row capacity refuses nothing here: a reported lane may pass it.
 *
 * A sweep of the same plan and stores 1 and 2 that is past its own checks 1 to 3, 18, 4 and 5 is refused with 14
 * exactly if a cache has fewer words than RUTHGARWY_NEED_WORDS of its side's need, else with 10 exactly if a reported
 * lane passes the row capacity. Accepted, its counts are the sum of the reported rows, and the same pairs.
 */
uint64_t ruthgarwy_requirements(const uint64_t *plan, size_t plan_words,
                                const uint64_t *outer, size_t outer_words,
                                const uint64_t *inner, size_t inner_words,
                                uint64_t *report, size_t report_words,
                                uint64_t *answer, size_t answer_words);

/*
 * A screenful of questions: from store 3, which it only reads. Each answer becomes the number of stored rows with that
 * label whose span contains that minute, first and last included; 0 if the label is not 1 to 217,180,147,158 or the
 * minute is above RUTHGARWY_LAST_MINUTE. Labels and minutes stay as they are, and what stood in an answer's place is
 * not read. There may be any number of questions, none too. Can be refused with 1 to 3, 18, 4 and 5, asked of this
 * store and the questions' length; a refusal leaves every answer as it was. Counts: 0; rows read, each once for the
 * whole list, which is the number stored from the lane of the smallest legal minute in the list to the last lane. A
 * legal minute counts there whatever the label beside it; with none it is 0.
 */
uint64_t ruthgarwy_questions(const uint64_t *plan, size_t plan_words,
                             const uint64_t *rows, size_t rows_words,
                             uint64_t *questions, size_t questions_words,
                             uint64_t *answer, size_t answer_words);

/*
 * Minutes without a spot: when a drawing was due and hung nowhere, from stores 1 and 2, which it only reads. For each
 * stored drawing, lane by lane and record by record, it writes the longest stretches of its span that lie in the span
 * of no row which this drawing makes with the stored spots, in rising order. A stretch may be of one minute. A drawing
 * with no row gives one record, its whole span; one that hangs throughout gives none; rows that follow one another with
 * no minute between leave no gap there. Equal drawings give their records each. An overlap below the plan's minimum
 * makes no row, so its minutes are listed, unless another row has them. Store 3 is not lent, and the row capacity makes
 * no difference.
 *
 * The records stand from the buffer's first word on, RUTHGARWY_TUPLE_WORDS words each; the words after them keep their
 * contents, and the buffer may be of any length. Can be refused with 1 to 3, 18, 4 and 5, asked of these two stores,
 * then with 19 if the buffer has fewer words than RUTHGARWY_GAP_WORDS of the records; a refusal leaves the buffer as it
 * was, and tells no number of records. A drawing has at most one gap more than rows, so RUTHGARWY_GAP_WORDS of all
 * stored drawings and all rows that they make together is always enough: the rows are those of a store 3 that is
 * current, or the sum of what ruthgarwy_requirements reports. Counts: records; 0.
 */
uint64_t ruthgarwy_gaps(const uint64_t *plan, size_t plan_words,
                        const uint64_t *outer, size_t outer_words,
                        const uint64_t *inner, size_t inner_words,
                        uint64_t *gaps, size_t gaps_words,
                        uint64_t *answer, size_t answer_words);

#ifdef __cplusplus
}
#endif

#endif
