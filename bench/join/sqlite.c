// SQLite in memory, with an index on the label of each table.
#include "bench.h"
#include <sqlite3.h>
#include <stdio.h>
#include <stdlib.h>

static sqlite3 *db;
static sqlite3_stmt *add_drawing, *add_rows, *drop_drawing, *drop_rows, *illegal;
static double began;

static int late(void *unused)
{
    (void)unused;
    return now_ms() - began > limit_ms;
}

static int run(const char *sql)
{
    int status = sqlite3_exec(db, sql, 0, 0, 0);
    if (status == SQLITE_INTERRUPT) {
        if (!sqlite3_get_autocommit(db))
            sqlite3_exec(db, "ROLLBACK", 0, 0, 0);
        return TOO_LONG;
    }
    if (status != SQLITE_OK)
        fprintf(stderr, "SQLite: %s\n", sqlite3_errmsg(db));
    return status == SQLITE_OK ? DONE : WRONG;
}

static sqlite3_stmt *prepared(const char *sql)
{
    sqlite3_stmt *s = 0;
    if (sqlite3_prepare_v2(db, sql, -1, &s, 0) != SQLITE_OK)
        fprintf(stderr, "SQLite: %s\n", sqlite3_errmsg(db));
    return s;
}

static void step(sqlite3_stmt *s, size_t n, const uint64_t *values)
{
    for (size_t i = 0; i < n; i++)
        sqlite3_bind_int64(s, (int)i + 1, (sqlite3_int64)values[i]);
    sqlite3_step(s);
    sqlite3_reset(s);
}

static int open_sqlite(const shape *s)
{
    if (sqlite3_open(":memory:", &db) != SQLITE_OK)
        return WRONG;
    if (run("CREATE TABLE drawing(label INTEGER, number INTEGER, first INTEGER, last INTEGER);"
            "CREATE TABLE spot(label INTEGER, number INTEGER, first INTEGER, last INTEGER);"
            "CREATE TABLE made(label INTEGER, drawing INTEGER, spot INTEGER, first INTEGER, last INTEGER); BEGIN"))
        return WRONG;
    sqlite3_stmt *d = prepared("INSERT INTO drawing VALUES(?,?,?,?)"), *p = prepared("INSERT INTO spot VALUES(?,?,?,?)");
    sqlite3_stmt *m = prepared("INSERT INTO made VALUES(?,?,?,?,?)");
    for (size_t a = 0; a < s->drawing_count; a++)
        step(d, 4, (const uint64_t *)(s->drawings + a));
    for (size_t b = 0; b < s->spot_count; b++)
        step(p, 4, (const uint64_t *)(s->spots + b));
    for (size_t k = 0; k < s->row_count; k++)
        step(m, 5, (const uint64_t *)(s->rows + k));
    sqlite3_finalize(d), sqlite3_finalize(p), sqlite3_finalize(m);
    if (run("COMMIT; CREATE INDEX drawing_label ON drawing(label); CREATE INDEX spot_label ON spot(label);"
            "CREATE INDEX made_label ON made(label); ANALYZE"))
        return WRONG;
    add_drawing = prepared("INSERT INTO drawing VALUES(?1,?2,?3,?4)");
    add_rows = prepared("INSERT INTO made SELECT ?1, ?2, number, max(first, ?3), min(last, ?4) FROM spot WHERE label = ?1 AND first <= ?4 AND ?3 <= last");
    drop_drawing = prepared("DELETE FROM drawing WHERE rowid = (SELECT rowid FROM drawing WHERE label = ?1 AND number = ?2 AND first = ?3 AND last = ?4 LIMIT 1)");
    // the drawing that the benchmark withdraws has a number of its own, so its rows are those with its label and number
    drop_rows = prepared("DELETE FROM made WHERE label = ?1 AND drawing = ?2 AND ?3 <= first AND last <= ?4");
    illegal = prepared("SELECT (SELECT count(*) FROM drawing WHERE NOT (label BETWEEN 1 AND 217180147158 AND number BETWEEN 0 AND 999999 AND 0 <= first AND first <= last AND last <= 99999999))"
                       "+ (SELECT count(*) FROM spot WHERE NOT (label BETWEEN 1 AND 217180147158 AND number BETWEEN 0 AND 999999 AND 0 <= first AND first <= last AND last <= 99999999))"
                       "+ (SELECT count(*) FROM made WHERE NOT (label BETWEEN 1 AND 217180147158 AND drawing BETWEEN 0 AND 999999 AND spot BETWEEN 0 AND 999999 AND 0 <= first AND first <= last AND last <= 99999999))");
    sqlite3_progress_handler(db, 100000, late, 0);
    began = now_ms();
    return add_drawing && add_rows && drop_drawing && drop_rows && illegal ? DONE : WRONG;
}

static int join_sqlite(uint64_t *pairs)
{
    *pairs = 0;
    began = now_ms();
    return run("BEGIN; DELETE FROM made; INSERT INTO made SELECT d.label, d.number, s.number, max(d.first, s.first), min(d.last, s.last) "
               "FROM drawing d JOIN spot s ON d.label = s.label WHERE d.first <= s.last AND s.first <= d.last; COMMIT");
}

static int change(sqlite3_stmt *tuples, sqlite3_stmt *rows_of, const tuple *d, uint64_t *rows)
{
    began = now_ms();
    if (run("BEGIN"))
        return WRONG;
    step(tuples, 4, (const uint64_t *)d);
    int one = sqlite3_changes(db) == 1;
    step(rows_of, 4, (const uint64_t *)d);
    *rows = (uint64_t)sqlite3_changes(db);
    return run("COMMIT") || !one ? WRONG : DONE;
}

static int insert_sqlite(const tuple *d, uint64_t *rows) { return change(add_drawing, add_rows, d, rows); }
static int withdraw_sqlite(const tuple *d, uint64_t *rows) { return change(drop_drawing, drop_rows, d, rows); }

static int check_sqlite(void)
{
    began = now_ms();
    int none = sqlite3_step(illegal) == SQLITE_ROW && sqlite3_column_int64(illegal, 0) == 0;
    sqlite3_reset(illegal);
    return none ? DONE : WRONG;
}

static sqlite3_stmt *count_rows;

// A statement for each question: one over a table of the questions takes 3 per cent longer, and a join with it more. It is
// prepared after the load, so that it is planned by what ANALYZE found.
static int open_questions(const shape *s)
{
    if (open_sqlite(s))
        return WRONG;
    count_rows = prepared("SELECT count(*) FROM made WHERE label = ?1 AND first <= ?2 AND ?2 <= last");
    return count_rows ? DONE : WRONG;
}

static int questions_sqlite(question *list, size_t count, uint64_t *read)
{
    int answer = DONE;
    *read = 0;
    began = now_ms();
    for (size_t q = 0; q < count && !answer; q++) {
        sqlite3_bind_int64(count_rows, 1, (sqlite3_int64)list[q].label);
        sqlite3_bind_int64(count_rows, 2, (sqlite3_int64)list[q].minute);
        int status = sqlite3_step(count_rows);
        if (status == SQLITE_ROW)
            list[q].answer = (uint64_t)sqlite3_column_int64(count_rows, 0);
        else
            answer = status == SQLITE_INTERRUPT ? TOO_LONG : WRONG;
        sqlite3_reset(count_rows);
    }
    return answer;
}

static fingerprint rows_sqlite(void)
{
    fingerprint f = {0, 0};
    sqlite3_stmt *s = prepared("SELECT * FROM made");
    began = now_ms();
    while (sqlite3_step(s) == SQLITE_ROW) {
        uint64_t w[5];
        for (int i = 0; i < 5; i++)
            w[i] = (uint64_t)sqlite3_column_int64(s, i);
        mix(&f, (row){w[0], w[1], w[2], w[3], w[4]});
    }
    sqlite3_finalize(s);
    return f;
}

static void close_sqlite(void)
{
    sqlite3_finalize(add_drawing), sqlite3_finalize(add_rows), sqlite3_finalize(drop_drawing);
    sqlite3_finalize(drop_rows), sqlite3_finalize(illegal);
    sqlite3_close(db);
}

static void close_questions(void)
{
    sqlite3_finalize(count_rows);
    close_sqlite();
}

const peer sqlite = {"SQLite", open_sqlite, join_sqlite, insert_sqlite, withdraw_sqlite, check_sqlite, rows_sqlite, close_sqlite};
const asker asking_sqlite = {"SQLite", 0, open_questions, 0, questions_sqlite, close_questions};
