// PostgreSQL over a socket, with a GiST index on the spans (int8range) of each table and one on the label of the rows: once
// as its planner chooses, and once with hash and merge joins turned off, so that it goes by the GiST index. A screenful of
// questions is one statement over a table of them, with the index on the label of the rows, with a GiST index on their spans
// beside it, and with that alone. The gaps of the drawings are the difference of two multiranges for each, with an index on
// the label of the spots.
#include "bench.h"
#include <libpq-fe.h>
#include <inttypes.h>
#include <stdio.h>
#include <stdlib.h>
#include <string.h>

static PGconn *db;

static int status_of(const PGresult *r)
{
    ExecStatusType status = PQresultStatus(r);
    const char *state = PQresultErrorField(r, PG_DIAG_SQLSTATE);
    int answer = status == PGRES_COMMAND_OK || status == PGRES_TUPLES_OK ? DONE : state && !strcmp(state, "57014") ? TOO_LONG : WRONG;
    if (answer == WRONG)
        fprintf(stderr, "PostgreSQL: %s", PQerrorMessage(db));
    return answer;
}

static int run(const char *sql)
{
    PGresult *r = PQexec(db, sql);
    int answer = status_of(r);
    if (answer != DONE) // nothing is left open
        PQclear(PQexec(db, "ROLLBACK"));
    PQclear(r);
    return answer;
}

static int copying(const char *sql)
{
    PGresult *r = PQexec(db, sql);
    int ready = PQresultStatus(r) == PGRES_COPY_IN;
    PQclear(r);
    return ready ? DONE : WRONG;
}

static int copied(void)
{
    if (PQputCopyEnd(db, 0) != 1)
        return WRONG;
    PGresult *r = PQgetResult(db);
    int stored = PQresultStatus(r) == PGRES_COMMAND_OK;
    PQclear(r);
    while ((r = PQgetResult(db)))
        PQclear(r);
    return stored ? DONE : WRONG;
}

static int copy(const char *sql, size_t width, const uint64_t *words, size_t count)
{
    if (copying(sql))
        return WRONG;
    char line[160];
    for (size_t k = 0; k < count; k++) {
        const uint64_t *w = words + width * k;
        int n = 0;
        for (size_t i = 0; i + 2 < width; i++)
            n += sprintf(line + n, "%" PRIu64 "\t", w[i]);
        n += sprintf(line + n, "[%" PRIu64 ",%" PRIu64 "]\n", w[width - 2], w[width - 1]);
        PQputCopyData(db, line, n);
    }
    return copied();
}

static int prepared(const char *name, const char *sql)
{
    PGresult *r = PQprepare(db, name, sql, 0, 0);
    int ready = PQresultStatus(r) == PGRES_COMMAND_OK;
    if (!ready)
        fprintf(stderr, "PostgreSQL: %s", PQerrorMessage(db));
    PQclear(r);
    return ready ? DONE : WRONG;
}

static int connect_postgres(void)
{
    db = PQconnectdb("dbname=postgres"); // the server that the environment names
    if (PQstatus(db) == CONNECTION_OK)
        return DONE;
    fprintf(stderr, "PostgreSQL: %s", PQerrorMessage(db));
    return WRONG;
}

static int limit_postgres(void)
{
    char limit[96];
    sprintf(limit, "SET statement_timeout = %.0f; SET max_parallel_workers_per_gather = 0", limit_ms);
    return run(limit);
}

static int open_postgres(const shape *s)
{
    return connect_postgres()
        || run("SET client_min_messages = warning; DROP TABLE IF EXISTS drawing, spot, made;"
               "CREATE UNLOGGED TABLE drawing(label int8, number int8, span int8range);"
               "CREATE UNLOGGED TABLE spot(label int8, number int8, span int8range);"
               "CREATE UNLOGGED TABLE made(label int8, drawing int8, spot int8, span int8range)")
        || copy("COPY drawing FROM STDIN", 4, (const uint64_t *)s->drawings, s->drawing_count)
        || copy("COPY spot FROM STDIN", 4, (const uint64_t *)s->spots, s->spot_count)
        || copy("COPY made FROM STDIN", 5, (const uint64_t *)s->rows, s->row_count)
        || run("CREATE INDEX drawing_span ON drawing USING gist(span); CREATE INDEX spot_span ON spot USING gist(span);"
               "CREATE INDEX made_label ON made(label)")
        || run("VACUUM ANALYZE drawing") || run("VACUUM ANALYZE spot") || run("VACUUM ANALYZE made")
        || prepared("add_drawing", "INSERT INTO drawing VALUES($1::int8, $2::int8, int8range($3::int8, $4::int8, '[]'))")
        || prepared("add_rows", "INSERT INTO made SELECT $1::int8, $2::int8, number, span * int8range($3::int8, $4::int8, '[]') FROM spot "
                                "WHERE label = $1::int8 AND span && int8range($3::int8, $4::int8, '[]')")
        || prepared("drop_drawing", "DELETE FROM drawing WHERE ctid = (SELECT ctid FROM drawing WHERE label = $1::int8 AND number = $2::int8 "
                                    "AND span = int8range($3::int8, $4::int8, '[]') LIMIT 1)")
        // the drawing that the benchmark withdraws has a number of its own, so its rows are those with its label and number
        || prepared("drop_rows", "DELETE FROM made WHERE label = $1::int8 AND drawing = $2::int8 AND span <@ int8range($3::int8, $4::int8, '[]')")
        || limit_postgres();
}

static int open_gist(const shape *s)
{
    return open_postgres(s) || run("SET enable_hashjoin = off; SET enable_mergejoin = off; SET enable_material = off");
}

static int join_postgres(uint64_t *pairs)
{
    *pairs = 0;
    int answer = run("BEGIN; TRUNCATE made");
    if (!answer)
        answer = run("INSERT INTO made SELECT d.label, d.number, s.number, d.span * s.span FROM drawing d JOIN spot s ON d.label = s.label AND d.span && s.span");
    return answer ? answer : run("COMMIT");
}

static int64_t affected(const char *name, const tuple *d)
{
    char text[4][24];
    const char *values[4];
    const uint64_t *w = (const uint64_t *)d;
    for (int i = 0; i < 4; i++)
        sprintf(text[i], "%" PRIu64, w[i]), values[i] = text[i];
    PGresult *r = PQexecPrepared(db, name, 4, values, 0, 0, 0);
    int64_t n = PQresultStatus(r) == PGRES_COMMAND_OK ? atoll(PQcmdTuples(r)) : -1;
    if (n < 0)
        fprintf(stderr, "PostgreSQL: %s", PQerrorMessage(db));
    PQclear(r);
    return n;
}

static int change(const char *tuples, const char *rows_of, const tuple *d, uint64_t *rows)
{
    if (run("BEGIN"))
        return WRONG;
    int64_t one = affected(tuples, d), n = affected(rows_of, d);
    *rows = (uint64_t)n;
    return run("COMMIT") || one != 1 || n < 0 ? WRONG : DONE;
}

static int insert_postgres(const tuple *d, uint64_t *rows) { return change("add_drawing", "add_rows", d, rows); }
static int withdraw_postgres(const tuple *d, uint64_t *rows) { return change("drop_drawing", "drop_rows", d, rows); }

static int check_postgres(void)
{
    PGresult *r = PQexec(db, "SELECT (SELECT count(*) FROM drawing WHERE NOT (label BETWEEN 1 AND 217180147158 AND number BETWEEN 0 AND 999999 AND NOT isempty(span) AND span <@ '[0,99999999]'))"
                             "+ (SELECT count(*) FROM spot WHERE NOT (label BETWEEN 1 AND 217180147158 AND number BETWEEN 0 AND 999999 AND NOT isempty(span) AND span <@ '[0,99999999]'))"
                             "+ (SELECT count(*) FROM made WHERE NOT (label BETWEEN 1 AND 217180147158 AND drawing BETWEEN 0 AND 999999 AND spot BETWEEN 0 AND 999999 AND NOT isempty(span) AND span <@ '[0,99999999]'))");
    int none = PQresultStatus(r) == PGRES_TUPLES_OK && !strcmp(PQgetvalue(r, 0, 0), "0");
    PQclear(r);
    return none ? DONE : WRONG;
}

// the rows with the index on their label alone
static int open_questions(const shape *s)
{
    return open_postgres(s) || run("DROP TABLE IF EXISTS question; CREATE UNLOGGED TABLE question(place int8, label int8, minute int8)");
}

// on the tables of the one before: with a GiST index on the spans of the rows too
static int open_questions_both(const shape *s)
{
    (void)s;
    return connect_postgres() || run("CREATE INDEX made_span ON made USING gist(span)") || limit_postgres();
}

// on the tables of the one before: with the GiST index alone, and no joins but by it
static int open_questions_gist(const shape *s)
{
    (void)s;
    return connect_postgres() || limit_postgres()
        || run("DROP INDEX made_label; SET enable_hashjoin = off; SET enable_mergejoin = off; SET enable_material = off");
}

static int lay_questions(const question *list, size_t count)
{
    if (run("TRUNCATE question") || copying("COPY question FROM STDIN"))
        return WRONG;
    char line[96];
    for (size_t q = 0; q < count; q++)
        PQputCopyData(db, line, sprintf(line, "%zu\t%" PRIu64 "\t%" PRIu64 "\n", q, list[q].label, list[q].minute));
    return copied() || run("VACUUM ANALYZE question");
}

static int questions_postgres(question *list, size_t count, uint64_t *read)
{
    *read = 0;
    PGresult *r = PQexec(db, "SELECT q.place, count(m.label) FROM question q LEFT JOIN made m ON m.label = q.label AND m.span @> q.minute GROUP BY q.place");
    int answer = status_of(r);
    for (int k = 0; k < PQntuples(r) && !answer; k++) {
        size_t q = strtoull(PQgetvalue(r, k, 0), 0, 10);
        if (q < count)
            list[q].answer = strtoull(PQgetvalue(r, k, 1), 0, 10);
    }
    if (!answer && (size_t)PQntuples(r) != count)
        answer = WRONG;
    PQclear(r);
    return answer;
}

static int open_gaps(const shape *s)
{
    return connect_postgres()
        || run("SET client_min_messages = warning; DROP TABLE IF EXISTS drawing, spot, made, gap;"
               "CREATE UNLOGGED TABLE drawing(label int8, number int8, span int8range);"
               "CREATE UNLOGGED TABLE spot(label int8, number int8, span int8range);"
               "CREATE UNLOGGED TABLE gap(label int8, number int8, span int8range)")
        || copy("COPY drawing FROM STDIN", 4, (const uint64_t *)s->drawings, s->drawing_count)
        || copy("COPY spot FROM STDIN", 4, (const uint64_t *)s->spots, s->spot_count)
        || run("CREATE INDEX spot_label ON spot(label)") || run("VACUUM ANALYZE drawing") || run("VACUUM ANALYZE spot")
        || limit_postgres();
}

// every overlap makes a row: with a minimum above 1 there would be a condition on its minutes beside &&
static int gaps_postgres(tuple *out, size_t room, uint64_t *count)
{
    (void)out, (void)room;
    *count = 0;
    int answer = run("BEGIN; TRUNCATE gap");
    if (answer)
        return answer;
    PGresult *r = PQexec(db, "INSERT INTO gap SELECT d.label, d.number, unnest(int8multirange(d.span) - coalesce(h.hung, '{}')) FROM drawing d "
                             "CROSS JOIN LATERAL (SELECT range_agg(d.span * s.span) AS hung FROM spot s WHERE s.label = d.label AND s.span && d.span) h");
    answer = status_of(r);
    if (!answer)
        *count = strtoull(PQcmdTuples(r), 0, 10);
    PQclear(r);
    if (answer) {
        PQclear(PQexec(db, "ROLLBACK"));
        return answer;
    }
    return run("COMMIT");
}

static fingerprint records_postgres(void)
{
    fingerprint f = {0, 0};
    PGresult *r = PQexec(db, "SELECT label, number, lower(span), upper(span) - 1 FROM gap");
    for (int k = 0; k < PQntuples(r); k++) {
        uint64_t w[4];
        for (int i = 0; i < 4; i++)
            w[i] = strtoull(PQgetvalue(r, k, i), 0, 10);
        mix(&f, (row){w[0], w[1], 0, w[2], w[3]});
    }
    PQclear(r);
    return f;
}

static fingerprint rows_postgres(void)
{
    fingerprint f = {0, 0};
    PGresult *r = PQexec(db, "SELECT label, drawing, spot, lower(span), upper(span) - 1 FROM made");
    for (int k = 0; k < PQntuples(r); k++) {
        uint64_t w[5];
        for (int i = 0; i < 5; i++)
            w[i] = strtoull(PQgetvalue(r, k, i), 0, 10);
        mix(&f, (row){w[0], w[1], w[2], w[3], w[4]});
    }
    PQclear(r);
    return f;
}

static void close_postgres(void) { PQfinish(db); }

const peer postgres = {"PostgreSQL", open_postgres, join_postgres, insert_postgres, withdraw_postgres, check_postgres, rows_postgres, close_postgres};
const peer postgres_gist = {"PostgreSQL by GiST", open_gist, join_postgres, insert_postgres, withdraw_postgres, check_postgres, rows_postgres, close_postgres};
const asker asking_postgres_label = {"PostgreSQL by label", 1, open_questions, lay_questions, questions_postgres, close_postgres};
const asker asking_postgres = {"PostgreSQL, both indexes", 1, open_questions_both, lay_questions, questions_postgres, close_postgres};
const asker asking_postgres_gist = {"PostgreSQL by GiST", 1, open_questions_gist, lay_questions, questions_postgres, close_postgres};
const lister listing_postgres = {"PostgreSQL", 1, open_gaps, gaps_postgres, records_postgres, close_postgres};
