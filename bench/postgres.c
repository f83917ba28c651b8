// Answers lines of the store with a PostgreSQL server, by prepared statements, and prints the processor seconds that this client takes.
//
//     postgres CONNECTION LINES WINDOW
//
// An upsert sends the document's text as it stands in the line, which the server parses; so many lines are one pipeline and one
// transaction, so that they wait for one answer. The lines are read before the clock starts.
#include <libpq-fe.h>

#include "lines.h"

static const char *const STATEMENTS[KINDS] = {
    "insert into docs values ($1, $2) on conflict (id) do update set doc = excluded.doc",
    "delete from docs where id = $1",
    "select doc from docs where id = $1",
    "select doc #> $1 from docs",
    "vacuum docs",
};

static const char *const NAMES[KINDS] = {"upsert", "delete", "get", "walk", "flush"};

// A query with a value: the server compares.
static const char *const COMPARED = "select id, doc #> $1 from docs where doc #> $1 = $2::jsonb";

static void check(PGconn *server, int good) {
    if (!good) {
        fprintf(stderr, "postgres: %s\n", PQerrorMessage(server));
        exit(1);
    }
}

static void done(PGconn *server, PGresult *made) {
    check(server, PQresultStatus(made) == PGRES_COMMAND_OK);
    PQclear(made);
}

static void prepare(PGconn *server) {
    done(server, PQexec(server, "set client_min_messages = error"));
    done(server, PQexec(server, "create table if not exists docs (id bigint primary key, doc jsonb)"));
    for (int kind = 0; kind < KINDS; kind++)
        done(server, PQprepare(server, NAMES[kind], STATEMENTS[kind], 0, NULL));
    done(server, PQprepare(server, "compared", COMPARED, 0, NULL));
    check(server, PQenterPipelineMode(server));
}

// A path's brackets become the braces of an array of texts.
static void make_arrays(Line *lines, size_t count) {
    for (Line *it = lines; it < lines + count; it++)
        if (it->kind == WALK) {
            it->text[0] = '{';
            it->text[it->length - 1] = '}';
        }
}

static void ask(PGconn *server, const Line *line) {
    uint64_t key = ascending(line);
    const char *values[] = {(char *)&key, line->text, line->value}, *name = line->value ? "compared" : NAMES[line->kind];
    int lengths[] = {sizeof key, line->length, 0}, binary[] = {1, 0, 0};
    int keyed = line->kind <= GET, texts = (line->text != NULL) + (line->value != NULL);
    check(server, PQsendQueryPrepared(server, name, keyed + texts, values + !keyed, lengths + !keyed, binary + !keyed, 0));
}

static void take(PGconn *server) {
    PGresult *result;
    while ((result = PQgetResult(server))) {
        ExecStatusType status = PQresultStatus(result);
        check(server, status == PGRES_COMMAND_OK || status == PGRES_TUPLES_OK || status == PGRES_PIPELINE_SYNC);
        PQclear(result);
        if (status == PGRES_PIPELINE_SYNC)
            return;
    }
}

int main(int words, char **word) {
    if (words != 4)
        return 2;
    size_t count = 0, window = atoll(word[3]);
    Line *lines = lines_in(word[2], &count);
    PGconn *server = PQconnectdb(word[1]);
    check(server, PQstatus(server) == CONNECTION_OK);
    prepare(server);
    make_arrays(lines, count);
    double before = seconds();
    for (size_t at = 0; at < count; at += window) {
        size_t end = count - at < window ? count : at + window;
        for (size_t of = at; of < end; of++)
            ask(server, &lines[of]);
        check(server, PQpipelineSync(server));
        for (size_t of = at; of <= end; of++)
            take(server);
    }
    printf("%.6f\n", seconds() - before);
    PQfinish(server);
    return 0;
}
