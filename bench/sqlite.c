// Answers lines of the store with SQLite, by statements with bound values, and prints the processor seconds of SQLite's calls.
//
//     sqlite DATABASE LINES WINDOW
//
// An upsert is `insert or replace` of the document's text as it stands in the line, which nobody parses but with -DPARSE (lines.h); so
// many lines are a transaction. The lines are read before the clock starts.
#include <sqlite3.h>

#include "lines.h"

static const char *const STATEMENTS[FLUSH] = {
    "insert or replace into docs values (?1, ?2)",
    "delete from docs where id = ?1",
    "select doc, id from docs where id = ?1",
    "select doc, id from docs",
};

static void check(int status) {
    if (status != SQLITE_OK && status != SQLITE_DONE && status != SQLITE_ROW) {
        fprintf(stderr, "sqlite: %s\n", sqlite3_errstr(status));
        exit(1);
    }
}

static void give_column(sqlite3_stmt *statement) {
    const char *text = (const char *)sqlite3_column_text(statement, 0);
    give(sqlite3_column_int64(statement, 1), text, sqlite3_column_bytes(statement, 0));
}

static void run(sqlite3_stmt *statement, const Line *line) {
    int status;
    if (line->kind <= GET)
        check(sqlite3_bind_int64(statement, 1, line->key));
    if (line->kind == UPSERT)
        check(sqlite3_bind_text(statement, 2, line->text, line->length, SQLITE_STATIC));
    while ((status = sqlite3_step(statement)) == SQLITE_ROW)
        give_column(statement);
    check(status);
    check(sqlite3_reset(statement));
}

int main(int words, char **word) {
    if (words != 4)
        return 2;
    size_t count = 0, window = atoll(word[3]);
    Line *lines = lines_in(word[2], &count);
    sqlite3 *database;
    sqlite3_stmt *statements[FLUSH];
    check(sqlite3_open(word[1], &database));
    check(sqlite3_exec(database, "pragma journal_mode = wal; pragma synchronous = full;"
                                 "create table if not exists docs (id integer primary key, doc text)", 0, 0, 0));
    for (int kind = 0; kind < FLUSH; kind++)
        check(sqlite3_prepare_v2(database, STATEMENTS[kind], -1, &statements[kind], 0));
    replies_beside(word[2]);
    double before = seconds();
    for (size_t at = 0; at < count; at++) {
        if (at % window == 0)
            check(sqlite3_exec(database, "begin", 0, 0, 0));
        begin(&lines[at]);
        if (lines[at].kind != FLUSH)
            run(statements[lines[at].kind], &lines[at]);
        end();
        if (at % window == window - 1 || at == count - 1)
            check(sqlite3_exec(database, "commit", 0, 0, 0));
    }
    printf("%.6f\n", seconds() - before);
    // The close brings what is in the log into the database, which is all that a flush asks for.
    for (int kind = 0; kind < FLUSH; kind++)
        check(sqlite3_finalize(statements[kind]));
    check(sqlite3_close(database));
    return 0;
}
