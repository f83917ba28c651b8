// Answers lines of the store with WiredTiger, and prints the processor seconds of the process from the first call for a line to the
// end of the work behind the last.
//
//     wiredtiger FOLDER LINES WINDOW
//
// An upsert inserts the document's text as it stands in the line, which nobody parses but with -DPARSE (lines.h), into a table of bytes
// under bytes; so many lines are a transaction, and its log is synced. The lines are read before the clock starts.
#include <sys/stat.h>
#include <wiredtiger.h>

#include "lines.h"

static void check(int status) {
    if (status != 0) {
        fprintf(stderr, "wiredtiger: %s\n", wiredtiger_strerror(status));
        exit(1);
    }
}

// Whether there is such a document.
static int found(int status) {
    check(status == WT_NOTFOUND ? 0 : status);
    return status == 0;
}

static void give_value(WT_CURSOR *cursor) {
    WT_ITEM at, value;
    uint64_t key;
    check(cursor->get_key(cursor, &at));
    check(cursor->get_value(cursor, &value));
    memcpy(&key, at.data, sizeof key);
    give(be64toh(key), value.data, value.size);
}

static void answer(WT_CURSOR *cursor, const Line *line) {
    uint64_t key = ascending(line);
    WT_ITEM at = {.data = &key, .size = sizeof key}, value = {.data = line->text, .size = line->length};
    if (line->kind <= GET)
        cursor->set_key(cursor, &at);
    switch (line->kind) {
    case UPSERT:
        cursor->set_value(cursor, &value);
        check(cursor->insert(cursor));
        break;
    case DELETE:
        found(cursor->remove(cursor));
        break;
    case GET:
        if (found(cursor->search(cursor)))
            give_value(cursor);
        break;
    case WALK:
        while (found(cursor->next(cursor)))
            give_value(cursor);
    }
    check(cursor->reset(cursor));
}

int main(int words, char **word) {
    if (words != 4)
        return 2;
    size_t count = 0, window = atoll(word[3]);
    Line *lines = lines_in(word[2], &count);
    WT_CONNECTION *connection;
    WT_SESSION *session;
    WT_CURSOR *cursor;
    mkdir(word[1], 0777);
    check(wiredtiger_open(word[1], NULL, "create,log=(enabled=true),transaction_sync=(enabled=true,method=fsync)", &connection));
    check(connection->open_session(connection, NULL, NULL, &session));
    check(session->create(session, "table:docs", "key_format=u,value_format=u"));
    check(session->open_cursor(session, "table:docs", NULL, NULL, &cursor));
    replies_beside(word[2]);
    settle();
    double before = seconds();
    for (size_t at = 0; at < count; at++) {
        if (at % window == 0)
            check(session->begin_transaction(session, NULL));
        begin(&lines[at]);
        answer(cursor, &lines[at]);
        end();
        if (at % window == window - 1 || at == count - 1)
            check(session->commit_transaction(session, NULL));
    }
    settle();
    printf("%.6f\n", seconds() - before);
    // This ends with a checkpoint, which is all that a flush asks for.
    check(connection->close(connection, NULL));
    return 0;
}
