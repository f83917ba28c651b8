// Answers lines of the store with LevelDB, or, built with -DROCKSDB, with RocksDB, whose calls have the same names behind another
// word, and prints the processor seconds of the process from the first call for a line to the end of the work behind the last.
//
//     levels FOLDER LINES WINDOW
//
// An upsert puts the document's text as it stands in the line, which nobody parses but with -DPARSE (lines.h); so many lines are a
// batch, which is synced. The lines are read before the clock starts, and it stops once the threads that compact rest.
#ifdef ROCKSDB
#include <rocksdb/c.h>
#define ITS(name) rocksdb_##name
#else
#include <leveldb/c.h>
#define ITS(name) leveldb_##name
#endif

#include "lines.h"

// So many bytes are held in memory before they become a table: as many as the store flushes with --memory 16777216.
enum { HELD = 16777216 };

typedef struct {
    ITS(t) *store;
    ITS(writebatch_t) *batch;
    ITS(writeoptions_t) *synced;
    ITS(readoptions_t) *reading;
    size_t waiting;
} Opened;

static void check(const char *error) {
    if (error) {
        fprintf(stderr, "levels: %s\n", error);
        exit(1);
    }
}

static Opened opened(const char *folder) {
    char *error = NULL;
    ITS(options_t) *options = ITS(options_create)();
    ITS(options_set_create_if_missing)(options, 1);
    ITS(options_set_write_buffer_size)(options, HELD);
    Opened it = {ITS(open)(options, folder, &error), ITS(writebatch_create)(), ITS(writeoptions_create)(), ITS(readoptions_create)(), 0};
    check(error);
    ITS(writeoptions_set_sync)(it.synced, 1);
    return it;
}

static void commit(Opened *it) {
    char *error = NULL;
    if (it->waiting) {
        ITS(write)(it->store, it->synced, it->batch, &error);
        check(error);
        ITS(writebatch_clear)(it->batch);
        it->waiting = 0;
    }
}

static void get(const Opened *it, const char *key) {
    char *error = NULL;
    size_t length;
    char *value = ITS(get)(it->store, it->reading, key, sizeof(uint64_t), &length, &error);
    check(error);
    if (value)
        give(0, value, length);
    ITS(free)(value);
}

static void walk(const Opened *it) {
    char *error = NULL;
    size_t length;
    ITS(iterator_t) *at = ITS(create_iterator)(it->store, it->reading);
    for (ITS(iter_seek_to_first)(at); ITS(iter_valid)(at); ITS(iter_next)(at)) {
        uint64_t key;
        memcpy(&key, ITS(iter_key)(at, &length), sizeof key);
        const char *value = ITS(iter_value)(at, &length);
        give(be64toh(key), value, length);
    }
    ITS(iter_get_error)(at, &error);
    check(error);
    ITS(iter_destroy)(at);
}

static void answer(Opened *it, const Line *line) {
    uint64_t key = ascending(line);
    // What reads sees the writes before it, so these do not wait for the end of the window.
    if (line->kind > DELETE)
        commit(it);
    switch (line->kind) {
    case UPSERT:
        ITS(writebatch_put)(it->batch, (char *)&key, sizeof key, line->text, line->length);
        it->waiting++;
        break;
    case DELETE:
        ITS(writebatch_delete)(it->batch, (char *)&key, sizeof key);
        it->waiting++;
        break;
    case GET:
        get(it, (char *)&key);
        break;
    case WALK:
        walk(it);
        break;
    case FLUSH:
        ITS(compact_range)(it->store, NULL, 0, NULL, 0);
    }
}

int main(int words, char **word) {
    if (words != 4)
        return 2;
    size_t count = 0, window = atoll(word[3]);
    Line *lines = lines_in(word[2], &count);
    Opened it = opened(word[1]);
    replies_beside(word[2]);
    settle();
    double before = seconds();
    for (size_t at = 0; at < count; at++) {
        begin(&lines[at]);
        answer(&it, &lines[at]);
        end();
        if (at % window == window - 1 || at == count - 1)
            commit(&it);
    }
    settle();
    printf("%.6f\n", seconds() - before);
    ITS(close)(it.store);
    return 0;
}
