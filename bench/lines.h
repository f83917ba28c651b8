// The lines that a program of another store answers, read before its clock starts, and that clock: the processor seconds of the process.
//
// Built with -DPARSE a program does what the store does beside storing: it parses each line, follows the path of a query in each
// document, which it parses too, compares, and writes replies into a file beside the lines. All of this is behind the start of its clock.
#include <endian.h>
#include <stdint.h>
#include <stdio.h>
#include <stdlib.h>
#include <string.h>
#include <sys/resource.h>
#include <unistd.h>

// A query is a walk over all documents here, and a flush brings them to where a store keeps them in the long run.
enum { UPSERT, DELETE, GET, WALK, FLUSH, KINDS };

// The text is the document of an upsert and the path of a query, as it stands in the line; and so is the value of a query, if it has one.
typedef struct {
    int kind;
    long long key;
    char *text;
    size_t length;
    char *value;
    char *whole;
} Line;

static const char *const FRONTS[KINDS] = {
    "{\"op\":\"upsert\",\"doc\":", "{\"op\":\"delete\"", "{\"op\":\"get\"", "{\"op\":\"query\",\"path\":", "{\"op\":\"flush\"",
};

static const char EQUAL[] = ",\"eq\":";

static Line line_of(const char *text, size_t length) {
    const char *id = strstr(text, "\"id\":");
    Line line = {0, id ? atoll(id + strlen("\"id\":")) : 0, NULL, 0, NULL, NULL};
    while (strncmp(text, FRONTS[line.kind], strlen(FRONTS[line.kind])) != 0)
        if (++line.kind == KINDS) {
            fprintf(stderr, "what is this line: %s", text);
            exit(2);
        }
    if (line.kind == UPSERT || line.kind == WALK) {
        line.length = length - strlen(FRONTS[line.kind]) - strlen("}\n");
        line.text = strndup(text + strlen(FRONTS[line.kind]), line.length);
    }
    char *value = line.kind == WALK ? strstr(line.text, EQUAL) : NULL;
    if (value) {
        line.length = value - line.text;
        line.value = value + strlen(EQUAL);
        *value = 0;
    }
#ifdef PARSE
    line.whole = strdup(text);
#endif
    return line;
}

static inline Line *lines_in(const char *path, size_t *count) {
    FILE *file = fopen(path, "r");
    Line *lines = NULL;
    char *text = NULL;
    size_t room = 0, held = 0;
    ssize_t length;
    while ((length = getline(&text, &room, file)) > 0) {
        if (*count == held)
            lines = realloc(lines, (held = held ? 2 * held : 1024) * sizeof *lines);
        lines[(*count)++] = line_of(text, length);
    }
    fclose(file);
    return lines;
}

// A key as eight bytes that ascend as keys do.
static inline uint64_t ascending(const Line *line) {
    return htobe64(line->key);
}

static inline double seconds(void) {
    struct rusage used;
    getrusage(RUSAGE_SELF, &used);
    return used.ru_utime.tv_sec + used.ru_stime.tv_sec + 1e-6 * (used.ru_utime.tv_usec + used.ru_stime.tv_usec);
}

// Waits until the threads behind the calls rest: until a tenth of a second has less than a thousandth of a second of work in it.
static inline void settle(void) {
    double before, now = seconds();
    do {
        before = now;
        usleep(100000);
        now = seconds();
    } while (now - before >= 0.001);
}

#ifndef PARSE

// The stores look at one byte of each document, and reply with nothing.
static volatile char touched;

static inline void replies_beside(const char *path) {}

static inline void begin(Line *line) {}

static inline void give(long long key, const char *doc, size_t length) {
    touched = doc[length - 1];
}

static inline void end(void) {}

#else

#include <cjson/cJSON.h>

// The line that is answered, as a tree.
static cJSON *asked;
static int kind;
static size_t given;
static FILE *replies;

static inline void replies_beside(const char *path) {
    char *beside = malloc(strlen(path) + sizeof ".replies");
    replies = fopen(strcat(strcpy(beside, path), ".replies"), "w");
}

// The line is parsed. What a store is given is the key in its tree, and the document's text as it stands.
static inline void begin(Line *line) {
    cJSON_Delete(asked);
    asked = cJSON_Parse(line->whole);
    kind = line->kind;
    given = 0;
    cJSON *holder = kind == UPSERT ? cJSON_GetObjectItemCaseSensitive(asked, "doc") : asked;
    cJSON *key = cJSON_GetObjectItemCaseSensitive(holder, "id");
    line->key = key ? (long long)key->valuedouble : 0;
    if (kind == WALK)
        fputs("{\"rows\":[", replies);
}

// What the path of the query reaches in a document, by texts alone.
static const cJSON *reached(const cJSON *at) {
    const cJSON *hop;
    cJSON_ArrayForEach(hop, cJSON_GetObjectItemCaseSensitive(asked, "path"))
        at = cJSON_GetObjectItemCaseSensitive(at, hop->valuestring);
    return at;
}

static inline void give_row(long long key, const char *doc, size_t length) {
    cJSON *tree = cJSON_ParseWithLength(doc, length);
    const cJSON *found = reached(tree), *equal = cJSON_GetObjectItemCaseSensitive(asked, "eq");
    if (found && (!equal || cJSON_Compare(found, equal, 1))) {
        char *text = cJSON_PrintUnformatted(found);
        fprintf(replies, "%s{\"id\":%lld,\"values\":[%s]}", given++ ? "," : "", key, text);
        free(text);
    }
    cJSON_Delete(tree);
}

static inline void give(long long key, const char *doc, size_t length) {
    given += kind == GET;
    if (kind == GET)
        fprintf(replies, "{\"doc\":%.*s}\n", (int)length, doc);
    else
        give_row(key, doc, length);
}

static inline void end(void) {
    if (kind == WALK)
        fputs("]}\n", replies);
    else if (kind == GET && !given)
        fputs("{\"doc\":null}\n", replies);
    else if (kind != GET)
        fputs("{\"done\":true}\n", replies);
}

#endif
