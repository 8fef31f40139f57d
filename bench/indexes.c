/* Times SQL indexes over documents of BSON: indexes FILE STREAM FINDS INSERTS. FILE must not be there; STREAM has orders of
   bench/indexes.py. The indexed fields are columns of their own, so that SQLite reads no document to find one. Prints
   microseconds of the processor, each the least of three rounds. Build: see README.md beside this file. */
#include <bson/bson.h>
#include <sqlite3.h>
#include <stdint.h>
#include <stdio.h>
#include <stdlib.h>
#include <string.h>
#include <time.h>

enum { ROUNDS = 3 };

static sqlite3 *database;
static long long count;

static double now(void) {
    struct timespec at;
    clock_gettime(CLOCK_PROCESS_CPUTIME_ID, &at);
    return at.tv_sec * 1e6 + at.tv_nsec / 1e3;
}

static void say(const char *what, double spent, double share) { printf("%s: %.2f us\n", what, spent / share); }

static void fail(const char *what) {
    fprintf(stderr, "%s: %s\n", what, database ? sqlite3_errmsg(database) : "");
    exit(1);
}

static void run(const char *text) {
    if (sqlite3_exec(database, text, NULL, NULL, NULL) != SQLITE_OK) fail(text);
}

static sqlite3_stmt *prepare(const char *text) {
    sqlite3_stmt *statement;
    if (sqlite3_prepare_v2(database, text, -1, &statement, NULL) != SQLITE_OK) fail(text);
    return statement;
}

static int64_t number_of(const bson_t *document) {
    bson_iter_t at;
    return bson_iter_init_find(&at, document, "number") ? bson_iter_as_int64(&at) : -1;
}

static void put(sqlite3_stmt *insert, const uint8_t *body, uint32_t length, int64_t id) {
    bson_t document;
    bson_iter_t at, found;
    uint32_t name_length;
    if (!bson_init_static(&document, body, length) || !bson_iter_init(&at, &document)) fail("body");
    if (!bson_iter_find_descendant(&at, "customer.name", &found)) fail("name");
    const char *name = bson_iter_utf8(&found, &name_length);
    sqlite3_bind_blob(insert, 1, &id, sizeof id, SQLITE_STATIC);
    sqlite3_bind_blob(insert, 2, body, length, SQLITE_STATIC);
    sqlite3_bind_int64(insert, 3, number_of(&document));
    sqlite3_bind_text(insert, 4, name, name_length, SQLITE_STATIC);
    if (sqlite3_step(insert) != SQLITE_DONE) fail("insert");
    sqlite3_reset(insert);
}

static const char *INSERT = "INSERT INTO documents (coll, idkey, body, number, name) VALUES ('c', ?, ?, ?, ?)";

static uint32_t length_at(const uint8_t *at) { return at[0] | at[1] << 8 | at[2] << 16 | (uint32_t)at[3] << 24; }

static const uint8_t *fill(const uint8_t *stream, size_t size) {
    const uint8_t *last = stream;
    sqlite3_stmt *insert = prepare(INSERT);
    run("BEGIN");
    for (size_t at = 0; at < size; at += length_at(stream + at)) {
        last = stream + at;
        put(insert, last, length_at(last), count++);
    }
    run("COMMIT");
    sqlite3_finalize(insert);
    return last;
}

/* The documents with no such number: a scan. */
static double scan(void) {
    double began = now();
    long long found = 0;
    sqlite3_stmt *all = prepare("SELECT body FROM documents WHERE coll = 'c' ORDER BY place");
    while (sqlite3_step(all) == SQLITE_ROW) {
        bson_t document;
        bson_init_static(&document, sqlite3_column_blob(all, 0), sqlite3_column_bytes(all, 0));
        found += number_of(&document) == -1;
    }
    sqlite3_finalize(all);
    if (found) fail("found");
    return now() - began;
}

static double make_index(void) {
    run("DROP INDEX IF EXISTS by_number");
    double began = now();
    run("CREATE INDEX by_number ON documents (number)");
    return now() - began;
}

/* Finds of one document: its bytes alone, or a query of JSON in and a document of JSON out. */
static double find(long long finds, int is_json) {
    sqlite3_stmt *one = prepare("SELECT body FROM documents WHERE number = ? ORDER BY place");
    unsigned seed = 1;
    size_t written = 0;
    double began = now();
    for (long long i = 0; i < finds; i++) {
        int64_t number = (int64_t)(rand_r(&seed) % count) * 7919 % 1000003;
        if (is_json) {
            char text[64];
            bson_error_t error;
            int length = snprintf(text, sizeof text, "{\"number\":%lld}", (long long)number);
            bson_t *query = bson_new_from_json((uint8_t *)text, length, &error);
            number = number_of(query);
            bson_destroy(query);
        }
        sqlite3_bind_int64(one, 1, number);
        if (sqlite3_step(one) != SQLITE_ROW) fail("find");
        const uint8_t *body = sqlite3_column_blob(one, 0);
        if (is_json) {
            bson_t document;
            size_t length;
            bson_init_static(&document, body, sqlite3_column_bytes(one, 0));
            char *line = bson_as_canonical_extended_json(&document, &length);
            written += length;
            bson_free(line);
        } else {
            written += body[4];
        }
        sqlite3_reset(one);
    }
    double spent = now() - began;
    sqlite3_finalize(one);
    if (!written) fail("written");
    return spent;
}

/* Finds of some ten documents, whose numbers lie between two: their bytes alone, or a query of JSON in and documents of
   JSON out, in the order of their places. */
static double find_ten(long long finds, int is_json) {
    sqlite3_stmt *some = prepare("SELECT body FROM documents WHERE number >= ? AND number < ? ORDER BY place");
    const int64_t numbers = 1000003, width = 10 * numbers / count;
    unsigned seed = 2;
    size_t written = 0;
    double began = now();
    for (long long i = 0; i < finds; i++) {
        int64_t low = (int64_t)rand_r(&seed) % (numbers - width), high = low + width;
        if (is_json) {
            char text[96];
            bson_error_t error;
            bson_iter_t at, found;
            int length = snprintf(text, sizeof text, "{\"number\":{\"$gte\":%lld,\"$lt\":%lld}}", (long long)low, (long long)high);
            bson_t *query = bson_new_from_json((uint8_t *)text, length, &error);
            if (!bson_iter_init(&at, query) || !bson_iter_find_descendant(&at, "number.$gte", &found)) fail("query");
            low = bson_iter_as_int64(&found);
            if (!bson_iter_init(&at, query) || !bson_iter_find_descendant(&at, "number.$lt", &found)) fail("query");
            high = bson_iter_as_int64(&found);
            bson_destroy(query);
        }
        sqlite3_bind_int64(some, 1, low);
        sqlite3_bind_int64(some, 2, high);
        while (sqlite3_step(some) == SQLITE_ROW) {
            const uint8_t *body = sqlite3_column_blob(some, 0);
            if (is_json) {
                bson_t document;
                size_t length;
                bson_init_static(&document, body, sqlite3_column_bytes(some, 0));
                char *line = bson_as_canonical_extended_json(&document, &length);
                written += length;
                bson_free(line);
            } else {
                written += body[4];
            }
        }
        sqlite3_reset(some);
    }
    double spent = now() - began;
    sqlite3_finalize(some);
    if (!written) fail("written");
    return spent;
}

/* Inserts behind the others, each in its own transaction. They are taken back by their place. */
static double insert(long long inserts, const uint8_t *body) {
    sqlite3_stmt *insert = prepare(INSERT);
    double began = now();
    for (long long i = 0; i < inserts; i++) put(insert, body, length_at(body), count + i);
    double spent = now() - began;
    sqlite3_finalize(insert);
    char text[80];
    snprintf(text, sizeof text, "DELETE FROM documents WHERE place > %lld", count);
    run(text);
    return spent;
}

static double least_of(double spent, double before) { return before == 0 || spent < before ? spent : before; }

int main(int words, char **word) {
    if (words != 5) return 2;
    FILE *file = fopen(word[2], "rb");
    if (!file || sqlite3_open(word[1], &database) != SQLITE_OK) fail(word[2]);
    fseek(file, 0, SEEK_END);
    size_t size = ftell(file);
    rewind(file);
    uint8_t *stream = malloc(size);
    if (!stream || fread(stream, 1, size, file) != size) fail("stream");
    long long finds = atoll(word[3]), inserts = atoll(word[4]);
    run("PRAGMA journal_mode = WAL; PRAGMA synchronous = FULL");
    run("CREATE TABLE documents (place INTEGER PRIMARY KEY, coll TEXT NOT NULL, idkey BLOB NOT NULL, body BLOB NOT NULL,"
        " number INTEGER, name TEXT, UNIQUE (coll, idkey))");
    const uint8_t *body = fill(stream, size);
    double scanned = 0, made = 0, bytes = 0, json = 0, ten_bytes = 0, ten_json = 0, plain = 0, indexed = 0;
    for (int i = 0; i < ROUNDS; i++) {
        scanned = least_of(scan(), scanned);
        plain = least_of(insert(inserts, body), plain);
    }
    for (int i = 0; i < ROUNDS; i++) made = least_of(make_index(), made);
    run("CREATE INDEX by_name ON documents (name)");
    for (int i = 0; i < ROUNDS; i++) {
        bytes = least_of(find(finds, 0), bytes);
        json = least_of(find(finds, 1), json);
        ten_bytes = least_of(find_ten(finds / 10, 0), ten_bytes);
        ten_json = least_of(find_ten(finds / 10, 1), ten_json);
        indexed = least_of(insert(inserts, body), indexed);
    }
    say("a scan", scanned, 1);
    say("making an index of numbers", made, 1);
    say("a find by the index, its bytes", bytes, finds);
    say("a find by the index, JSON in and out", json, finds);
    say("a find of ten by a range and the index, their bytes", ten_bytes, finds / 10);
    say("a find of ten by a range and the index, JSON in and out", ten_json, finds / 10);
    say("an insert", plain, inserts);
    say("an insert with two indexes", indexed, inserts);
    printf("that is %.2f of one without\n", indexed / plain);
    return 0;
}
