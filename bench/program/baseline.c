/* The program's commands on one table, by libbson and SQLite: baseline FILE import|export|find|lines|count|get|insert|dump|load [WORD WORD]. The collection is `c`. find takes a dotted
 * path and a text, and so do lines, which is find in Extended JSON, and count; get takes the number of an `_id`, and insert a document in Extended JSON. It tests less than bson_store: neither repeated keys nor patterns, and `_id`s are told apart by their bytes. */
#include <bson/bson.h>
#include <sqlite3.h>
#include <stdint.h>
#include <stdio.h>
#include <stdlib.h>
#include <string.h>

static sqlite3 *database;

static void fail(const char *what) {
    fprintf(stderr, "%s: %s\n", what, sqlite3_errmsg(database));
    exit(1);
}

static void run(const char *text) {
    if (sqlite3_exec(database, text, NULL, NULL, NULL) != SQLITE_OK) fail(text);
}

static sqlite3_stmt *prepare(const char *text) {
    sqlite3_stmt *statement;
    if (sqlite3_prepare_v2(database, text, -1, &statement, NULL) != SQLITE_OK) fail(text);
    return statement;
}

static uint8_t *read_all(size_t *size) {
    size_t room = 1 << 20;
    uint8_t *bytes = malloc(room);
    *size = 0;
    for (size_t n; (n = fread(bytes + *size, 1, room - *size, stdin)) > 0;) {
        *size += n;
        if (*size == room) bytes = realloc(bytes, room *= 2);
    }
    return bytes;
}

/* The document of a document's `_id` alone. */
static void key_of(const bson_t *document, bson_t *key) {
    bson_iter_t id;
    if (!bson_iter_init_find(&id, document, "_id")) fail("no _id");
    bson_init(key);
    bson_append_iter(key, "_id", 3, &id);
}

static void put(sqlite3_stmt *insert, int64_t place, const bson_t *document) {
    bson_t key;
    key_of(document, &key);
    sqlite3_bind_int64(insert, 1, place);
    sqlite3_bind_blob(insert, 2, bson_get_data(&key), key.len, SQLITE_TRANSIENT);
    sqlite3_bind_blob(insert, 3, bson_get_data(document), document->len, SQLITE_TRANSIENT);
    if (sqlite3_step(insert) != SQLITE_DONE) fail("insert");
    sqlite3_reset(insert);
    bson_destroy(&key);
}

static int64_t last_place(void) {
    sqlite3_stmt *last = prepare("SELECT place FROM documents ORDER BY place DESC LIMIT 1");
    int64_t place = sqlite3_step(last) == SQLITE_ROW ? sqlite3_column_int64(last, 0) : 0;
    sqlite3_finalize(last);
    return place;
}

static void import(void) {
    size_t size;
    uint8_t *bytes = read_all(&size);
    run("BEGIN");
    sqlite3_stmt *insert = prepare("INSERT INTO documents VALUES (?1, 'c', ?2, ?3)");
    int64_t first = last_place(), place = first;
    for (size_t at = 0; at < size;) {
        uint32_t length;
        bson_t document;
        memcpy(&length, bytes + at, 4);
        if (!bson_init_static(&document, bytes + at, length)) fail("length");
        if (!bson_validate(&document, BSON_VALIDATE_UTF8 | BSON_VALIDATE_UTF8_ALLOW_NULL, NULL)) fail("fault");
        put(insert, ++place, &document);
        at += length;
    }
    run("COMMIT");
    printf("%lld\n", (long long)(place - first));
}

static void load(void) {
    size_t size;
    uint8_t *bytes = read_all(&size);
    run("BEGIN");
    sqlite3_stmt *insert = prepare("INSERT INTO documents VALUES (?1, 'c', ?2, ?3)");
    int64_t first = last_place(), place = first;
    for (size_t at = 0; at < size;) {
        uint8_t *end = memchr(bytes + at, '\n', size - at);
        size_t length = end ? (size_t)(end - (bytes + at)) : size - at;
        bson_error_t error;
        bson_t *document = bson_new_from_json(bytes + at, length, &error);
        if (!document) fail("json");
        put(insert, ++place, document);
        bson_destroy(document);
        at += length + 1;
    }
    run("COMMIT");
    printf("%lld\n", (long long)(place - first));
}

static bool is_text(const bson_t *document, const char *path, const char *want) {
    bson_iter_t top, found;
    uint32_t length;
    if (!bson_iter_init(&top, document) || !bson_iter_find_descendant(&top, path, &found)) return false;
    if (!BSON_ITER_HOLDS_UTF8(&found)) return false;
    const char *text = bson_iter_utf8(&found, &length);
    return length == strlen(want) && memcmp(text, want, length) == 0;
}

/* Puts one document in, and copies the log into the file, as whoever closes it last does. */
static void insert(const char *json) {
    bson_error_t error;
    bson_t *document = bson_new_from_json((const uint8_t *)json, -1, &error);
    if (!document) fail("json");
    sqlite3_stmt *insert = prepare("INSERT INTO documents VALUES (?1, 'c', ?2, ?3)");
    put(insert, last_place() + 1, document);
    bson_destroy(document);
    sqlite3_finalize(insert);
    sqlite3_close(database);
}

/* How many documents have a text at a path. */
static void count(const char *path, const char *want) {
    sqlite3_stmt *all = prepare("SELECT body FROM documents WHERE +coll = 'c'");
    long long found = 0;
    while (sqlite3_step(all) == SQLITE_ROW) {
        bson_t document;
        if (!bson_init_static(&document, sqlite3_column_blob(all, 0), sqlite3_column_bytes(all, 0))) fail("length");
        found += is_text(&document, path, want);
    }
    printf("%lld\n", found);
}

/* Writes all documents, those with a text at a path, or each as a line of JSON. */
static void write_all(const char *path, const char *want, bool json) {
    sqlite3_stmt *all = prepare("SELECT body FROM documents WHERE +coll = 'c' ORDER BY place");
    while (sqlite3_step(all) == SQLITE_ROW) {
        const uint8_t *bytes = sqlite3_column_blob(all, 0);
        size_t size = sqlite3_column_bytes(all, 0);
        bson_t document;
        if (!bson_init_static(&document, bytes, size)) fail("length");
        if (path && !is_text(&document, path, want)) continue;
        if (json) {
            char *text = bson_as_canonical_extended_json(&document, NULL);
            puts(text);
            bson_free(text);
        } else {
            fwrite(bytes, 1, size, stdout);
        }
    }
}

static void get(const char *number) {
    bson_t *key = BCON_NEW("_id", BCON_INT32(atoi(number)));
    sqlite3_stmt *one = prepare("SELECT body FROM documents WHERE coll = 'c' AND idkey = ?1");
    sqlite3_bind_blob(one, 1, bson_get_data(key), key->len, SQLITE_TRANSIENT);
    if (sqlite3_step(one) != SQLITE_ROW) fail("get");
    bson_t document;
    if (!bson_init_static(&document, sqlite3_column_blob(one, 0), sqlite3_column_bytes(one, 0))) fail("length");
    puts(bson_as_canonical_extended_json(&document, NULL));
}

int main(int argc, char **argv) {
    if (argc < 3 || sqlite3_open(argv[1], &database) != SQLITE_OK) return 2;
    run("CREATE TABLE IF NOT EXISTS documents (place INTEGER PRIMARY KEY, coll TEXT NOT NULL, idkey BLOB NOT NULL, body BLOB NOT NULL, UNIQUE (coll, idkey)) STRICT");
    if (!strcmp(argv[2], "import")) import();
    else if (!strcmp(argv[2], "load")) load();
    else if (!strcmp(argv[2], "export")) write_all(NULL, NULL, false);
    else if (!strcmp(argv[2], "dump")) write_all(NULL, NULL, true);
    else if (!strcmp(argv[2], "find") && argc == 5) write_all(argv[3], argv[4], false);
    else if (!strcmp(argv[2], "lines") && argc == 5) write_all(argv[3], argv[4], true);
    else if (!strcmp(argv[2], "count") && argc == 5) count(argv[3], argv[4]);
    else if (!strcmp(argv[2], "get") && argc == 4) get(argv[3]);
    else if (!strcmp(argv[2], "insert") && argc == 4) insert(argv[3]);
    else return 2;
    return 0;
}
