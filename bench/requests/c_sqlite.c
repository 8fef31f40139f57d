/* The requests of lines.py in one process over libbson and SQLite: each change, or each list of requests, is a transaction of its own in
 * a file with a log, on the disk before the next one. The answers are those of `fallowtime FILE`, but for blanks.
 *
 *     c_sqlite FILE < LINES > ANSWERS
 */
#include <bson/bson.h>
#include <sqlite3.h>
#include <stdint.h>
#include <stdio.h>
#include <stdlib.h>
#include <string.h>

static sqlite3 *database;
static sqlite3_stmt *insert, *find, *update, *delete;
/* What ends an answer: a line, or a comma in a list. */
static char end = '\n';

static void fail(const char *what) {
    fprintf(stderr, "%s: %s\n", what, sqlite3_errmsg(database));
    exit(1);
}

static void run(const char *text) {
    if (sqlite3_exec(database, text, NULL, NULL, NULL) != SQLITE_OK) fail(text);
}

static sqlite3_stmt *prepare(const char *text) {
    sqlite3_stmt *statement;
    if (sqlite3_prepare_v2(database, text, -1, &statement, NULL) != SQLITE_OK) fail(text);
    return statement;
}

/* The document of an `_id` alone. */
static void key_of(bson_iter_t *id, bson_t *key) {
    bson_init(key);
    bson_append_iter(key, "_id", 3, id);
}

/* Binds the collection and the key of an `_id`, and takes a step. */
static int step(sqlite3_stmt *statement, const char *name, bson_iter_t *id) {
    bson_t key;
    key_of(id, &key);
    sqlite3_reset(statement);
    sqlite3_bind_text(statement, 1, name, -1, SQLITE_TRANSIENT);
    sqlite3_bind_blob(statement, 2, bson_get_data(&key), key.len, SQLITE_TRANSIENT);
    bson_destroy(&key);
    return sqlite3_step(statement);
}

static void bind_body(sqlite3_stmt *statement, const bson_t *body) {
    sqlite3_reset(statement);
    sqlite3_bind_blob(statement, 3, bson_get_data(body), body->len, SQLITE_TRANSIENT);
}

/* Whether the `_id` was free. */
static bool put_in(const char *name, bson_iter_t *id, const bson_t *body) {
    bind_body(insert, body);
    int done = step(insert, name, id);
    sqlite3_reset(insert);
    if (done != SQLITE_DONE && done != SQLITE_CONSTRAINT) fail("insert");
    return done == SQLITE_DONE;
}

/* Whether there was one. */
static bool put_back(const char *name, bson_iter_t *id, const bson_t *body) {
    bind_body(update, body);
    if (step(update, name, id) != SQLITE_DONE) fail("update");
    sqlite3_reset(update);
    return sqlite3_changes(database) == 1;
}

static bool body_of(const char *name, bson_iter_t *id, bson_t *body) {
    int found = step(find, name, id);
    if (found != SQLITE_ROW && found != SQLITE_DONE) fail("find");
    return found == SQLITE_ROW && bson_init_static(body, sqlite3_column_blob(find, 0), sqlite3_column_bytes(find, 0));
}

static void answer_error(const char *kind) { printf("{\"error\":\"%s\"}%c", kind, end); }

static void answer_nothing(void) { printf("{}%c", end); }

/* An object with one key. */
static void answer_with(const bson_t *object) {
    size_t length;
    char *text = bson_as_canonical_extended_json(object, &length);
    fwrite(text, 1, length, stdout);
    putchar(end);
    bson_free(text);
}

static void get(const char *name, bson_iter_t *id) {
    bson_t body, whole;
    if (!body_of(name, id, &body)) return answer_error("NotFound");
    bson_init(&whole);
    bson_append_document(&whole, "document", 8, &body);
    sqlite3_reset(find);
    answer_with(&whole);
    bson_destroy(&whole);
}

/* Puts the value under the key in the place of what is there, or behind all others. */
static void set(const char *name, bson_iter_t *id, const char *key, bson_iter_t *value) {
    bson_t body, changed;
    bson_iter_t at;
    bool was_there = false;
    if (!body_of(name, id, &body)) return answer_error("NotFound");
    bson_init(&changed);
    bson_iter_init(&at, &body);
    while (bson_iter_next(&at)) {
        bool is_it = strcmp(bson_iter_key(&at), key) == 0;
        bson_append_iter(&changed, bson_iter_key(&at), -1, is_it ? value : &at);
        was_there |= is_it;
    }
    if (!was_there) bson_append_iter(&changed, key, -1, value);
    sqlite3_reset(find);
    if (!put_back(name, id, &changed)) fail("it went away");
    bson_destroy(&changed);
    answer_nothing();
}

static void answer_insert(const char *name, bson_iter_t *id, const bson_t *document) {
    bson_t key;
    if (!put_in(name, id, document)) return answer_error("DuplicateId");
    key_of(id, &key);
    answer_with(&key);
    bson_destroy(&key);
}

/* One request: a command, a collection, and what stands behind these. */
static void answer(const bson_t *request) {
    bson_iter_t at, id;
    bson_t document;
    const uint8_t *bytes;
    uint32_t size;
    bson_iter_init(&at, request);
    bson_iter_next(&at);
    const char *command = bson_iter_utf8(&at, NULL);
    bson_iter_next(&at);
    const char *name = bson_iter_utf8(&at, NULL);
    bson_iter_next(&at);
    if (strcmp(command, "get") == 0) return get(name, &at);
    if (strcmp(command, "set") == 0) {
        id = at;
        bson_iter_next(&at);
        const char *key = bson_iter_utf8(&at, NULL);
        bson_iter_next(&at);
        return set(name, &id, key, &at);
    }
    if (strcmp(command, "remove") == 0) {
        if (step(delete, name, &at) != SQLITE_DONE) fail("delete");
        sqlite3_reset(delete);
        return sqlite3_changes(database) == 1 ? answer_nothing() : answer_error("NotFound");
    }
    bson_iter_document(&at, &size, &bytes);
    bson_init_static(&document, bytes, size);
    if (!bson_iter_init_find(&id, &document, "_id")) return answer_error("NoId");
    if (strcmp(command, "insert") == 0) return answer_insert(name, &id, &document);
    bool is_done = put_back(name, &id, &document) || (strcmp(command, "put") == 0 && put_in(name, &id, &document));
    is_done ? answer_nothing() : answer_error("NotFound");
}

/* The requests of a list, in one transaction. */
static void answer_list(bson_iter_t *list) {
    bson_iter_t at;
    bson_t request;
    const uint8_t *bytes;
    uint32_t size;
    bson_iter_recurse(list, &at);
    fputs("{\"all\":[", stdout);
    run("BEGIN");
    for (bool more = bson_iter_next(&at); more;) {
        bson_iter_array(&at, &size, &bytes);
        bson_init_static(&request, bytes, size);
        more = bson_iter_next(&at);
        end = more ? ',' : ' ';
        answer(&request);
    }
    run("COMMIT");
    end = '\n';
    puts("]}");
}

/* What a line asks for. */
static void answer_line(const bson_t *request) {
    bson_iter_t at;
    bson_iter_init(&at, request);
    bson_iter_next(&at);
    bool is_list = strcmp(bson_iter_utf8(&at, NULL), "all") == 0;
    if (is_list && bson_iter_next(&at)) return answer_list(&at);
    answer(request);
}

int main(int count, char **words) {
    char *line = NULL;
    size_t room = 0;
    if (count != 2 || sqlite3_open(words[1], &database) != SQLITE_OK) fail("open");
    run("PRAGMA journal_mode = WAL");
    run("PRAGMA synchronous = FULL");
    run("CREATE TABLE documents (place INTEGER PRIMARY KEY, coll TEXT NOT NULL, idkey BLOB NOT NULL, body BLOB NOT NULL, UNIQUE (coll, idkey))");
    insert = prepare("INSERT INTO documents (coll, idkey, body) VALUES (?1, ?2, ?3)");
    find = prepare("SELECT body FROM documents WHERE coll = ?1 AND idkey = ?2");
    update = prepare("UPDATE documents SET body = ?3 WHERE coll = ?1 AND idkey = ?2");
    delete = prepare("DELETE FROM documents WHERE coll = ?1 AND idkey = ?2");
    for (ssize_t length; (length = getline(&line, &room, stdin)) > 0;) {
        bson_error_t error;
        bson_t *request = bson_new_from_json((const uint8_t *)line, length, &error);
        if (!request) fail(error.message);
        answer_line(request);
        fflush(stdout);
        bson_destroy(request);
    }
    return 0;
}
