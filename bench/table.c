/* Times SQLite on the statements of store_table: table FILE ROWS. FILE must not be there. Build: see README.md beside this file. */
#include <sqlite3.h>
#include <stdint.h>
#include <stdio.h>
#include <stdlib.h>
#include <string.h>
#include <time.h>

static const char *CREATE = "CREATE TABLE documents (place INTEGER PRIMARY KEY, coll TEXT NOT NULL, idkey BLOB NOT NULL, body BLOB NOT NULL, UNIQUE (coll, idkey)) STRICT";

static double seconds(clockid_t clock) {
    struct timespec now;
    clock_gettime(clock, &now);
    return now.tv_sec + now.tv_nsec / 1e9;
}

static double clock_start, processor_start;

static void start(void) {
    clock_start = seconds(CLOCK_MONOTONIC);
    processor_start = seconds(CLOCK_PROCESS_CPUTIME_ID);
}

static void say(const char *what, long long got) {
    double clock = seconds(CLOCK_MONOTONIC) - clock_start, processor = seconds(CLOCK_PROCESS_CPUTIME_ID) - processor_start;
    printf("%s: clock %.0f us, processor %.0f us (%lld)\n", what, clock * 1e6, processor * 1e6, got);
}

static void key_of(uint64_t n, unsigned char key[8]) {
    uint64_t scattered = n * UINT64_C(11400714819323198485);
    for (int i = 0; i < 8; i++) key[i] = scattered >> (56 - 8 * i);
}

static sqlite3 *database;

static void run(const char *text) {
    if (sqlite3_exec(database, text, NULL, NULL, NULL) != SQLITE_OK) {
        fprintf(stderr, "%s: %s\n", text, sqlite3_errmsg(database));
        exit(1);
    }
}

static sqlite3_stmt *prepare(const char *text) {
    sqlite3_stmt *statement;
    if (sqlite3_prepare_v2(database, text, -1, &statement, NULL) != SQLITE_OK) exit(1);
    return statement;
}

static void append(long long rows) {
    unsigned char key[8], body[1000];
    memset(body, 7, sizeof body);
    run("BEGIN");
    sqlite3_stmt *insert = prepare("INSERT INTO documents (place, coll, idkey, body) VALUES (?1, ?2, ?3, ?4)");
    for (long long n = 0; n < rows; n++) {
        key_of(n, key);
        sqlite3_bind_int64(insert, 1, n + 1);
        sqlite3_bind_text(insert, 2, "c", 1, SQLITE_STATIC);
        sqlite3_bind_blob(insert, 3, key, 8, SQLITE_STATIC);
        sqlite3_bind_blob(insert, 4, body, sizeof body, SQLITE_STATIC);
        if (sqlite3_step(insert) != SQLITE_DONE) exit(1);
        sqlite3_reset(insert);
    }
    sqlite3_finalize(insert);
    run("COMMIT");
}

/* What an open tests, but for the collection and key of an earlier row, for which C has no set at hand. */
static long long test(void) {
    long long count = 0, last = 0;
    sqlite3_stmt *all = prepare("SELECT place, coll, idkey, body FROM documents ORDER BY place");
    while (sqlite3_step(all) == SQLITE_ROW) {
        long long place = sqlite3_column_int64(all, 0);
        if (sqlite3_column_type(all, 0) != SQLITE_INTEGER || sqlite3_column_type(all, 1) != SQLITE_TEXT ||
            sqlite3_column_type(all, 2) != SQLITE_BLOB || sqlite3_column_type(all, 3) != SQLITE_BLOB || place <= last) exit(1);
        last = place;
        count++;
    }
    sqlite3_finalize(all);
    return count;
}

static long long read_all(void) {
    long long bytes = 0;
    sqlite3_stmt *bodies = prepare("SELECT body FROM documents WHERE +coll = ?1 ORDER BY place");
    sqlite3_bind_text(bodies, 1, "c", 1, SQLITE_STATIC);
    while (sqlite3_step(bodies) == SQLITE_ROW) {
        const unsigned char *body = sqlite3_column_blob(bodies, 0);
        bytes += body ? sqlite3_column_bytes(bodies, 0) : 0;
    }
    sqlite3_finalize(bodies);
    return bytes;
}

static long long look_ups(long long rows) {
    unsigned char key[8];
    long long found = 0;
    sqlite3_stmt *named = prepare("SELECT place, body FROM documents WHERE coll = ?1 AND idkey = ?2 ORDER BY place");
    for (long long n = 0; n < 10000; n++) {
        key_of((n * 7919) % rows, key);
        sqlite3_bind_text(named, 1, "c", 1, SQLITE_STATIC);
        sqlite3_bind_blob(named, 2, key, 8, SQLITE_STATIC);
        while (sqlite3_step(named) == SQLITE_ROW) {
            size_t size = sqlite3_column_bytes(named, 1);
            char *copy = malloc(size);
            memcpy(copy, sqlite3_column_blob(named, 1), size);
            found += copy[0] == 7;
            free(copy);
        }
        sqlite3_reset(named);
    }
    sqlite3_finalize(named);
    return found;
}

int main(int argc, char **argv) {
    if (argc < 2 || sqlite3_open(argv[1], &database) != SQLITE_OK) return 2;
    long long rows = argc > 2 ? atoll(argv[2]) : 50000;
    run("PRAGMA journal_mode = WAL");
    run("PRAGMA synchronous = FULL");
    run("PRAGMA foreign_keys = ON");
    run("PRAGMA locking_mode = EXCLUSIVE");
    run(CREATE);
    start();
    append(rows);
    say("append in one transaction", rows);
    start();
    long long count = test();
    say("open", count);
    start();
    long long bytes = read_all();
    say("read all bodies", bytes);
    start();
    long long found = look_ups(rows);
    say("look-ups by key", found);
    sqlite3_close(database);
    return 0;
}
