/* What driver.py asks, by libmongoc: driver ADDRESS. */
#include <inttypes.h>
#include <mongoc/mongoc.h>
#include <stdio.h>
#include <stdlib.h>
#include <string.h>

static bson_t nothing = BSON_INITIALIZER;
static bson_error_t error;

/* The end of a step that wasn't done. */
static void refused(const char *name) { printf("%s error %d\n", name, (int)error.code); }

/* A number of an answer, and the answer's end. */
static void told(const char *name, bool is_done, bson_t *reply, const char *key) {
    bson_iter_t found;
    if (is_done && bson_iter_init_find(&found, reply, key)) {
        printf("%s %" PRId64 "\n", name, bson_iter_as_int64(&found));
    } else {
        refused(name);
    }
    bson_destroy(reply);
}

static bson_t *item(int id, int a) { return BCON_NEW("_id", BCON_INT32(id), "a", BCON_INT32(a)); }

static void free_all(bson_t **documents, int count) {
    for (int n = 0; n < count; n++) bson_destroy(documents[n]);
}

static void insert(mongoc_collection_t *items) {
    bson_t *documents[298], *one = item(1, 1), reply;
    if (mongoc_collection_insert_one(items, one, NULL, NULL, &error)) printf("insert_one 1\n"); else refused("insert_one");
    for (int n = 0; n < 298; n++) documents[n] = item(n + 2, (n + 2) % 7);
    bool is_done = mongoc_collection_insert_many(items, (const bson_t **)documents, 298, NULL, &reply, &error);
    told("insert_many", is_done, &reply, "insertedCount");
    if (mongoc_collection_insert_one(items, one, NULL, NULL, &error)) printf("duplicate 1\n"); else refused("duplicate");
    free_all(documents, 298);
    bson_destroy(one);
}

/* How many went in of three, and the places of the others. */
static void insert_unordered(mongoc_collection_t *items) {
    bson_t *documents[] = {item(1, 1), item(1000, 7), item(2, 2)}, reply, *options = BCON_NEW("ordered", BCON_BOOL(false));
    bson_iter_t at, places;
    mongoc_collection_insert_many(items, (const bson_t **)documents, 3, options, &reply, &error);
    printf("unordered [%d", bson_iter_init_find(&at, &reply, "insertedCount") ? (int)bson_iter_as_int64(&at) : -1);
    const char *between = ",[";
    if (bson_iter_init_find(&at, &reply, "writeErrors") && bson_iter_recurse(&at, &places)) {
        while (bson_iter_next(&places)) {
            bson_iter_t index;
            if (bson_iter_recurse(&places, &index) && bson_iter_find(&index, "index")) {
                printf("%s%d", between, (int)bson_iter_as_int64(&index));
                between = ",";
            }
        }
    }
    printf("]]\n");
    free_all(documents, 3);
    bson_destroy(options);
    bson_destroy(&reply);
}

/* How many documents a query finds, and the sum of what they have under a key. */
static void find(mongoc_collection_t *items, const char *name, bson_t *query, bson_t *options, const char *key) {
    mongoc_cursor_t *cursor = mongoc_collection_find_with_opts(items, query, options, NULL);
    const bson_t *one;
    bson_iter_t at;
    int count = 0, sum = 0;
    while (mongoc_cursor_next(cursor, &one)) {
        count++;
        if (bson_iter_init_find(&at, one, key)) sum += (int)bson_iter_as_int64(&at);
    }
    if (mongoc_cursor_error(cursor, &error)) refused(name); else printf("%s [%d,%d]\n", name, count, sum);
    mongoc_cursor_destroy(cursor);
    bson_destroy(options);
    if (query != &nothing) bson_destroy(query);
}

static void close_early(mongoc_collection_t *items) {
    bson_t *options = BCON_NEW("batchSize", BCON_INT32(10));
    mongoc_cursor_t *cursor = mongoc_collection_find_with_opts(items, &nothing, options, NULL);
    const bson_t *one;
    mongoc_cursor_next(cursor, &one);
    mongoc_cursor_destroy(cursor);
    bson_destroy(options);
    find(items, "closed_cursor", item(3, 3), BCON_NEW("limit", BCON_INT64(1)), "a");
}

static void count(mongoc_collection_t *items) {
    bson_t *query = BCON_NEW("a", BCON_INT32(3));
    int64_t n = mongoc_collection_count_documents(items, query, NULL, NULL, NULL, &error);
    if (n < 0) refused("count"); else printf("count %" PRId64 "\n", n);
    n = mongoc_collection_estimated_document_count(items, NULL, NULL, NULL, &error);
    if (n < 0) refused("estimated"); else printf("estimated %" PRId64 "\n", n);
    bson_destroy(query);
}

static void change(mongoc_collection_t *items) {
    bson_t *five = BCON_NEW("_id", BCON_INT32(5)), *six = BCON_NEW("_id", BCON_INT32(6)), *seven = BCON_NEW("_id", BCON_INT32(7));
    bson_t *two = BCON_NEW("a", BCON_INT32(2)), *four = BCON_NEW("a", BCON_INT32(4)), *new = BCON_NEW("a", BCON_INT32(6)), reply;
    bson_t *set = BCON_NEW("$set", "{", "b", BCON_INT32(1), "}"), *add = BCON_NEW("$inc", "{", "a", BCON_INT32(100), "}");
    bool is_done = mongoc_collection_replace_one(items, five, new, NULL, &reply, &error);
    told("replace_one", is_done, &reply, "modifiedCount");
    is_done = mongoc_collection_update_one(items, six, set, NULL, &reply, &error);
    told("update_one", is_done, &reply, "modifiedCount");
    is_done = mongoc_collection_update_many(items, two, add, NULL, &reply, &error);
    told("update_many", is_done, &reply, "modifiedCount");
    is_done = mongoc_collection_delete_one(items, seven, NULL, &reply, &error);
    told("delete_one", is_done, &reply, "deletedCount");
    is_done = mongoc_collection_delete_many(items, four, NULL, &reply, &error);
    told("delete_many", is_done, &reply, "deletedCount");
    bson_t *all[] = {five, six, seven, two, four, new, set, add};
    free_all(all, 8);
}

static void insert_long(mongoc_client_t *client, const char *database) {
    mongoc_collection_t *texts = mongoc_client_get_collection(client, database, "c_long");
    char *text = malloc(1000001);
    bson_t *documents[20], reply;
    memset(text, 'x', 1000000);
    text[1000000] = 0;
    for (int n = 0; n < 20; n++) documents[n] = BCON_NEW("_id", BCON_INT32(n), "text", BCON_UTF8(text));
    bool is_done = mongoc_collection_insert_many(texts, (const bson_t **)documents, 20, NULL, &reply, &error);
    told("long_insert", is_done, &reply, "insertedCount");
    find(texts, "long_documents", &nothing, BCON_NEW("batchSize", BCON_INT32(8)), "_id");
    free_all(documents, 20);
    free(text);
    mongoc_collection_destroy(texts);
}

static void run(mongoc_client_t *client, const char *database) {
    mongoc_collection_t *items = mongoc_client_get_collection(client, database, "c");
    bson_t *ping = BCON_NEW("ping", BCON_INT32(1)), *nosuch = BCON_NEW("nosuch", BCON_INT32(1)), reply;
    bool is_done = mongoc_client_command_simple(client, "admin", ping, NULL, &reply, &error);
    told("ping", is_done, &reply, "ok");
    insert(items);
    insert_unordered(items);
    find(items, "batches", &nothing, BCON_NEW("batchSize", BCON_INT32(50)), "a");
    find(items, "default_batches", &nothing, bson_new(), "a");
    close_early(items);
    find(items, "find_one", BCON_NEW("_id", BCON_INT32(5)), BCON_NEW("limit", BCON_INT64(1)), "a");
    find(items, "find_none", BCON_NEW("_id", BCON_INT32(5000)), BCON_NEW("limit", BCON_INT64(1)), "a");
    find(items, "sorted", BCON_NEW("a", BCON_INT32(3)), BCON_NEW("sort", "{", "_id", BCON_INT32(-1), "}", "limit", BCON_INT64(2)), "_id");
    count(items);
    change(items);
    is_done = mongoc_client_command_simple(client, database, nosuch, NULL, &reply, &error);
    told("unknown_command", is_done, &reply, "ok");
    find(items, "unknown_operator", BCON_NEW("a", "{", "$nosuch", BCON_INT32(1), "}"), bson_new(), "a");
    insert_long(client, database);
    if (mongoc_collection_drop(items, &error)) printf("drop 1\n"); else refused("drop");
    bson_destroy(ping);
    bson_destroy(nosuch);
    mongoc_collection_destroy(items);
}

int main(int count, char **words) {
    if (count != 2) return 2;
    mongoc_init();
    mongoc_uri_t *address = mongoc_uri_new(words[1]);
    mongoc_client_t *client = address ? mongoc_client_new_from_uri(address) : NULL;
    if (!client) return 2;
    run(client, mongoc_uri_get_database(address));
    mongoc_client_destroy(client);
    mongoc_uri_destroy(address);
    mongoc_cleanup();
    return 0;
}
