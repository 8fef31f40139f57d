/* Times questions to each document of a stream by libbson: select FILE ROUNDS. Build: see README.md beside this file. */
#include <bson/bson.h>
#include <stdio.h>
#include <stdlib.h>
#include <string.h>
#include <time.h>

static double seconds(void) {
    struct timespec now;
    clock_gettime(CLOCK_PROCESS_CPUTIME_ID, &now);
    return now.tv_sec + now.tv_nsec / 1e9;
}

/* Whether the value at a dotted path is this text. */
static bool is_text(const bson_t *document, const char *path, const char *want) {
    bson_iter_t top, found;
    uint32_t length;
    if (!bson_iter_init(&top, document) || !bson_iter_find_descendant(&top, path, &found)) return false;
    if (!BSON_ITER_HOLDS_UTF8(&found)) return false;
    const char *text = bson_iter_utf8(&found, &length);
    return length == strlen(want) && memcmp(text, want, length) == 0;
}

/* How many documents of the stream it holds of. */
static int count(const uint8_t *bytes, size_t size, const char *path, const char *want) {
    int selected = 0;
    for (size_t at = 0; at + 5 <= size;) {
        uint32_t length;
        memcpy(&length, bytes + at, 4);
        bson_t document;
        if (!bson_init_static(&document, bytes + at, length)) return -1;
        selected += is_text(&document, path, want);
        at += length;
    }
    return selected;
}

int main(int argc, char **argv) {
    FILE *file = argc == 3 ? fopen(argv[1], "rb") : NULL;
    if (!file) return 2;
    uint8_t *bytes = malloc(1 << 26);
    size_t size = fread(bytes, 1, 1 << 26, file);
    const char *paths[] = {"customer_name", "order_lines.0.colour_name", "ship_address.city_name"};
    const char *texts[] = {"Customer 7", "blue", "Graz"};
    for (int question = 0; question < 3; question++) {
        double least = 1e9;
        int selected = 0;
        for (int round = 0; round < atoi(argv[2]); round++) {
            double start = seconds();
            selected = count(bytes, size, paths[question], texts[question]);
            double taken = seconds() - start;
            if (taken < least) least = taken;
        }
        printf("%s: %d selected, %.0f us\n", paths[question], selected, least * 1e6);
    }
    return 0;
}
