/* Times libbson's bson_validate and bson_copy over one document: validate FILE ROUNDS. Build: see README.md beside this file. */
#include <bson/bson.h>
#include <stdio.h>
#include <stdlib.h>
#include <time.h>

static double seconds(void) {
    struct timespec now;
    clock_gettime(CLOCK_PROCESS_CPUTIME_ID, &now);
    return now.tv_sec + now.tv_nsec / 1e9;
}

int main(int argc, char **argv) {
    FILE *file = argc == 3 ? fopen(argv[1], "rb") : NULL;
    if (!file) return 2;
    uint8_t *bytes = malloc(1 << 25);
    size_t size = fread(bytes, 1, 1 << 25, file);
    bson_t document;
    if (!bson_init_static(&document, bytes, size)) return 1;
    bson_validate_flags_t flags[] = {BSON_VALIDATE_NONE, BSON_VALIDATE_UTF8};
    const char *names[] = {"no flags", "UTF-8"};
    for (int f = 0; f < 2; f++) {
        double least = 1e9;
        for (int round = 0; round < atoi(argv[2]); round++) {
            size_t offset;
            double start = seconds();
            if (!bson_validate(&document, flags[f], &offset)) return 1;
            double taken = seconds() - start;
            if (taken < least) least = taken;
        }
        printf("bson_validate, %s: %.0f us, %.0f MB/s\n", names[f], least * 1e6, size / least / 1e6);
    }
    double least = 1e9;
    for (int round = 0; round < atoi(argv[2]); round++) {
        double start = seconds();
        bson_t *copy = bson_copy(&document);
        double taken = seconds() - start;
        bson_destroy(copy);
        if (taken < least) least = taken;
    }
    printf("bson_copy: %.0f us, %.0f MB/s\n", least * 1e6, size / least / 1e6);
    return 0;
}
