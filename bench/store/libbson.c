/* Reads a document from standard input, validates and copies it, and writes the copy. */
#include <bson/bson.h>
#include <stdio.h>
#include <stdlib.h>

#define CHUNK 65536

int main(void) {
    size_t room = CHUNK, length = 0, got;
    uint8_t *bytes = malloc(room);
    while (bytes && (got = fread(bytes + length, 1, room - length, stdin)) > 0) {
        length += got;
        if (length == room)
            bytes = realloc(bytes, room *= 2);
    }
    bson_t document;
    size_t offset;
    if (!bytes || ferror(stdin) || !bson_init_static(&document, bytes, length) ||
        !bson_validate(&document, BSON_VALIDATE_UTF8 | BSON_VALIDATE_UTF8_ALLOW_NULL, &offset)) {
        fputs("refused\n", stderr);
        return 1;
    }
    bson_t *copy = bson_copy(&document);
    free(bytes);
    int failed = fwrite(bson_get_data(copy), 1, copy->len, stdout) != copy->len || fflush(stdout);
    bson_destroy(copy);
    return failed;
}
