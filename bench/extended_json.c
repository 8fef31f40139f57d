/* Lines of Extended JSON from BSON, and back, by libbson: extended_json relaxed|canonical|bson < IN > OUT. One document or line is
   held at a time. Build: see README.md beside this file. */
#include <bson/bson.h>
#include <stdio.h>
#include <stdlib.h>
#include <string.h>

/* Each document of standard input as a line, as `bson_json` writes it; it is validated first, as `bson_json` does. */
static int to_lines(bool is_relaxed) {
    bson_reader_t *reader = bson_reader_new_from_fd(0, false);
    bool is_end = false;
    const bson_t *document;
    while ((document = bson_reader_read(reader, &is_end))) {
        size_t length;
        if (!bson_validate(document, BSON_VALIDATE_UTF8 | BSON_VALIDATE_UTF8_ALLOW_NULL, NULL)) return 1;
        char *text = is_relaxed ? bson_as_relaxed_extended_json(document, &length) : bson_as_canonical_extended_json(document, &length);
        if (!text) return 1;
        text[length] = '\n';
        if (fwrite(text, 1, length + 1, stdout) != length + 1) return 1;
        bson_free(text);
    }
    bson_reader_destroy(reader);
    return is_end ? 0 : 1;
}

static int to_bson(void) {
    char *line = NULL;
    size_t room = 0;
    ssize_t length;
    while ((length = getline(&line, &room, stdin)) > 0) {
        bson_error_t error;
        bson_t *document = bson_new_from_json((const uint8_t *)line, length - (line[length - 1] == '\n'), &error);
        if (!document) return 1;
        if (fwrite(bson_get_data(document), 1, document->len, stdout) != document->len) return 1;
        bson_destroy(document);
    }
    free(line);
    return 0;
}

int main(int argc, char **argv) {
    if (argc != 2) return 2;
    setvbuf(stdout, NULL, _IOFBF, 65536);
    int status = strcmp(argv[1], "bson") == 0 ? to_bson() : to_lines(strcmp(argv[1], "relaxed") == 0);
    return fflush(stdout) ? 1 : status;
}
