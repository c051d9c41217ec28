/* payout INDEX SERIES: audits the index text in one file against the series line in another and prints one line, (yes), (wrong ROW OFFSET), (missing COUNT) or (refused NUMBER PLACE).
 * Exits with 0 on yes alone, so that a payout run can stand behind it with &&; with 1 on any other answer, and with 2 if a file cannot be read or the line not be printed. */
#include "worbyldaq.h"
#include <errno.h>
#include <inttypes.h>
#include <stdio.h>
#include <stdlib.h>

struct bytes {
    uint8_t *at;
    size_t length;
};

/* A file cannot be read: ends the program. */
static void fail(const char *path) {
    perror(path);
    exit(2);
}

/* Twice the room for what was read; none if there is no memory for it. */
static uint8_t *grow(uint8_t *at, size_t room) {
    uint8_t *more = room > SIZE_MAX / 2 ? NULL : realloc(at, 2 * room);
    if (more == NULL) {
        free(at);
        errno = ENOMEM;
    }
    return more;
}

/* The whole of an open file; at is NULL if it cannot be read. */
static struct bytes read_all(FILE *file) {
    size_t room = 1 << 16;
    struct bytes text = {malloc(room), 0};
    while (text.at != NULL) {
        size_t got = fread(text.at + text.length, 1, room - text.length, file);
        text.length += got;
        if (got == 0) break;
        if (text.length == room) {
            text.at = grow(text.at, room);
            room *= 2;
        }
    }
    if (ferror(file)) {
        free(text.at);
        text.at = NULL;
    }
    return text;
}

static struct bytes read_file(const char *path) {
    FILE *file = fopen(path, "rb");
    if (file == NULL) fail(path);
    struct bytes text = read_all(file);
    if (text.at == NULL) fail(path);
    fclose(file);
    return text;
}

static int print(uint64_t answer) {
    switch (audit_kind_of(answer)) {
    case AUDIT_YES: return printf("(yes)\n");
    case AUDIT_WRONG: return printf("(wrong %" PRIu64 " %" PRIu64 ")\n", audit_row(answer), audit_offset(answer));
    case AUDIT_MISSING: return printf("(missing %" PRIu64 ")\n", audit_missing(answer));
    default: return printf("(refused %" PRIu64 " %" PRIu64 ")\n", audit_number(answer), audit_place(answer));
    }
}

int main(int argc, char **argv) {
    if (argc != 3) {
        fprintf(stderr, "usage: payout INDEX SERIES\n");
        return 2;
    }
    struct bytes index = read_file(argv[1]);
    struct bytes series = read_file(argv[2]);
    uint64_t answer = audit_text(index.at, index.length, series.at, series.length);
    free(index.at);
    free(series.at);
    if (print(answer) < 0 || fflush(stdout) != 0) return 2;
    return audit_kind_of(answer) == AUDIT_YES ? 0 : 1;
}
