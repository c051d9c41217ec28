// Extends an index from standard input: an index text, then the series line of the whole, longer series. Prints the extended index's text, or (refused N P). For tests/extend_test.
#include <stdbool.h>
#include <stdint.h>
#include <stdio.h>
#include <stdlib.h>
#include <string.h>
typedef int32_t i32;
typedef uint32_t u32;
typedef struct { i32 low, up; u32 first, runs; } Row;
typedef struct { u32 window, width, windows; } Head;
typedef struct { u32 kind; Head head; size_t first, second; } Answer; // kind 0: head and two counts; kind 3: number and place of a refusal
typedef struct { size_t line, series, inside, asked, within; } Told; // line: the first bad line, 0 where there is none; series: how many values

Answer text_read(const uint8_t *, size_t, Row *, size_t, u32 *, size_t, u32 *, size_t);
Answer text_write(Head, const Row *, size_t, const u32 *, size_t, const u32 *, size_t, uint8_t *, size_t);
Told lines_read(const uint8_t *, size_t, bool, const size_t *, size_t, int64_t *, size_t, i32 *, size_t, i32 *, size_t);
Answer index_extend(const i32 *, size_t, Head, const Row *, size_t, const u32 *, size_t, const u32 *, size_t, Row *, size_t, u32 *, size_t, u32 *, size_t);

static void *room(size_t count, size_t size) {
    void *p = calloc(count ? count : 1, size);
    if (p == NULL) exit(2);
    return p;
}

static int refused(Answer a) { return printf("(refused %zu %zu)\n", a.first, a.second) < 0 ? 2 : 0; }

// The index text ends with the first line that is `)`.
static size_t index_length(const char *text, size_t length) {
    for (size_t i = 0; i + 2 < length; i++)
        if (memcmp(text + i, "\n)\n", 3) == 0) return i + 3;
    return length;
}

int main(void) {
    size_t length = 0, most = 1 << 20;
    char *text = room(most, 1);
    for (size_t got; (got = fread(text + length, 1, most - length, stdin)) > 0;) {
        length += got;
        if (length == most && (text = realloc(text, most *= 2)) == NULL) return 2;
    }
    size_t cut = index_length(text, length);
    const uint8_t *bytes = (const uint8_t *)text;

    // every row and run has a bracket, every value a space
    Row *old = room(length, sizeof(Row));
    u32 *lefts = room(length, 4), *rights = room(length, 4);
    i32 *series = room(length, 4);
    Answer read = text_read(bytes, cut, old, length, lefts, length, rights, length);
    if (read.kind == 3 && read.first == 12) return refused(read);
    size_t sizes[1], lines = 0;
    int64_t numbers[8] = {0, 0, 0, 0, 0, 0, 0, 1};
    i32 query[1];
    Told line = lines_read(bytes + cut, length - cut, false, sizes, 0, numbers, 8, series, length, query, 1);
    for (size_t i = 0; i < cut; i++) lines += text[i] == '\n';
    if (line.line > 0) return refused((Answer){3, {0, 0, 0}, 12, lines + line.line}); // the series line counts as the line after the index text's last
    size_t n = line.series;

    Row *rows = room(n, sizeof(Row));
    u32 *left = room(n, 4), *right = room(n, 4);
    if (read.kind == 3) { // an index that is not well formed: 1 and 2 come before it
        Answer a = index_extend(series, n, (Head){0, 0, 0}, old, 0, lefts, 0, rights, 0, rows, n, left, n, right, n);
        return refused(a.first == 20 ? read : a);
    }
    Answer a = index_extend(series, n, read.head, old, read.first, lefts, read.second, rights, read.second, rows, n, left, n, right, n);
    if (a.kind == 3) return refused(a);
    size_t space = 200 + 60 * (a.first + a.second);
    uint8_t *out = room(space, 1);
    Answer written = text_write(a.head, rows, a.first, left, a.second, right, a.second, out, space);
    if (written.kind == 3) return refused(written);
    return fwrite(out, 1, written.first, stdout) == written.first ? 0 : 2;
}
