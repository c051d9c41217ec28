// The entries write and read in plain C, as a C programmer writes them: write judges the index, counts its text and writes it; read judges the text while it counts rows and runs, and then stores them.
#include <stddef.h>
#include <stdint.h>
#include <string.h>
typedef int32_t i32;
typedef uint32_t u32;
typedef uint64_t u64;
typedef uint8_t u8;

static u8 *number(u8 *p, u32 x) {
    u8 b[10];
    int k = 0;
    do b[k++] = '0' + x % 10, x /= 10;
    while (x);
    while (k) *p++ = b[--k];
    return p;
}
static u8 *value(u8 *p, i32 x) {
    if (x < 0) *p++ = '-';
    return number(p, x < 0 ? 0u - (u32)x : (u32)x);
}
static u8 *word(u8 *p, const char *w) {
    size_t n = strlen(w);
    memcpy(p, w, n);
    return p + n;
}
static size_t digits(u32 x) {
    size_t n = 1;
    while (x >= 10) x /= 10, n++;
    return n;
}
static size_t size_of(i32 x) { return x < 0 ? 1 + digits(0u - (u32)x) : digits((u32)x); }

typedef struct { i32 low, up; u32 first, runs; } Row;
typedef struct { u32 window, width, windows; } Head;
typedef struct { u32 kind; Head head; size_t first, second; } Answer;

static int good(Head h, const Row *row, size_t rows, const u32 *left, const u32 *right, size_t room, size_t *bad) {
    *bad = 0;
    if (h.window < 1 || h.window > 256 || h.width < 1 || h.width > 1000000 || h.windows < 1 || h.windows > 1048576) return 0;
    i32 least = -4000000;
    u64 at = 0, total = 0;
    for (size_t k = 0; k < rows; k++) {
        *bad = k;
        Row r = row[k];
        if (r.low >= r.up || r.low % (i32)h.width || r.up % (i32)h.width || r.up > 4000000 || r.low < least) return 0;
        if (!r.runs || r.first != at || at + r.runs > room) return 0;
        u64 free = 0;
        for (u64 i = at; i < at + r.runs; i++) {
            if (left[i] < free || right[i] < left[i] || right[i] >= h.windows) return 0;
            free = (u64)right[i] + 2;
            total += right[i] - left[i] + 1;
        }
        if (total > h.windows) return 0;
        least = r.up;
        at += r.runs;
    }
    return 1;
}

Answer plain_write(Head h, const Row *row, size_t rows, const u32 *left, size_t lefts, const u32 *right, size_t rights, u8 *text, size_t size) {
    size_t bad;
    if (!good(h, row, rows, left, right, lefts < rights ? lefts : rights, &bad)) return (Answer){3, {0, 0, 0}, 20, bad};
    size_t n = 39 + digits(h.window) + digits(h.width) + digits(h.windows);
    for (size_t k = 0; k < rows; k++) {
        n += 8 + size_of(row[k].low) + size_of(row[k].up);
        for (u32 i = row[k].first; i < row[k].first + row[k].runs; i++) n += 4 + digits(left[i]) + digits(right[i]);
    }
    if (n > size) return (Answer){3, {0, 0, 0}, 23, 0};
    u8 *p = word(text, "(index (window ");
    p = word(number(p, h.window), ") (width ");
    p = word(number(p, h.width), ") (windows ");
    p = word(number(p, h.windows), ")\n");
    for (size_t k = 0; k < rows; k++) {
        p = word(p, "(row ");
        p = word(value(p, row[k].low), " ");
        p = value(p, row[k].up);
        for (u32 i = row[k].first; i < row[k].first + row[k].runs; i++) {
            p = word(p, " (");
            p = word(number(p, left[i]), " ");
            p = word(number(p, right[i]), ")");
        }
        p = word(p, ")\n");
    }
    p = word(p, ")\n");
    memset(p, 0, size - n);
    return (Answer){0, {0, 0, 0}, n, 0};
}

// ---- reading

// The text and the position in it; a step that fails stays at the first byte that no text could have there.
typedef struct { const u8 *at, *end; } Reader;

static int take(Reader *r, const char *w) {
    for (; *w; w++, r->at++)
        if (r->at == r->end || *r->at != (u8)*w) return 0;
    return 1;
}
static int next_is(const Reader *r, u8 b) { return r->at < r->end && *r->at == b; }

// At most 18 digits, no leading zero, no -0.
static int take_number(Reader *r, int64_t *out) {
    int minus = next_is(r, '-');
    r->at += minus;
    const u8 *from = r->at;
    u64 x = 0;
    while (r->at < r->end && *r->at >= '0' && *r->at <= '9') {
        if (r->at - from == 18 || (r->at - from == 1 && x == 0) || (minus && r->at == from && *r->at == '0')) return 0;
        x = 10 * x + (*r->at++ - '0');
    }
    *out = minus ? -(int64_t)x : (int64_t)x;
    return r->at != from;
}

// One pass over a text: judged where nothing is stored, stored where it is known to be good.
static int pass(Reader *r, int64_t head[3], size_t *rows, size_t *runs, u64 *bad, Row *row, u32 *left, u32 *right) {
    int good = 1;
    int64_t least = -4000000, total = 0, low, up, l, e;
    *rows = *runs = 0, *bad = 0;
    if (!take(r, "(index (window ") || !take_number(r, &head[0]) || !take(r, ") (width ") || !take_number(r, &head[1]) || !take(r, ") (windows ") || !take_number(r, &head[2]) || !take(r, ")\n")) return 0;
    if (head[0] < 1 || head[0] > 256 || head[1] < 1 || head[1] > 1000000 || head[2] < 1 || head[2] > 1048576) good = 0, *bad = 0;
    while (next_is(r, '(')) {
        if (!take(r, "(row ") || !take_number(r, &low) || !take(r, " ") || !take_number(r, &up)) return 0;
        int fine = good && low < up && low % head[1] == 0 && up % head[1] == 0 && low >= least && up <= 4000000;
        int64_t free = 0;
        size_t first = *runs;
        while (next_is(r, ' ')) {
            if (!take(r, " (") || !take_number(r, &l) || !take(r, " ") || !take_number(r, &e) || !take(r, ")")) return 0;
            if (l < free || e < l || e >= head[2]) fine = 0;
            free = e + 2, total += fine ? e - l + 1 : 0;
            if (left) left[*runs] = (u32)l, right[*runs] = (u32)e;
            ++*runs;
        }
        if (!take(r, ")\n")) return 0;
        if (first == *runs || total > head[2]) fine = 0;
        if (good && !fine) good = 0, *bad = *rows;
        if (row) row[*rows] = (Row){(i32)low, (i32)up, (u32)first, (u32)(*runs - first)};
        least = up;
        ++*rows;
    }
    if (!take(r, ")\n") || r->at != r->end) return 0;
    return good ? 1 : 2;
}

Answer plain_read(const u8 *text, size_t size, Row *row, size_t rows, u32 *left, size_t lefts, u32 *right, size_t rights) {
    int64_t head[3];
    size_t n, m;
    u64 bad;
    Reader r = {text, text + size};
    int how = pass(&r, head, &n, &m, &bad, 0, 0, 0);
    if (!how) {
        size_t line = 1;
        for (const u8 *p = text; p < r.at; p++) line += *p == '\n';
        return (Answer){3, {0, 0, 0}, 12, line};
    }
    if (how == 2) return (Answer){3, {0, 0, 0}, 20, bad};
    if (rows < n || lefts < m || rights < m) return (Answer){3, {0, 0, 0}, 23, 0};
    r = (Reader){text, text + size};
    pass(&r, head, &n, &m, &bad, row, left, right);
    memset(row + n, 0, (rows - n) * sizeof *row), memset(left + m, 0, (lefts - m) * 4), memset(right + m, 0, (rights - m) * 4);
    return (Answer){0, {(u32)head[0], (u32)head[1], (u32)head[2]}, n, m};
}
