// Writes an index of a million runs by the proved entry and by plain C, in turn, compares what they write, and prints the least time of 15 runs of each; then the same for reading texts of a million runs, in few rows and in many.
#include "race.h"
typedef struct { u32 kind; Head head; size_t first, second; } Answer;

#define DECLARE(P) \
    Answer P##_write(Head, const Row *, size_t, const u32 *, size_t, const u32 *, size_t, u8 *, size_t); \
    Answer P##_read(const u8 *, size_t, Row *, size_t, u32 *, size_t, u32 *, size_t);
DECLARE(text)
DECLARE(plain)

#define ROWS 64
#define RUNS (1 << 20)
#define SIZE (24 << 20)
static Row rows[ROWS];
static u32 left[RUNS], right[RUNS];
static u8 a[SIZE], b[SIZE];
static u8 text[2 * SIZE];
static struct { Row rows[RUNS]; u32 left[RUNS], right[RUNS]; } c, d;

// A text of RUNS runs in so many rows, each window a run of its own; its length.
static size_t spell(u32 rows) {
    char *p = (char *)text;
    p += sprintf(p, "(index (window 1) (width 1) (windows %d)\n", RUNS);
    for (u32 k = 0; k < rows; k++) {
        p += sprintf(p, "(row %d %d", (int)(k - rows / 2), (int)(k - rows / 2) + 1);
        for (u32 i = 0; i < RUNS / rows; i++) p += sprintf(p, " (%u %u)", k + rows * i, k + rows * i);
        p += sprintf(p, ")\n");
    }
    return (size_t)(p + sprintf(p, ")\n") - (char *)text);
}

static int read_race(u32 rows) {
    size_t n = spell(rows);
    double ra = 1e9, ca = 1e9;
    Answer x, y;
    memset(&x, 0, sizeof x), memset(&y, 0, sizeof y);
    memset(&c, 1, sizeof c), memset(&d, 2, sizeof d);
    for (int k = 0; k < REPS; k++) {
        double t0 = now();
        START;
        x = text_read(text, n, c.rows, RUNS, c.left, RUNS, c.right, RUNS);
        STOP;
        double t1 = now();
        y = plain_read(text, n, d.rows, RUNS, d.left, RUNS, d.right, RUNS);
        double t2 = now();
        if (t1 - t0 < ra) ra = t1 - t0;
        if (t2 - t1 < ca) ca = t2 - t1;
    }
    int same = !x.kind && !y.kind && x.head.windows == y.head.windows && x.first == rows && y.first == rows && x.second == RUNS && y.second == RUNS && !memcmp(&c, &d, sizeof c);
    printf("read, %d runs in %u rows, %.1f MB: proved %.0f MB/s (goal 200), plain C %.0f MB/s, ratio %.2f, %.1f / %.1f ns a run%s\n", RUNS, rows, n / 1e6, n / ra / 1e6, n / ca / 1e6, ra / ca, ra / RUNS * 1e9, ca / RUNS * 1e9, same ? "" : "  DIFFERENT");
    return same;
}

int main(void) {
    // window j stands in row j mod 64, as a run of its own
    for (u32 k = 0; k < ROWS; k++) {
        rows[k] = (Row){(i32)k - 32, (i32)k - 31, k * (RUNS / ROWS), RUNS / ROWS};
        for (u32 i = 0; i < RUNS / ROWS; i++) left[rows[k].first + i] = right[rows[k].first + i] = k + ROWS * i;
    }
    memset(a, 1, SIZE), memset(b, 2, SIZE);
    double ra = 1e9, ca = 1e9;
    Head h = {1, 1, RUNS};
    Answer x, y;
    memset(&x, 0, sizeof x), memset(&y, 0, sizeof y);
    for (int k = 0; k < REPS; k++) {
        double t0 = now();
        START;
        x = text_write(h, rows, ROWS, left, RUNS, right, RUNS, a, SIZE);
        STOP;
        double t1 = now();
        y = plain_write(h, rows, ROWS, left, RUNS, right, RUNS, b, SIZE);
        double t2 = now();
        if (t1 - t0 < ra) ra = t1 - t0;
        if (t2 - t1 < ca) ca = t2 - t1;
    }
    double bytes = (double)x.first;
    int same = !x.kind && !y.kind && x.first == y.first && !memcmp(a, b, SIZE);
    printf("write, %d runs, %.1f MB: proved %.0f MB/s (goal 200), plain C %.0f MB/s, ratio %.2f, %.1f / %.1f ns a run%s\n", RUNS, bytes / 1e6, bytes / ra / 1e6, bytes / ca / 1e6, ra / ca, ra / RUNS * 1e9, ca / RUNS * 1e9, same ? "" : "  DIFFERENT");
    same &= read_race(64);
    same &= read_race(1 << 18);
    return !same;
}
