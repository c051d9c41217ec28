// Runs the proved entries over lent records and the plain C on the same input, in turn, compares what they answer, and prints the least time of 15 runs of each, the ratio, and how many passes of memset over the buffers the proved entry's time is. The indexes are built by the plain C.
#include "race.h"
typedef struct { u32 kind; Head head; size_t first, second; } Answer;

Answer index_audit(const i32 *, size_t, Head, const Row *, size_t, const u32 *, size_t, const u32 *, size_t);
Answer index_build(const i32 *, size_t, u32, u32, u32, Row *, size_t, u32 *, size_t, u32 *, size_t);
Answer index_extend(const i32 *, size_t, Head, const Row *, size_t, const u32 *, size_t, const u32 *, size_t, Row *, size_t, u32 *, size_t, u32 *, size_t);
size_t plain_build(const i32 *, size_t, size_t, u32, u32, Row *, size_t, u32 *, u32 *);
size_t plain_extend(const i32 *, size_t, size_t, u32, size_t, const Row *, size_t, const u32 *, const u32 *, Row *, size_t, u32 *, u32 *);
int plain_judge(const i32 *, size_t, u32, u32, const Row *, size_t, const u32 *, const u32 *, size_t, u64 *);
int plain_audit(const i32 *, size_t, size_t, u32, u32, const Row *, size_t, const u32 *, const u32 *, size_t);

enum { N = 1 << 20, W = 64, ROOM = N - W + 1 };
static i32 s[N];
static Row rows[ROOM];
static u32 left[ROOM], right[ROOM];
static Row rows2[ROOM], old_rows[ROOM];
static u32 left2[ROOM], right2[ROOM], old_left[ROOM], old_right[ROOM];
static int different;

// one pass of memset over the buffers
static double memset_time(void) {
    double least = 1e9;
    for (int k = 0; k < 5; k++) {
        double t0 = now();
        memset(rows2, k, sizeof rows2);
        memset(left2, k, sizeof left2);
        memset(right2, k, sizeof right2);
        double t1 = now();
        if (t1 - t0 < least) least = t1 - t0;
    }
    return least;
}

static void say(const char *entry, const char *name, u32 d, u32 g, double ra, double ca, size_t rows, int same) {
    if (!same) different++;
    printf("%-6s %-12s d=%-5u g=%-3u ratio %5.2f  (goal 1.3)  %8.3f / %8.3f ms  %6.1f memsets  %7zu rows%s\n", entry, name, d, g, ra / ca, ra * 1e3, ca * 1e3, ra / memset_time(), rows, same ? "" : "  DIFFERENT");
    fflush(stdout);
}

// rattle and C in turn
static void race_audit(const char *name, u32 d, u32 g) {
    Head head = {W, d, ROOM};
    size_t count = plain_build(s, N, W, d, g, rows, ROOM, left, right);
    size_t runs = rows[count - 1].first + rows[count - 1].runs;
    double ra = 1e9, ca = 1e9;
    u32 x = 9;
    int y = 9;
    for (int k = 0; k < REPS; k++) {
        double t0 = now();
        START;
        x = index_audit(s, N, head, rows, count, left, runs, right, runs).kind;
        STOP;
        double t1 = now();
        y = plain_audit(s, N, W, d, ROOM, rows, count, left, right, runs);
        double t2 = now();
        if (t1 - t0 < ra) ra = t1 - t0;
        if (t2 - t1 < ca) ca = t2 - t1;
    }
    say("audit", name, d, g, ra, ca, count, x == 0 && y == 0);
}

static void race_build(const char *name, u32 d, u32 g) {
    double ra = 1e9, ca = 1e9;
    Answer x = {9, {0, 0, 0}, 0, 0};
    size_t y = 0;
    for (int k = 0; k < (REPS + 2) / 3; k++) {
        double t0 = now();
        START;
        x = index_build(s, N, W, d, g, rows2, ROOM, left2, ROOM, right2, ROOM);
        STOP;
        double t1 = now();
        y = plain_build(s, N, W, d, g, rows, ROOM, left, right);
        double t2 = now();
        if (t1 - t0 < ra) ra = t1 - t0;
        if (t2 - t1 < ca) ca = t2 - t1;
    }
    int same = x.kind == 0 && x.first == y && !memcmp(rows, rows2, sizeof rows) && !memcmp(left, left2, sizeof left) && !memcmp(right, right2, sizeof right);
    say("build", name, d, g, ra, ca, y, same);
}

// by 1 %; both judge the old index and the values, then extend
static void race_extend(const char *name, u32 d, u32 g) {
    size_t n = N - N / 100, old = n - W + 1;
    Head head = {W, d, old};
    size_t count = plain_build(s, n, W, d, g, old_rows, old, old_left, old_right);
    size_t runs = old_rows[count - 1].first + old_rows[count - 1].runs, y = 0;
    double ra = 1e9, ca = 1e9;
    Answer x = {9, {0, 0, 0}, 0, 0};
    for (int k = 0; k < REPS; k++) {
        double t0 = now();
        START;
        x = index_extend(s, N, head, old_rows, count, old_left, runs, old_right, runs, rows2, ROOM, left2, ROOM, right2, ROOM);
        STOP;
        double t1 = now();
        u64 total;
        if (plain_judge(s, N, d, old, old_rows, count, old_left, old_right, runs, &total)) different++;
        y = plain_extend(s, N, W, d, old, old_rows, count, old_left, old_right, rows, ROOM, left, right);
        double t2 = now();
        if (t1 - t0 < ra) ra = t1 - t0;
        if (t2 - t1 < ca) ca = t2 - t1;
    }
    int same = x.kind == 0 && x.first == y && !memcmp(rows, rows2, sizeof rows) && !memcmp(left, left2, sizeof left) && !memcmp(right, right2, sizeof right);
    say("extend", name, d, g, ra, ca, y, same);
}

int main(void) {
    for (int noisy = 0; noisy < 2; noisy++) {
        int v = 0;
        for (int i = 0; i < N; i++) s[i] = noisy ? (int)(any() % 20001) - 10000 : (v = in_limits(v + (int)(any() % 201) - 100));
        for (int k = 0; k < 4; k++) race_build(noisy ? "noisy" : "random walk", k / 2 ? 4096 : 16, k % 2 ? 80 : 0);
        for (int k = 0; k < 4; k++) race_extend(noisy ? "noisy" : "random walk", k / 2 ? 4096 : 16, k % 2 ? 80 : 0);
        for (int k = 0; k < 4; k++) race_audit(noisy ? "noisy" : "random walk", k / 2 ? 4096 : 16, k % 2 ? 80 : 0);
    }
    puts(different ? "DIFFERENT answers" : "all answers are the same");
    return different != 0;
}
