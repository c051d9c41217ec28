// Runs the proved functions and the plain C ones on the same input, in turn, compares what they write, and prints the least time of 15 runs of each and the ratio.
#include "race.h"

#define DECLARE(P)                                                                                                       \
    size_t P##_straight(const i32 *, size_t, const i32 *, size_t, u64, u64 *, size_t);                                   \
    size_t P##_bound(const i32 *, size_t, const i32 *, size_t, const i32 *, size_t, u64, u64 *, size_t);                 \
    size_t P##_warped(const i32 *, size_t, const i32 *, size_t, size_t, u64, i32 *, size_t, i32 *, size_t, u64 *, size_t); \
    size_t P##_normal(const i32 *, size_t, i32 *, size_t, u64 *, size_t);                                                \
    u64 P##_root(u64);
DECLARE(curve)
DECLARE(plain)
_Bool curve_envelopes(const i32 *, size_t, size_t, i32 *, size_t, i32 *, size_t);
void plain_envelopes(const i32 *, size_t, size_t, i32 *, i32 *);

#define N 100000
static i32 s[N], q[1024], low[1024], high[1024], v1[1024], v2[1024], w1[1024], w2[1024];
static u64 o1[N], o2[N];
static u64 r1, r2;
static double ra, ca;
static int different;

// rattle and C in turn; `cells`: what one time is divided by
#define RACE(name, cells, goal, A, B)                                                                                                   \
    do {                                                                                                                                \
        size_t x = 0, y = 0;                                                                                                            \
        ra = ca = 1e9;                                                                                                                  \
        for (int k = 0; k < REPS; k++) {                                                                                                \
            double t0 = now();                                                                                                          \
            x = (size_t)(A);                                                                                                            \
            double t1 = now();                                                                                                          \
            y = (size_t)(B);                                                                                                            \
            double t2 = now();                                                                                                          \
            if (t1 - t0 < ra) ra = t1 - t0;                                                                                             \
            if (t2 - t1 < ca) ca = t2 - t1;                                                                                             \
        }                                                                                                                               \
        int same = x == y && x > 0 && !memcmp(o1, o2, x * sizeof *o1) && !memcmp(v1, v2, sizeof v1) && !memcmp(w1, w2, sizeof w1) && r1 == r2; \
        if (!same) different++;                                                                                                         \
        printf("%-32s ratio %5.2f  (goal %s)  %8.3f / %8.3f ns a value%s\n", name, ra / ca, goal, ra / (cells) * 1e9, ca / (cells) * 1e9, same ? "" : "  DIFFERENT"); \
        fflush(stdout);                                                                                                                 \
    } while (0)

static u64 roots(u64 (*root)(u64)) {
    u64 x = 0;
    for (u64 i = 0; i < 100000; i++) x += root(i * 184467440737095ull);
    return x;
}

int main(void) {
    int v = 0;
    for (int i = 0; i < N; i++) s[i] = v = in_limits(v + (int)(any() % 201) - 100);
    int ms[] = {64, 256, 1000};
    for (int k = 0; k < 3; k++) {
        int m = ms[k], b = m / 20;
        char name[99];
        for (int i = 0; i < m; i++) q[i] = in_limits(s[N / 2 + i] + (int)(any() % 41) - 20);
        plain_envelopes(q, m, b, low, high);
        size_t n = m == 64 ? 12000 : m == 256 ? 4000 : 2000, nw = m == 64 ? 1500 : m == 256 ? 400 : 1015, stretches = n - m + 1;
        double cells = (double)(nw - m + 1) * m * (2 * b + 1);
        snprintf(name, sizeof name, "straight m=%d whole", m);
        RACE(name, (double)stretches * m, "1.2", curve_straight(s, n, q, m, ~0ull, o1, N), plain_straight(s, n, q, m, ~0ull, o2, N));
        snprintf(name, sizeof name, "straight m=%d left early", m);
        RACE(name, (double)stretches * 16, "1.2", curve_straight(s, n, q, m, 1000000, o1, N), plain_straight(s, n, q, m, 1000000, o2, N));
        snprintf(name, sizeof name, "bound m=%d b=%d whole", m, b);
        RACE(name, (double)stretches * m, "1.2", curve_bound(s, n, low, m, high, m, ~0ull, o1, N), plain_bound(s, n, low, m, high, m, ~0ull, o2, N));
        snprintf(name, sizeof name, "bound m=%d b=%d left early", m, b);
        RACE(name, (double)stretches * 16, "1.2", curve_bound(s, n, low, m, high, m, 1000000, o1, N), plain_bound(s, n, low, m, high, m, 1000000, o2, N));
        snprintf(name, sizeof name, "warped m=%d b=%d whole", m, b);
        RACE(name, cells, "1.2", curve_warped(s, nw, q, m, b, ~0ull, v1, m, w1, m, o1, N), plain_warped(s, nw, q, m, b, ~0ull, v2, m, w2, m, o2, N));
        snprintf(name, sizeof name, "warped m=%d b=%d left early", m, b);
        RACE(name, (double)stretches * 16, "1.2", curve_warped(s, n, q, m, b, 1000000, v1, m, w1, m, o1, N), plain_warped(s, n, q, m, b, 1000000, v2, m, w2, m, o2, N));
        snprintf(name, sizeof name, "normalised m=%d", m);
        RACE(name, (double)stretches * m, "1.5", curve_normal(s, n, v1, m, o1, N), plain_normal(s, n, v2, m, o2, N));
        snprintf(name, sizeof name, "envelopes m=%d b=%d", m, b);
        RACE(name, (double)m, "none; C by queues", curve_envelopes(q, m, b, v1, m, w1, m), (plain_envelopes(q, m, b, v2, w2), 1));
    }
    RACE("root", 1e5, "none", (r1 = roots(curve_root), 1), (r2 = roots(plain_root), 1));
    puts(different ? "DIFFERENT numbers written" : "all numbers written are the same");
    return different != 0;
}
