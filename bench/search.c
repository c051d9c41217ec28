// Runs the proved search, the same search in plain C and a scan without index in plain C on the same input, in turn, compares what they list, and prints the least time of some runs of each and the ratios. The indexes are built by the plain C.
// With `short`: the same queries through the complete index and two that lack windows, 1 % and half of them.
// With `few`: the closest 1 and 64 of a million matches beside the full search that lists all of them.
// With `sweep`: normalised warped queries through many indexes and limits instead, the proved search against the scan alone, and where its lead is largest.
#include <stdlib.h>
#include "race.h"
typedef struct { u32 kind, band; u64 threshold; u32 scale, shift, pick, count; } Asked; // pick: 0 for all matches, else the closest `count`
typedef struct { u32 kind; size_t first, second; } Answer;
typedef struct { u64 candidates, matches; } Counts;

Answer index_search(const i32 *, size_t, Head, const Row *, size_t, const u32 *, size_t, const u32 *, size_t, Asked, const i32 *, size_t,
                    u32 *, size_t, u32 *, size_t, u16 *, size_t, u32 *, size_t, u64 *, size_t);
int plain_search(const i32 *, size_t, Head, const Row *, size_t, const u32 *, const u32 *, size_t, Asked, const i32 *, size_t, u32 *, u32 *, u16 *, u32 *, u64 *, u64, Counts *);
int plain_scan(const i32 *, size_t, Asked, const i32 *, size_t, u32 *, u64 *, u64, Counts *);
size_t plain_build(const i32 *, size_t, size_t, u32, u32, Row *, size_t, u32 *, u32 *);

enum { N = 1 << 20, W = 64, ROOM = N - W + 1, WIDE = N, LIST = 4096 };
typedef struct { u32 first[ROOM], last[ROOM]; u16 scratch[ROOM]; u32 offsets[LIST]; u64 distances[LIST]; } Lists;
static i32 s[N], q[1024];
static Row rows[WIDE];
static u32 left[WIDE], right[WIDE];
static Lists mine, plain;
static u32 offsets[LIST];
static u64 distances[LIST];
static int different, missed;
static double spent; // what every search writes and reads takes so long

static double least(double a, double b) { return a < b ? a : b; }

// all three in turn
static void race(const char *name, size_t count, Head head, size_t m, Asked asked, int selective) {
    size_t runs = rows[count - 1].first + rows[count - 1].runs;
    double ra = 1e9, ca = 1e9, sa = 1e9, all = 0;
    Answer x = {9, 0, 0};
    Counts y = {0, 0}, z = {0, 0};
    for (int k = 0; k < REPS && (k < 2 || all < 3); k++) {
        double t0 = now();
        START;
        x = index_search(s, N, head, rows, count, left, runs, right, runs, asked, q, m, mine.first, ROOM, mine.last, ROOM, mine.scratch, ROOM, mine.offsets, LIST, mine.distances, LIST);
        STOP;
        double t1 = now();
        plain_search(s, N, head, rows, count, left, right, runs, asked, q, m, plain.first, plain.last, plain.scratch, plain.offsets, plain.distances, LIST, &y);
        double t2 = now();
        plain_scan(s, N, asked, q, m, offsets, distances, LIST, &z);
        double t3 = now();
        ra = least(ra, t1 - t0);
        ca = least(ca, t2 - t1);
        sa = least(sa, t3 - t2);
        all += t3 - t0;
    }
    int same = x.kind < 2 && x.first == y.candidates && x.second == y.matches && y.matches == z.matches && !memcmp(&mine, &plain, sizeof mine) && !memcmp(mine.offsets, offsets, sizeof offsets) && !memcmp(mine.distances, distances, sizeof distances);
    int slow = ra > 1.3 * ca || ra > 1.5 * sa || (selective && asked.band && head.windows == ROOM && 5 * ra > sa);
    if (!same) different++;
    if (slow) missed++;
    printf("%-19s m=%-4zu %-13s of C %5.2f  of the scan 1/%-5.2f (floor 1/%-5.2f) %8.2f / %8.2f / %8.2f ms  %7zu candidates %6zu matches%s%s\n", name, m, selective ? "selective" : "not selective", ra / ca, sa / ra, sa / spent, ra * 1e3, ca * 1e3, sa * 1e3,
           x.first, x.second, slow ? "  MISSED" : "", same ? "" : "  DIFFERENT");
    fflush(stdout);
}

// the least that any search through an index can take: a pass of memset over the buffers, and one that reads the series and the index
static void floor_of(size_t count) {
    size_t runs = rows[count - 1].first + rows[count - 1].runs;
    double fa = 1e9;
    volatile u64 seen = 0;
    for (int k = 0; k < 15; k++) {
        memset(&plain, k, sizeof plain); // others' memory in between, as in a race
        double t0 = now();
        memset(&mine, k, sizeof mine);
        u64 sum = 0;
        for (size_t i = 0; i < N; i++) sum += s[i];
        for (size_t i = 0; i < runs; i++) sum += left[i] ^ right[i];
        for (size_t i = 0; i < count; i++) sum += rows[i].low ^ rows[i].up;
        seen = sum;
        fa = least(fa, now() - t0);
    }
    (void)seen;
    spent = fa;
    printf("buffers written once, series and index read once %8.2f ms\n", fa * 1e3);
}

// the four kinds, for a query that stands in the series with some noise, through an index that lacks so many windows
static void races(u32 d, u32 g, size_t most, size_t lacking) {
    Head head = {W, d, ROOM - lacking};
    size_t count = plain_build(s, N - lacking, W, d, g, rows, ROOM, left, right);
    printf("index of w=%d d=%u g=%u", W, d, g);
    if (lacking) printf(" that lacks %zu of %d windows", lacking, ROOM);
    printf(": %zu rows, %u runs\n", count, rows[count - 1].first + rows[count - 1].runs);
    floor_of(count);
    for (size_t m = 256; m <= most; m *= 4)
        for (u32 kind = 0; kind < 2; kind++)
            for (u32 warped = 0; warped < 2; warped++)
                for (int selective = 1; selective >= 0; selective--) {
                    for (size_t i = 0; i < m; i++) q[i] = in_limits(s[N / 2 + i] + (int)(any() % 11) - 5);
                    u64 each = kind ? (selective ? 4 : 300) : (selective ? 15 : 20000); // squared difference a value
                    Asked asked = {kind, warped ? m / 20 : 0, each * m, kind && selective ? 12 : 20, kind && selective ? 200 : 2000, 0, 0};
                    char name[40];
                    snprintf(name, sizeof name, "%s %s", kind ? "normalised" : "raw", warped ? "warped" : "straight");
                    race(name, count, head, m, asked, selective);
                }
}

static void walk(double memory, int step) {
    double v = 0;
    for (int i = 0; i < N; i++) s[i] = v = in_limits(v * memory + step * ((int)(any() % 201) - 100));
}

// the same queries through the complete index and two short ones
static void short_races(void) {
    static const size_t lacking[] = {0, ROOM / 100, ROOM / 2};
    u64 then = any_state;
    for (int k = 0; k < 3; k++) {
        any_state = then;
        races(4096, 0, 1024, lacking[k]);
    }
}

typedef struct { u32 offsets[N]; u64 distances[N]; } Long;
typedef struct { u64 distance; u32 offset; } Match;
static Long whole, few, plain_few;
static Match sorted[N];

static int by_distance(const void *a, const void *b) {
    const Match *x = a, *y = b;
    return x->distance != y->distance ? (x->distance < y->distance ? -1 : 1) : (x->offset > y->offset) - (x->offset < y->offset);
}

// the whole list of so many matches by distance and then offset
static void sort_whole(size_t matches) {
    for (size_t j = 0; j < matches; j++) sorted[j] = (Match){whole.distances[j], whole.offsets[j]};
    qsort(sorted, matches, sizeof *sorted, by_distance);
}

// whether the list has the first `count` of the sorted matches, or all if there are fewer, and zeros behind them
static int is_beginning(const Long *list, size_t room, size_t matches, size_t count) {
    for (size_t j = 0; j < room; j++) {
        Match due = j < count && j < matches ? sorted[j] : (Match){0, 0};
        if (list->offsets[j] != due.offset || list->distances[j] != due.distance) return 0;
    }
    return 1;
}

// whether each distance of the whole list is above, below or the same as the one before: 1, -1, 0
static int goes(int way, size_t matches) {
    for (size_t j = 1; j < matches; j++)
        if ((whole.distances[j] > whole.distances[j - 1]) - (whole.distances[j] < whole.distances[j - 1]) != way) return 0;
    return 1;
}

static Answer listing(Long *list, size_t room, size_t count, Head head, size_t m, Asked asked) {
    size_t runs = rows[count - 1].first + rows[count - 1].runs;
    return index_search(s, N, head, rows, count, left, runs, right, runs, asked, q, m, mine.first, ROOM, mine.last, ROOM, mine.scratch, ROOM, list->offsets, room, list->distances, room);
}

typedef struct { const char *name; int way; double goal; } Course; // how the distances go, and of the full search at most how much

// the full search, the closest k in a list of so many entries, and the same in plain C, in turn
static void few_race(Course c, size_t count, Head head, size_t m, u32 k, size_t room) {
    Asked every = {0, 0, 1000000000000, 10, 0, 0, 0}, closest = every;
    size_t runs = rows[count - 1].first + rows[count - 1].runs, matches = N - m + 1;
    double wa = 1e9, fa = 1e9, ca = 1e9, all = 0;
    Answer x = {9, 0, 0}, y = {9, 0, 0};
    Counts z = {0, 0};
    closest.pick = 1;
    closest.count = k;
    for (int r = 0; r < REPS && (r < 3 || all < 3); r++) {
        memset(&few, r + 1, sizeof few); // rubbish, which has to go
        memset(&plain_few, r + 2, sizeof plain_few);
        double t0 = now();
        x = listing(&whole, N, count, head, m, every);
        double t1 = now();
        y = listing(&few, room, count, head, m, closest);
        double t2 = now();
        plain_search(s, N, head, rows, count, left, right, runs, closest, q, m, plain.first, plain.last, plain.scratch, plain_few.offsets, plain_few.distances, room, &z);
        double t3 = now();
        wa = least(wa, t1 - t0);
        fa = least(fa, t2 - t1);
        ca = least(ca, t3 - t2);
        all += t3 - t0;
    }
    sort_whole(matches);
    int same = x.kind == 0 && x.second == matches && goes(c.way, matches) && y.kind == 2 && y.first == x.first && y.second == matches && z.candidates == x.first && z.matches == matches
        && is_beginning(&few, room, matches, k) && is_beginning(&plain_few, room, matches, k);
    int slow = fa > c.goal * wa || fa > 1.3 * ca;
    if (!same) different++;
    if (slow) missed++;
    printf("%-7s m=%-4zu closest %-2u in a list of %-7zu  of the full search %5.2f (goal %.1f)  of C %5.2f  %8.2f / %8.2f / %8.2f ms  %6.1f ns more a match%s%s\n", c.name, m, k, room, fa / wa, c.goal, fa / ca, fa * 1e3, wa * 1e3, ca * 1e3,
           (fa - wa) * 1e9 / matches, slow ? "  MISSED" : "", same ? "" : "  DIFFERENT");
    fflush(stdout);
}

// Every offset matches. Raw and straight, since there a match is found fastest and keeping it weighs most; it weighs the more the shorter the query is.
static void few_races(void) {
    static const Course courses[] = {{"rising", 1, 1.1}, {"falling", -1, 1.6}, {"equal", 0, 1.1}};
    Head head = {W, 4096, ROOM};
    puts("ms: the closest few, the full search, the closest few in plain C");
    for (size_t m = 64; m <= 1024; m *= 4)
        for (int i = 0; i < 3; i++) {
            Course c = courses[i];
            // a step every 53 values, away from the query's level or back to it: any 65 values have one
            for (u64 j = 0; j < N; j++) s[j] = (int)((c.way < 0 ? N - 1 - j : c.way * j) * 19900 / N) - 9900;
            for (size_t j = 0; j < m; j++) q[j] = (int)(any() % 101) - 10000;
            size_t count = plain_build(s, N, W, head.width, 0, rows, ROOM, left, right);
            few_race(c, count, head, m, 1, 64);
            few_race(c, count, head, m, 64, 64);
            few_race(c, count, head, m, 64, N);
        }
    printf("%d goals missed (beside the full search; at most 1.3 of C)\n", missed);
}

// how many times as fast as the scan the search is
static double lead(size_t count, Head head, size_t m, Asked asked) {
    static u32 first[WIDE], last[WIDE];
    static u16 scratch[WIDE];
    size_t runs = rows[count - 1].first + rows[count - 1].runs;
    double ra = 1e9, sa = 1e9;
    Answer x = {9, 0, 0};
    Counts z = {0, 0};
    for (int k = 0; k < 3; k++) {
        double t0 = now();
        x = index_search(s, N, head, rows, count, left, runs, right, runs, asked, q, m, first, head.windows, last, head.windows, scratch, head.windows, mine.offsets, LIST, mine.distances, LIST);
        double t1 = now();
        plain_scan(s, N, asked, q, m, offsets, distances, LIST, &z);
        ra = least(ra, t1 - t0);
        sa = least(sa, now() - t1);
    }
    if (x.kind > 1 || x.second != z.matches || memcmp(mine.offsets, offsets, sizeof offsets) || memcmp(mine.distances, distances, sizeof distances)) different++;
    return sa / ra;
}

// the same query under 54 limits, of which none lists much
static double best_lead(size_t count, Head head, size_t m) {
    static const u32 shifts[] = {50, 200, 1000}, tenths[] = {3, 10, 40};
    double best = 0;
    for (int k = 0; k < 54; k++) {
        for (size_t i = 0; i < m; i++) q[i] = in_limits(s[N / 2 + i] + (int)(any() % 11) - 5);
        Asked asked = {1, m / (20 >> k / 18), tenths[k % 3] * m / 10, 11 + k / 9 % 2, shifts[k / 3 % 3], 0, 0};
        double f = lead(count, head, m, asked);
        if (f > best) best = f;
    }
    return best;
}

static void sweep(void) {
    static const struct { const char *name; double memory; int step; } series[] = {{"a random walk", 1, 1}, {"a walk that returns", 0.999, 1}, {"a steep walk", 1, 5}};
    double best = 0;
    for (int k = 0; k < 3; k++) {
        walk(series[k].memory, series[k].step);
        for (u32 w = 32; w <= 256; w *= 2) {
            Head head = {w, 64 * w, N - w + 1};
            size_t count = plain_build(s, N, w, head.width, 0, rows, head.windows, left, right);
            double a = best_lead(count, head, 256), b = best_lead(count, head, 1024);
            printf("%-20s w=%-3u d=%-5u  largest lead over the scan  %5.2f at m=256  %5.2f at m=1024\n", series[k].name, w, head.width, a, b);
            fflush(stdout);
            if (a > best) best = a;
            if (b > best) best = b;
        }
    }
    printf("largest of 1296: %.2f times as fast as the scan\n", best);
}

int main(int argc, char **argv) {
    const char *what = argc > 1 ? argv[1] : "";
    if (!strcmp(what, "sweep")) {
        sweep();
    } else if (!strcmp(what, "few")) {
        few_races();
    } else {
        walk(1, 1);
        if (!strcmp(what, "short")) {
            short_races();
        } else if (*what) {
            return puts("short, few, sweep, or nothing"), 2;
        } else {
            races(4096, 0, 1024, 0);
            races(16, 80, 256, 0);
        }
        printf("%d goals missed (at most 1.3 of C, at most 1.5 of the scan, selective warped searches through a complete index at most 1/5 of the scan)\n", missed);
    }
    puts(different ? "DIFFERENT answers" : "all answers and buffers are the same");
    return different != 0;
}
