// The same search in plain C, as a C programmer writes it, and the scan that needs no index: every stretch is compared, and left early. The distances are those of plain.c.
#include <string.h>
#include "plain.c"
typedef uint16_t u16;
typedef struct { i32 low, up; u32 first, runs; } Row;
typedef struct { u32 window, width, windows; } Head;
typedef struct { u32 kind, band; u64 threshold; u32 scale, shift, pick, count; } Asked; // pick: 0 for all matches, else the closest `count`
typedef struct { u64 candidates, matches; } Counts;

// what depends on the query alone
typedef struct { const i32 *q; size_t m; Asked asked; u64 values, spread; i32 curve[1024], low[1024], high[1024]; } Prepared;

static void prepare(Prepared *p, const i32 *q, size_t m, Asked asked) {
    u64 squares = 0;
    p->q = q; p->m = m; p->asked = asked; p->values = 0;
    for (size_t k = 0; k < m; k++) { u64 v = q[k] + 10000; p->values += v; squares += v * v; }
    p->spread = m * squares - p->values * p->values;
    if (asked.kind) normalise(q, m, p->values, p->spread, p->curve);
    else memcpy(p->curve, q, m * sizeof *q);
    plain_envelopes(p->curve, m, asked.band, p->low, p->high);
}

// whether the index is well formed
static int judged(Head h, const Row *rows, size_t count, const u32 *left, const u32 *right, size_t room) {
    i32 least = -4000000;
    u64 place = 0, total = 0;
    if (h.window < 1 || h.window > 256 || h.width < 1 || h.width > 1000000 || h.windows < 1 || h.windows > 1 << 20) return 0;
    for (size_t i = 0; i < count; i++) {
        Row r = rows[i];
        if (r.low >= r.up || r.low % (i32)h.width || r.up % (i32)h.width || r.low < least || r.up > 4000000 || r.runs < 1 || r.first != place || place + r.runs > room) return 0;
        u64 next = 0;
        for (size_t x = place; x < place + r.runs; x++) {
            if (left[x] < next || right[x] < left[x] || right[x] >= h.windows) return 0;
            total += right[x] + 1 - left[x];
            next = (u64)right[x] + 2;
        }
        if (total > h.windows) return 0;
        least = r.up;
        place += r.runs;
    }
    return 1;
}

// the conditions on the query, its limits and the list's room; a flat query is refused where it is normalised
static int allowed(size_t n, const i32 *q, size_t m, Asked a, u64 room) {
    if (m < 1 || m > 1024 || m > n || !all_in(q, m) || a.band >= m || a.threshold > 1000000000000ull || a.scale < 10 || a.scale > 100 || a.shift > 20000) return 0;
    if (a.pick && (a.count < 1 || a.count > 64 || room < a.count)) return 0;
    size_t k = 1;
    while (k < m && q[k] == q[0]) k++;
    return !a.kind || k < m;
}

static i64 floor_of(i64 z, i64 d) { return z < 0 ? -1 - (-1 - z) / d : z / d; }
static i64 ceil_of(i64 z, i64 d) { return -floor_of(-z, d); }

// the range of sums of each part
static void range_of(const Prepared *p, size_t w, size_t i, i64 *from, i64 *to) {
    Asked l = p->asked;
    i64 low = 0, high = 0, m = p->m, r = plain_root(w * l.threshold);
    for (size_t k = i * w; k < i * w + w; k++) { low += p->low[k]; high += p->high[k]; }
    *from = low - r;
    *to = high + r;
    if (!l.kind) return;
    i64 x = *from - (i64)w, y = *to + (i64)w, t = (i64)p->values - 10000 * m, square = l.scale * l.scale;
    i64 u = plain_root(100 * p->spread / square), v = plain_root(square * p->spread / 100) + 1;
    *from = ceil_of((x * u < x * v ? x * u : x * v) + 100 * (i64)w * (t - m * l.shift), 100 * m);
    *to = floor_of((y * u > y * v ? y * u : y * v) + 100 * (i64)w * (t + m * l.shift), 100 * m);
}

// the first row whose up is above z
static size_t above(const Row *rows, size_t count, i64 z) {
    size_t a = 0, b = count;
    while (a < b) { size_t k = (a + b) / 2; if (rows[k].up > z) b = k; else a = k + 1; }
    return a;
}

static size_t clipped(size_t x, size_t shift, size_t most) { return x < shift ? 0 : x - shift < most ? x - shift : most; }

// the offsets from j up to end that stand at i are raised
static inline void raise_run(size_t j, size_t end, u16 i, u16 *scratch) {
    for (; j < end; j++) scratch[j] = scratch[j] == i ? i + 1 : scratch[j];
}

// the offsets that stand at i and whose window of part i stands in a row that the range meets, or at or past the index's windows, are raised
static void raise_part(const Row *rows, size_t count, const u32 *left, const u32 *right, size_t windows, i64 from, i64 to, size_t shift, size_t offsets, u16 i, u16 *scratch) {
    for (size_t k = above(rows, count, from); k < count && rows[k].low <= to; k++)
        for (size_t x = rows[k].first; x < (size_t)rows[k].first + rows[k].runs; x++)
            raise_run(clipped(left[x], shift, offsets), clipped((size_t)right[x] + 1, shift, offsets), i, scratch);
    raise_run(clipped(windows, shift, offsets), offsets, i, scratch);
}

// the distance where it is at most the threshold, and 1; else 0
static int near(const Prepared *p, const i32 *s, u64 *row, u64 *d) {
    u64 e = p->asked.threshold;
    *d = p->asked.band ? warped(s, p->curve, p->low, p->high, p->m, p->asked.band, e, row) : straight(s, p->curve, p->m, e);
    return *d <= e;
}

// the same of normalised values, made block by block as far as the bound lets them
static int near_normal(const Prepared *p, const i32 *s, u64 sum, u64 a, i32 *values, u64 *row, u64 *d) {
    u64 e = p->asked.threshold, total = 0, f = plain_root((1ull << 62) / a);
    size_t m = p->m;
    for (size_t i = 0; i < m; i += 16) {
        size_t end = m - i < 16 ? m : i + 16;
        for (size_t j = i; j < end; j++) values[j] = normal(s[j], m, sum, a, f);
        for (size_t j = i; j < end; j++) total += outside(p->low[j], p->high[j], values[j]);
        if (total > e) return 0;
    }
    return near(p, values, row, d);
}

// behind how many of the first n distances, which never fall, a later match at distance d stands
static u64 behind(const u64 *distances, u64 n, u64 d) {
    if (!n || distances[n - 1] <= d) return n;
    if (d < distances[0]) return 0;
    u64 a = 0, b = n - 1;
    while (a < b) { u64 k = (a + b) / 2; if (distances[k] <= d) a = k + 1; else b = k; }
    return a;
}

// the match at offset j, behind k others, is kept if it is among the closest `count`, which stand first by distance and then offset
static void keep(u64 count, u64 k, u32 j, u64 d, u32 *offsets, u64 *distances) {
    u64 held = k < count ? k : count, at = behind(distances, held, d);
    if (at == count) return;
    u64 moved = (held < count ? held : count - 1) - at;
    memmove(offsets + at + 1, offsets + at, moved * sizeof *offsets);
    memmove(distances + at + 1, distances + at, moved * sizeof *distances);
    offsets[at] = j;
    distances[at] = d;
}

// the stretches at the offsets from..last are compared, and the matches listed behind the first k; how many there are then
static u64 compare(const Prepared *p, const i32 *s, size_t n, size_t from, size_t last, u64 k, u32 *offsets, u64 *distances, u64 room) {
    u64 row[1025], sum = 0, squares = 0, d, m = p->m, square = p->asked.scale * p->asked.scale, shift = m * p->asked.shift;
    i32 values[1024];
    if (p->asked.kind) for (size_t j = from; j < from + m; j++) { u64 v = s[j] + 10000; sum += v; squares += v * v; }
    for (size_t j = from; j <= last; j++) {
        int yes;
        if (p->asked.kind) {
            u64 a = m * squares - sum * sum, gap = sum < p->values ? p->values - sum : sum - p->values;
            yes = a && 100 * a <= square * p->spread && 100 * p->spread <= square * a && gap <= shift;
            if (yes) yes = near_normal(p, s + j, sum, a, values, row, &d);
            if (j + m < n) { u64 u = s[j] + 10000, v = s[j + m] + 10000; sum = sum + v - u; squares = squares + v * v - u * u; }
        } else yes = near(p, s + j, row, &d);
        if (!yes) continue;
        if (p->asked.pick) keep(p->asked.count, k, j, d, offsets, distances);
        else if (k < room) { offsets[k] = j; distances[k] = d; }
        k++;
    }
    return k;
}

// behind k matches, of which the closest few may be all that is listed
static void clear_behind(Asked a, u64 k, u32 *offsets, u64 *distances, u64 room) {
    if (a.pick && k > a.count) k = a.count;
    if (k < room) { memset(offsets + k, 0, (room - k) * sizeof *offsets); memset(distances + k, 0, (room - k) * sizeof *distances); }
}

// 1 where the call is not refused. The candidate buffer and the scratch hold as many entries as the series has windows, the list has `room` entries; each of them is written to its end.
int plain_search(const i32 *s, size_t n, Head h, const Row *rows, size_t count, const u32 *left, const u32 *right, size_t run_room, Asked asked, const i32 *q, size_t m,
                 u32 *first, u32 *last, u16 *scratch, u32 *offsets, u64 *distances, u64 room, Counts *found) {
    if (n < 1 || n > 1 << 20 || !all_in(s, n) || !allowed(n, q, m, asked, room) || m < h.window || !judged(h, rows, count, left, right, run_room) || h.windows + h.window > n + 1) return 0;
    static Prepared p;
    size_t w = h.window, parts = m / w, windows = n - w + 1, stretches = n - m + 1, k = 0, candidates = 0;
    prepare(&p, q, m, asked);
    memset(scratch, 0, windows * sizeof *scratch);
    for (size_t i = 0; i < parts; i++) {
        i64 from, to;
        range_of(&p, w, i, &from, &to);
        raise_part(rows, count, left, right, h.windows, from, to, i * w, stretches, i, scratch);
    }
    int before = 0;
    for (size_t i = 0; i < stretches; i += 64) { // a block without a candidate is passed over
        size_t end = stretches - i < 64 ? stretches : i + 64;
        u16 some = 0;
        for (size_t j = i; j < end; j++) some += scratch[j] == parts;
        if (!some) { before = 0; continue; }
        for (size_t j = i; j < end; j++) {
            int here = scratch[j] == parts;
            if (here) { if (before) last[k - 1] = j; else { first[k] = last[k] = j; k++; } }
            before = here;
        }
        candidates += some;
    }
    memset(first + k, 0, (windows - k) * sizeof *first);
    memset(last + k, 0, (windows - k) * sizeof *last);
    memset(scratch, 0, windows * sizeof *scratch);
    u64 matches = 0;
    for (size_t x = 0; x < k; x++) matches = compare(&p, s, n, first[x], last[x], matches, offsets, distances, room);
    clear_behind(asked, matches, offsets, distances, room);
    *found = (Counts){candidates, matches};
    return 1;
}

// 1 where the call is not refused; every stretch is a candidate.
int plain_scan(const i32 *s, size_t n, Asked asked, const i32 *q, size_t m, u32 *offsets, u64 *distances, u64 room, Counts *found) {
    if (n < 1 || n > 1 << 20 || !all_in(s, n) || !allowed(n, q, m, asked, room)) return 0;
    static Prepared p;
    prepare(&p, q, m, asked);
    u64 matches = compare(&p, s, n, 0, n - m, 0, offsets, distances, room);
    clear_behind(asked, matches, offsets, distances, room);
    *found = (Counts){n - m + 1, matches};
    return 1;
}
