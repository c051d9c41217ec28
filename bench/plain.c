// The same functions in plain C, as a C programmer writes them.
#include <stddef.h>
#include <stdint.h>
typedef int32_t i32;
typedef uint32_t u32;
typedef int64_t i64;
typedef uint64_t u64;

static int all_in(const i32 *s, size_t n) {
    for (size_t i = 0; i < n; i += 256) { // a block has no jump but its end
        u32 out = 0;
        for (size_t k = i; k < n && k < i + 256; k++) out += (u32)(s[k] + 10000) > 20000;
        if (out) return 0;
    }
    return 1;
}

static int fits(const i32 *s, size_t n, size_t m, size_t room) { return m > 0 && m <= 1024 && n >= m && room > n - m && all_in(s, n); }

static inline u64 squared(i32 x, i32 y) { i64 d = (i64)x - y; return (u64)(d * d); }

static u64 straight(const i32 *s, const i32 *q, size_t m, u64 limit) {
    u64 total = 0;
    size_t i = 0;
    for (; m - i >= 16; i += 16) {
        u64 t = 0;
        for (int k = 0; k < 16; k++) t += squared(s[i + k], q[i + k]);
        total += t;
        if (total > limit) return total;
    }
    for (; i < m; i++) total += squared(s[i], q[i]);
    return total;
}

size_t plain_straight(const i32 *s, size_t n, const i32 *q, size_t m, u64 limit, u64 *out, size_t room) {
    if (!fits(s, n, m, room) || !all_in(q, m)) return 0;
    size_t at = 0;
    for (; at <= n - m; at++) out[at] = straight(s + at, q, m, limit);
    return at;
}

static inline u64 outside(i32 l, i32 h, i32 x) {
    i32 a = x - h, b = l - x, d = a < b ? b : a;
    u32 e = d < 0 ? 0 : d;
    return (u64)e * e;
}

static u64 bound(const i32 *s, const i32 *l, const i32 *h, size_t m, u64 limit) {
    u64 total = 0;
    size_t i = 0;
    for (; m - i >= 16; i += 16) {
        u64 t = 0;
        for (int k = 0; k < 16; k++) t += outside(l[i + k], h[i + k], s[i + k]);
        total += t;
        if (total > limit) return total;
    }
    for (; i < m; i++) total += outside(l[i], h[i], s[i]);
    return total;
}

size_t plain_bound(const i32 *s, size_t n, const i32 *l, size_t m, const i32 *h, size_t hm, u64 limit, u64 *out, size_t room) {
    if (hm != m || !fits(s, n, m, room) || !all_in(l, m) || !all_in(h, m)) return 0;
    size_t at = 0;
    for (; at <= n - m; at++) out[at] = bound(s + at, l, h, m, limit);
    return at;
}

void plain_envelopes(const i32 *, size_t, size_t, i32 *, i32 *);
#define BIG 819200000000ull
static inline u64 lesser(u64 a, u64 b) { return a < b ? a : b; }

// the envelope bound first; a row is left with the bound of the rows after it
static u64 warped(const i32 *s, const i32 *q, const i32 *l, const i32 *h, size_t m, size_t b, u64 limit, u64 *row) {
    u64 rest = bound(s, l, h, m, limit);
    if (rest > limit) return rest;
    rest -= outside(l[0], h[0], s[0]);
    for (size_t k = 0; k <= m; k++) row[k] = BIG;
    size_t hi = b < m ? b + 1 : m;
    u64 left = 0;
    for (size_t j = 0; j < hi; j++) { left += squared(s[0], q[j]); row[j + 1] = left; }
    for (size_t k = 1; k < m; k++) {
        size_t lo = k < b ? 0 : k - b;
        hi = b < m - k ? k + b + 1 : m;
        u64 corner = row[lo], least = ~0ull;
        i32 x = s[k];
        row[lo] = BIG;
        left = BIG;
        for (size_t j = lo; j < hi; j++) {
            u64 above = row[j + 1];
            left = lesser(lesser(corner, above), left) + squared(x, q[j]);
            corner = above;
            least = lesser(left, least);
            row[j + 1] = left;
        }
        rest -= outside(l[k], h[k], x);
        if (least + rest > limit) return least + rest;
    }
    return row[m];
}

size_t plain_warped(const i32 *s, size_t n, const i32 *q, size_t m, size_t b, u64 limit, i32 *low, size_t lm, i32 *high, size_t hm, u64 *out, size_t room) {
    u64 row[1025];
    if (lm != m || hm != m || !fits(s, n, m, room) || !all_in(q, m)) return 0;
    plain_envelopes(q, m, b, low, high);
    size_t at = 0;
    for (; at <= n - m; at++) out[at] = warped(s + at, q, low, high, m, b, limit, row);
    return at;
}

u64 plain_root(u64 y) {
    u64 r = 0, w = 1ull << 32;
    while (w > 1) {
        u64 h = w / 2, t = r + h;
        if (t * t <= y) r = t;
        w -= h;
    }
    return r;
}

static inline i32 normal(i32 s, size_t m, u64 p, u64 a, u64 f) {
    u64 x = m * (u64)(s + 10000);
    u64 d = x < p ? p - x : x - p, g = 100 * d, e = g * f >> 31, u = e + 1;
    u64 t = u * u * a <= g * g ? u : e;
    return x < p ? -(i32)t : (i32)t;
}

static void normalise(const i32 *s, size_t m, u64 p, u64 a, i32 *out) {
    u64 f = plain_root((1ull << 62) / a);
    for (size_t j = 0; j < m; j++) out[j] = normal(s[j], m, p, a, f);
}

size_t plain_normal(const i32 *s, size_t n, i32 *values, size_t m, u64 *out, size_t room) {
    if (!fits(s, n, m, room)) return 0;
    u64 p = 0, w = 0;
    size_t at = 0;
    for (size_t k = 0; k < m; k++) { u64 v = s[k] + 10000; p += v; w += v * v; }
    for (; at <= n - m; at++) {
        u64 a = m * w - p * p;
        if (a > 0) normalise(s + at, m, p, a, values);
        out[at] = a;
        if (at + m < n) { u64 u = s[at] + 10000, v = s[at + m] + 10000; p = p + v - u; w = w + v * v - u * u; }
    }
    return at;
}

// linear time: a queue of places for each of the two
void plain_envelopes(const i32 *q, size_t m, size_t b, i32 *low, i32 *high) {
    static size_t u[1024], l[1024];
    size_t uh = 0, ut = 0, lh = 0, lt = 0, j = 0;
    for (size_t i = 0; i < m; i++) {
        for (; j < m && j <= i + b; j++) {
            while (ut > uh && q[u[ut - 1]] <= q[j]) ut--;
            u[ut++] = j;
            while (lt > lh && q[l[lt - 1]] >= q[j]) lt--;
            l[lt++] = j;
        }
        if (u[uh] + b < i) uh++;
        if (l[lh] + b < i) lh++;
        high[i] = q[u[uh]];
        low[i] = q[l[lh]];
    }
}
