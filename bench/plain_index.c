// Build, extend and audit in plain C, by the same passes as the proved code. Build and extend take their inputs as judged.
#include <stdint.h>
#include <string.h>
typedef int32_t i32;
typedef uint32_t u32;
typedef uint64_t u64;
typedef struct { i32 low, up; u32 first, runs; } Row;
enum { FLAGS = 1 << 18 };
static unsigned char flags[FLAGS];

static i32 sum_of(const i32 *s, size_t w) { i32 t = 0; for (size_t k = 0; k < w; k++) t += s[k]; return t; }
static i32 floor_div(i32 a, i32 d) { i32 q = a / d; return q - (a % d < 0); }

// the first window at or after j whose sum is outside [low, up); *sum is moved along
static size_t run_end(const i32 *s, size_t w, size_t windows, size_t j, i32 *sum, i32 low, i32 up) {
    i32 t = *sum;
    while (t >= low && t < up) {
        if (++j == windows) break;
        t += s[j + w - 1] - s[j - 1];
    }
    *sum = t;
    return j;
}

// the row numbers of the windows, ascending, each once
static size_t list_rows(const i32 *s, size_t w, size_t windows, i32 d, i32 *out) {
    i32 t = sum_of(s, w), least = t, most = t;
    for (size_t j = 1; j < windows; j++) {
        t += s[j + w - 1] - s[j - 1];
        if (t < least) least = t;
        if (t > most) most = t;
    }
    size_t n = 0;
    i32 last = floor_div(most, d);
    for (i32 base = floor_div(least, d); base <= last; base += FLAGS) {
        memset(flags, 0, sizeof flags);
        t = sum_of(s, w);
        for (size_t j = 0; j < windows;) {
            i32 k = floor_div(t, d);
            if (k >= base && k < base + FLAGS) flags[k - base] = 1;
            j = run_end(s, w, windows, j, &t, k * d, k * d + d);
        }
        for (i32 x = 0; x < FLAGS; x++) if (flags[x]) out[n++] = base + x;
    }
    return n;
}

// the first row whose upper end is above the sum
static size_t find_row(const Row *rows, size_t n, i32 sum) {
    size_t lo = 0, hi = n;
    while (lo < hi) {
        size_t mid = lo + (hi - lo) / 2;
        if (rows[mid].up <= sum) lo = mid + 1; else hi = mid;
    }
    return lo;
}

// while a part is not full its last right end counts the entries written
static void file(const Row *r, u32 a, u32 b, u32 *left, u32 *right) {
    size_t last = r->first + r->runs - 1, t = right[last];
    left[r->first + t] = a;
    right[r->first + t] = b;
    if (t + 1 < r->runs) right[last] = t + 1;
}

static void fill(const i32 *s, size_t w, size_t windows, size_t j, const Row *rows, size_t n, u32 *left, u32 *right) {
    i32 t = sum_of(s + j, w);
    while (j < windows) {
        const Row *r = rows + find_row(rows, n, t);
        size_t from = j;
        j = run_end(s, w, windows, j, &t, r->low, r->up);
        file(r, from, j - 1, left, right);
    }
}

static void name_neighbours(const i32 *s, size_t w, size_t windows, const Row *rows, size_t n, u32 *left, u32 *right) {
    i32 t = sum_of(s, w);
    size_t i = find_row(rows, n, t), before = 0;
    for (size_t j = 0; j < windows;) {
        j = run_end(s, w, windows, j, &t, rows[i].low, rows[i].up);
        size_t next = j < windows ? find_row(rows, n, t) : 0;
        file(rows + i, before, j < windows ? next + 1 : 0, left, right);
        before = i + 1;
        i = next;
    }
}

static size_t merge(Row *rows, size_t n, const u32 *left, const u32 *right, u64 g) {
    size_t k = 0, group = 0;
    Row current = rows[0];
    current.first = 0;
    for (size_t i = 1; i < n; i++) {
        Row r = rows[i];
        u64 touches = 0;
        for (size_t x = r.first; x < (size_t)r.first + r.runs; x++)
            touches += (left[x] > group && left[x] <= i) + (right[x] > group && right[x] <= i);
        u64 both = (u64)current.runs + r.runs, joined = both - touches;
        if (100 * joined < g * both) {
            current.up = r.up;
            current.runs = joined;
        } else {
            rows[k++] = current;
            r.first = current.first + current.runs;
            current = r;
            group = i;
        }
    }
    rows[k++] = current;
    return k;
}

static size_t find_number(const i32 *t, size_t n, i32 k) {
    size_t lo = 0, hi = n;
    while (hi - lo > 1) {
        size_t mid = lo + (hi - lo) / 2;
        if (t[mid] <= k) lo = mid; else hi = mid;
    }
    return lo;
}

size_t plain_build(const i32 *s, size_t n, size_t w, u32 width, u32 g, Row *rows, size_t room, u32 *left, u32 *right) {
    size_t windows = n + 1 - w;
    i32 d = width, *numbers = (i32 *)left, t = sum_of(s, w);
    size_t count = list_rows(s, w, windows, d, numbers);
    memset(right, 0, room * sizeof *right);
    for (size_t j = 0; j < windows;) {
        i32 k = floor_div(t, d);
        right[find_number(numbers, count, k)]++;
        j = run_end(s, w, windows, j, &t, k * d, k * d + d);
    }
    u32 first = 0;
    for (size_t i = 0; i < count; i++) {
        rows[i] = (Row){numbers[i] * d, numbers[i] * d + d, first, right[i]};
        first += right[i];
    }
    memset(left, 0, room * sizeof *left);
    memset(right, 0, room * sizeof *right);
    if (g > 0) {
        name_neighbours(s, w, windows, rows, count, left, right);
        count = merge(rows, count, left, right, g);
        memset(left, 0, room * sizeof *left);
        memset(right, 0, room * sizeof *right);
    }
    memset(rows + count, 0, (room - count) * sizeof *rows);
    fill(s, w, windows, 0, rows, count, left, right);
    return count;
}

size_t plain_extend(const i32 *s, size_t n, size_t w, u32 width, size_t old, const Row *rows0, size_t count0, const u32 *left0, const u32 *right0,
                    Row *rows, size_t room, u32 *left, u32 *right) {
    size_t windows = n + 1 - w, i = 0, k = 0, count = 0;
    i32 d = width, *numbers = (i32 *)left;
    size_t fresh = old < windows ? list_rows(s + old, w, windows - old, d, numbers) : 0;
    while (i < count0 || k < fresh) {
        if (k < fresh && (i == count0 || numbers[k] * d < rows0[i].low)) {
            rows[count++] = (Row){numbers[k] * d, numbers[k] * d + d, 0, 0};
            k++;
        } else if (k < fresh && numbers[k] * d < rows0[i].up) k++;
        else rows[count++] = rows0[i++];
    }
    // a new row has no runs yet; count the new runs
    if (old < windows) {
        i32 t = sum_of(s + old, w);
        for (size_t j = old; j < windows;) {
            Row *r = rows + find_row(rows, count, t);
            int joins = j == old && r->runs > 0 && right0[r->first + r->runs - 1] + 1 == old;
            r->runs += !joins;
            j = run_end(s, w, windows, j, &t, r->low, r->up);
        }
    }
    memset(left, 0, room * sizeof *left);
    memset(right, 0, room * sizeof *right);
    memset(rows + count, 0, (room - count) * sizeof *rows);
    u32 first = 0;
    i = 0;
    for (size_t x = 0; x < count; x++) {
        rows[x].first = first;
        if (i < count0 && rows0[i].low == rows[x].low) {
            memcpy(left + first, left0 + rows0[i].first, rows0[i].runs * sizeof *left);
            memcpy(right + first, right0 + rows0[i].first, rows0[i].runs * sizeof *right);
            if (rows0[i].runs < rows[x].runs) right[first + rows[x].runs - 1] = rows0[i].runs;
            i++;
        }
        first += rows[x].runs;
    }
    if (old < windows) {
        i32 t = sum_of(s + old, w);
        Row *r = rows + find_row(rows, count, t);
        size_t j = old, o = 0;
        while (o < count0 && rows0[o].low != r->low) o++;
        if (o < count0 && right0[rows0[o].first + rows0[o].runs - 1] + 1 == old) {
            j = run_end(s, w, windows, j, &t, r->low, r->up);
            right[r->first + rows0[o].runs - 1] = j - 1;
        }
        if (j < windows) fill(s, w, windows, j, rows, count, left, right);
    }
    return count;
}

// 0: the values are in their limits and the index is well formed; 3: a value is outside; 4: the index is not well formed. *total is made the run lengths
int plain_judge(const i32 *s, size_t n, u32 width, u32 windows, const Row *rows, size_t count, const u32 *left, const u32 *right, size_t room, u64 *total) {
    for (size_t k = 0; k < n; k++) if (s[k] < -10000 || s[k] > 10000) return 3;
    i32 least = -4000000;
    u64 place = 0;
    *total = 0;
    for (size_t i = 0; i < count; i++) {
        Row r = rows[i];
        if (r.low >= r.up || r.low % (i32)width || r.up % (i32)width || r.low < least || r.up > 4000000 || r.runs < 1 || r.first != place || place + r.runs > room) return 4;
        u64 next = 0;
        for (size_t x = r.first; x < place + r.runs; x++) {
            if (left[x] < next || right[x] < left[x] || right[x] >= windows) return 4;
            *total += right[x] + 1 - left[x];
            next = (u64)right[x] + 2;
        }
        if (*total > windows) return 4;
        least = r.up;
        place += r.runs;
    }
    return 0;
}

// 0: yes; 1: an offset is filed wrongly; 2: some stand nowhere. The index is judged too.
int plain_audit(const i32 *s, size_t n, size_t w, u32 width, u32 windows, const Row *rows, size_t count, const u32 *left, const u32 *right, size_t room) {
    u64 total;
    int refused = plain_judge(s, n, width, windows, rows, count, left, right, room, &total);
    if (refused) return refused;
    for (size_t i = 0; i < count; i++)
        for (size_t x = rows[i].first; x < (size_t)rows[i].first + rows[i].runs; x++) {
            i32 t = sum_of(s + left[x], w);
            for (size_t j = left[x];; j++) {
                if (t < rows[i].low || t >= rows[i].up) return 1;
                if (j == right[x]) break;
                t += s[j + w] - s[j];
            }
        }
    return total == windows ? 0 : 2;
}
