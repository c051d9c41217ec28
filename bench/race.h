// What the four programs that race the proved code and the plain C share: names of types, the lent records, a clock, random numbers, and how often a race is run.
#include <stdint.h>
#include <stdio.h>
#include <string.h>
#include <time.h>
typedef int32_t i32;
typedef uint8_t u8;
typedef uint16_t u16;
typedef uint32_t u32;
typedef uint64_t u64;
typedef struct { i32 low, up; u32 first, runs; } Row;
typedef struct { u32 window, width, windows; } Head;

// START and STOP stand around each call of a proved entry. With COUNT a race is run once, under valgrind, which writes how many instructions there were between them.
#ifdef COUNT
#include <valgrind/callgrind.h>
#define REPS 1
#define START CALLGRIND_ZERO_STATS
#define STOP CALLGRIND_DUMP_STATS
#else
#define REPS 15
#define START
#define STOP
#endif

static inline double now(void) {
    struct timespec t;
    clock_gettime(CLOCK_THREAD_CPUTIME_ID, &t); // time of this thread alone: other work on the machine disturbs less
    return t.tv_sec + 1e-9 * t.tv_nsec;
}

static u64 any_state = 88172645463325252ull; // set back to what it was, the same numbers come again
static inline u64 any(void) {
    any_state ^= any_state << 13;
    any_state ^= any_state >> 7;
    any_state ^= any_state << 17;
    return any_state;
}
static inline i32 in_limits(int v) { return v > 10000 ? 10000 : v < -10000 ? -10000 : v; }
