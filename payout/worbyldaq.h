/* The audit of an index text against a series line, for C. The library is target/staticlib/libpayout.a (`payout/build` makes it).
 * What the number says is proved: `auditText`, `pack` and `unpack` of crates/meaning_entries/specs/AuditText.antt. */
#ifndef WORBYLDAQ_H
#define WORBYLDAQ_H
#include <stddef.h>
#include <stdint.h>

/* The audit of `index` (an index text) against `series` (a series line), each with its length in bytes. Takes any bytes, writes to neither and keeps nothing; neither pointer is NULL, even where the length is 0. */
uint64_t audit_text(const uint8_t *index, size_t index_length, const uint8_t *series, size_t series_length);

/* What an answer is: its remainder by 8. */
enum audit_kind { AUDIT_YES = 0, AUDIT_WRONG = 1, AUDIT_MISSING = 2, AUDIT_UNREADABLE = 3, AUDIT_REFUSED = 4 };

static inline enum audit_kind audit_kind_of(uint64_t answer) { return (enum audit_kind)(answer % 8); }

/* AUDIT_WRONG: the first row and offset filed wrongly. */
static inline uint64_t audit_row(uint64_t answer) { return answer / 8 / 1048576; }
static inline uint64_t audit_offset(uint64_t answer) { return answer / 8 % 1048576; }

/* AUDIT_MISSING: how many windows stand nowhere. */
static inline uint64_t audit_missing(uint64_t answer) { return answer / 8; }

/* AUDIT_UNREADABLE, AUDIT_REFUSED: number and place of the refusal. A text that cannot be read is 12, and its place the bad line. */
static inline uint64_t audit_number(uint64_t answer) { return audit_kind_of(answer) == AUDIT_UNREADABLE ? 12 : answer / 8 % 32; }
static inline uint64_t audit_place(uint64_t answer) { return audit_kind_of(answer) == AUDIT_UNREADABLE ? answer / 8 : answer / 8 / 32; }

#endif
