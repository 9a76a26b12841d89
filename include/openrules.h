/*
 * openrules: a partial evaluator for Cedar policies, proved.
 *
 * Each call takes a sheet or two, two work slices and an answer buffer, each as a pointer and a length, and returns a number; the line
 * and the length go where the last two pointers say. openrules_test_load takes two numbers in the place of sheets and work slices.
 * README.md has the table of numbers:
 *
 *   0, 0, written     accepted: the first `*length` bytes of `out` are the answer
 *   1, 0, 0           a work slice has under OPENRULES_WORDS words
 *   2, 0, 0           the sheet has over OPENRULES_SHEET bytes
 *   3 to 8, line, 0   the sheet is faulty, first at that line
 *   10, 0, needed     the answer buffer is shorter than the answer; one of OPENRULES_ANSWER bytes never is; a page needs OPENRULES_PAGE
 *   11, line, 0       openrules_finish alone: the complete sheet does not agree with the partial one, first at that line of it, or at the
 *                     line after its last where one is lacking
 *   12, line, 0       openrules_preview alone, before the run on the copy: the sheet lacks the line of this number, which is returned, or the
 *                     replacement breaks a rule or fills nothing
 *   13, 0, 0          openrules_test_load alone: under 1 or over OPENRULES_POLICIES policies
 *   14, 0, 0          openrules_firm alone: over OPENRULES_ROWS rows
 *   15, place, 0      openrules_firm alone: a text of the row at that place, counted from 0, does not exist or contradicts a known one
 *
 * An answer begins with its decision, eight counts and `why=`: the text number of the id of the first policy, in the sheet's order, that gave the
 * decision, a true forbid for a deny, a true permit for an allow; `none` for open and for a deny without a true forbid. A partial sheet does not
 * settle the name: an open policy of the same effect that stands before it may still turn true.
 *
 * A type line `entity` lists one or more kinds, ascending; where it lists several, each has a type line of its own before it.
 * The last item of an `entity` line is the set of its direct parents; its ancestors are all that is reached through parents.
 * Every sheet has a line `day=yyyy-mm-dd`; the answer has nothing of a policy whose `term` line does not hold that day. Where policies
 * share a root or have slots that `link` lines fill, the answer has what is left of each policy by itself, so it may be longer than the sheet.
 *
 * After 1 the work slices are untouched, otherwise their first 16,384 words are 0 and the rest untouched. The answer
 * buffer changes only in the bytes written. Nothing is kept between calls, so calls in slices of their own may run at the same time.
 *
 * What the caller owes: every pointer is valid for its length and aligned for its type, also where the length is 0 (then any
 * pointer that is not null and aligned will do); no two of the slices, the buffer, `line` and `length` overlap, and nothing writes to
 * them during the call. What they hold is free, no length is too short or too long: the calls ask nothing else.
 *
 * To link: `rt staticlib openrules_c` writes target/staticlib/libopenrules_c.a, for x86-64 Linux.
 */
#ifndef OPENRULES_H
#define OPENRULES_H

#include <stddef.h>
#include <stdint.h>

#ifdef __cplusplus
extern "C" {
#endif

/* The words that each work slice must have. */
#define OPENRULES_WORDS 16384

/* The bytes that a sheet may have. */
#define OPENRULES_SHEET 16384

/* The bytes of an answer buffer that is long enough for every sheet. */
#define OPENRULES_ANSWER 1048576

/* The bytes of a counter page. */
#define OPENRULES_PAGE 4380

/* The policies that a test load may have. */
#define OPENRULES_POLICIES 64

/* The rows that a call of openrules_firm may have. */
#define OPENRULES_ROWS 64

/* A decision as a number. */
#define OPENRULES_ALLOW 0
#define OPENRULES_DENY 1
#define OPENRULES_OPEN 2

/* The answer to a sheet that begins with the line `sheet=partial`. */
uint32_t openrules_partial(const uint8_t *sheet, size_t sheet_len,
                           uint32_t *first, size_t first_len,
                           uint32_t *second, size_t second_len,
                           uint8_t *out, size_t out_len,
                           size_t *line, size_t *length);

/* The answer to a sheet that begins with the line `sheet=complete`. */
uint32_t openrules_complete(const uint8_t *sheet, size_t sheet_len,
                            uint32_t *first, size_t first_len,
                            uint32_t *second, size_t second_len,
                            uint8_t *out, size_t out_len,
                            size_t *line, size_t *length);

/*
 * The counter page of a sheet that begins with the line `sheet=partial`: 60 lines of 72 columns, each ending in byte 10, in the answer's place.
 * Line 1 has the decision; then each policy on term has a line: the text of its id, its effect, its class and the number of its residual nodes.
 */
uint32_t openrules_page(const uint8_t *sheet, size_t sheet_len,
                        uint32_t *first, size_t first_len,
                        uint32_t *second, size_t second_len,
                        uint8_t *out, size_t out_len,
                        size_t *line, size_t *length);

/*
 * The answer that what the partial sheet's run left gives on the complete sheet: that of openrules_complete on it, byte for byte. Both sheets
 * pass their own checks first, the partial one before the other; 2 to 8 and their line are those of the sheet at fault. It takes some 84 KB of
 * stack beside what the other calls take.
 */
uint32_t openrules_finish(const uint8_t *partial, size_t partial_len,
                          const uint8_t *complete, size_t complete_len,
                          uint32_t *first, size_t first_len,
                          uint32_t *second, size_t second_len,
                          uint8_t *out, size_t out_len,
                          size_t *line, size_t *length);

/*
 * What a run on a copy of a partial sheet returns that has the replacement in the place of line `of_line`, counted from 1. The kept sheet is only
 * read: 1 and 2 are asked of it, then 12; the rest, also 2, is that of the run on the copy. A replacement has no byte 10 and no other key, keeps
 * the number of items after the first `=` and differs only in items that were a lone `?`, on a line `principal`, `resource`, `context` or `entity`.
 * It takes some 16 KB of stack beside what the other calls take.
 */
uint32_t openrules_preview(const uint8_t *sheet, size_t sheet_len,
                           size_t of_line,
                           const uint8_t *replacement, size_t replacement_len,
                           uint32_t *first, size_t first_len,
                           uint32_t *second, size_t second_len,
                           uint8_t *out, size_t out_len,
                           size_t *line, size_t *length);

/*
 * The test load that a seed and a number of policies name: a partial sheet. It returns 0, 10 or 13, and 13 comes before 10. With 0 the first
 * `*length` bytes of `out` are the sheet, with 10 `*length` is the sheet's length; `*line` is always 0. A buffer of OPENRULES_SHEET bytes is
 * long enough for every seed. openrules_partial accepts every such sheet, and its answer has at most OPENRULES_SHEET bytes.
 */
uint32_t openrules_test_load(uint64_t seed, uint32_t policies,
                             uint8_t *out, size_t out_len,
                             size_t *line, size_t *length);

/* A row of a firm: the numbers of two texts of the sheet, and the decision, which the call fills. */
typedef struct openrules_row {
    uint32_t principal;
    uint32_t resource;
    uint32_t decision;
} openrules_row;

/*
 * For each row the decision on the partial sheet with the row's texts for principal and resource, and in `*group` the group's: deny if any row
 * denies, else open if any row is open, else allow; no rows gives allow. A row repeats a text that the sheet knows. The sheet is read once for all
 * rows. First 1, 2 and 14, then 3 to 8 of the sheet, then 15 of the lowest row; where the call is refused no row changes and the group is open.
 * `*length` is always 0: no answer buffer is lent. It takes some 64 KB of stack beside what the other calls take.
 */
uint32_t openrules_firm(openrules_row *rows, size_t rows_len,
                        const uint8_t *sheet, size_t sheet_len,
                        uint32_t *first, size_t first_len,
                        uint32_t *second, size_t second_len,
                        size_t *line, size_t *length, uint32_t *group);

#ifdef __cplusplus
}
#endif

#endif
