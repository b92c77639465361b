/* The C entry points of Bodkinfawn: SQL window functions over partitions that the caller lends.
 *
 * Link libcapi.a (made by `rt lib` in this folder) and, for the heap, liblibc_c.a of the Rattle kit.
 *
 * Every function is one call: nothing is kept from one to the next. A list is handed over as a pointer and a number of
 * elements. The pointer is never NULL, not even of an empty list, and aligned for its element. Lists that are written
 * overlap no other list of the call. Input is only read. Nothing else is asked of a caller: what is wrong is refused.
 *
 * After a refusal every list holds what it held. After a call that was not refused the answers stand in their places,
 * and what lies beyond them is as it was.
 */
#ifndef BODKINFAWN_H
#define BODKINFAWN_H

#include <stddef.h>
#include <stdint.h>

#ifdef __cplusplus
extern "C" {
#endif

/* What a call tells. Where `refused` is 0, `number` is 0, and `place` is what the call counted, else 0.
 * Where it is 1, `number` says why, and `place` where:
 *
 *   0        there was no memory; place 0
 *   1 to 20  a check of the library (docs/RULES.md, "Refusals"); 11 of a run: fewer outcomes or answers than calls,
 *            with the least of their numbers
 *   21       a field of the function stands for nothing; the field, 0 `name` to 7 `finish`, 8 the default
 *   22       a value stands for nothing; its row in the list
 *   23       a mark of the column is neither 0 nor 1; its row in the list
 *   24       a call in bytes stands for nothing; the byte in the list that says so
 *
 * The first of these refuses: 21 (but for the default), 23, 22, 24, 21 of the default, and then the library's checks in
 * their order. Want of memory may come before any but the first. */
struct bodkinfawn_told {
    size_t refused;
    size_t number;
    size_t place;
};

/* The kinds of value, of each all values but those said. */
struct bodkinfawn_instant { int64_t instant; };
struct bodkinfawn_pseudonym { uint64_t high, low; };
struct bodkinfawn_code { uint64_t code; };
/* tag 0 granted, 1 refused with the reason, 2 timed out; other tags, and a reason beside 0 or 2, stand for nothing */
struct bodkinfawn_outcome { uint16_t tag, reason; };
struct bodkinfawn_pair { struct bodkinfawn_instant instant; struct bodkinfawn_code code; };

/* A frame or a peer group: its first row, and the row after its last. */
struct bodkinfawn_span {
    size_t start;
    size_t end;
};

enum {
    BODKINFAWN_LAG = 0,
    BODKINFAWN_LEAD = 1,
    BODKINFAWN_FIRST_VALUE = 2,
    BODKINFAWN_LAST_VALUE = 3,
    BODKINFAWN_NTH_VALUE = 4,
    BODKINFAWN_RANK = 5,
    BODKINFAWN_DENSE_RANK = 6,
    BODKINFAWN_ROW_NUMBER = 7,
    BODKINFAWN_PERCENT_RANK = 8,
    BODKINFAWN_CUME_DIST = 9
};

enum {
    BODKINFAWN_MISSING = 0,
    BODKINFAWN_NULL = 1,
    BODKINFAWN_SIGNED = 2,
    BODKINFAWN_UNSIGNED = 3,
    BODKINFAWN_NOT_INTEGER = 4
};

/* A window function with its arguments. Each field is checked, whether the call looks at it or not. */
struct bodkinfawn_function {
    uint8_t name;
    /* marks, each 0 or 1 */
    uint8_t mirrored;     /* the function's mirror is asked; 5 to 9 have none, and take 0 */
    uint8_t reversed;     /* LAG and LEAD: the window is reversed */
    uint8_t ignore_nulls; /* 0 to 4 */
    uint8_t argument;     /* LAG's and LEAD's offset, NTH_VALUE's n: what it is, from 0 to 4 */
    uint8_t has_default;  /* LAG and LEAD: the default is given; else it is NULL */
    uint8_t from_zero;    /* a run: all frames begin at 0 */
    uint8_t finish;       /* a run: it is to be finished after its calls */
    int64_t argument_signed;
    uint64_t argument_unsigned;
};

/* The bytes of a call on a run: eight numbers of eight bytes each, the lowest byte first.
 *
 *   number 0  what is called: 0 a request without a frame, 1 a request with one, 2 settling, 3 reading the keep mark,
 *             4 a close; else the flaw is at its byte 0
 *   number 1  of a request the first row of its window; of a close the total
 *   2 and 3   of a request the values that its window shows: from the one, up to but not with the other, of the list
 *             of values; where the list has no such part the flaw is at byte 16
 *   4 and 5   likewise the marks; at byte 32
 *   6 and 7   the start and end of the frame of a request with one
 *
 * Numbers that a call does not look at may hold anything. Bytes behind the last whole call are a flaw at the first of
 * them. Windows may contradict each other, and show more values than marks: such a request is refused by the library. */
#define BODKINFAWN_CALL_BYTES 64

enum {
    BODKINFAWN_ANSWER = 0,
    BODKINFAWN_DONE = 1,
    BODKINFAWN_MARK = 2,
    BODKINFAWN_NOT_TAKEN = 3,
    BODKINFAWN_REFUSED = 4,
    BODKINFAWN_FINISHED = 5,
    BODKINFAWN_NOT_CLOSED = 6
};

/* What came of a call on a run: 0 an answer, 1 settled or closed, 2 the keep mark in `place`, 3 a close of a closed run,
 * which is not taken, 4 refused by the check `number` at `place`. Of finishing: 5 with the number of rows in `place`,
 * 4 refused, 6 the run is not closed. What is not named is 0. */
struct bodkinfawn_noted {
    size_t what;
    size_t number;
    size_t place;
};

/* The functions of a kind.
 *
 * ..._cells: the answers of 0 to 4 over a whole partition. An empty list of frames or of groups is absent. Answers go
 * to two lists: of a present one the value, and mark 1; a NULL one sets the mark 0 and keeps the value that was there.
 * The default is looked at where has_default is 1, and has to stand for a value at all times.
 *
 * ..._numbers: the same of 5 to 7. ..._fractions: the same of 8 and 9.
 *
 * ..._groups: writes the peer groups of a column to the front of `spans`; `place` is their number.
 *
 * ..._run_cells: makes the calls, one after another, on a new run of a function of 0 to 4, whose windows show parts of
 * the values and marks. What came of call number k goes to outcomes[k], and its answer, if it gave one, to place k of
 * the lists of answers, as above; other places stay as they were. Where `finish` is 1 the run is finished after that,
 * and what came of it goes to *ending, which is else as it was.
 *
 * ..._run_numbers: the same of 5 to 7. */
#define BODKINFAWN_KIND(kind, value) \
    struct bodkinfawn_told bodkinfawn_##kind##_cells( \
        const struct bodkinfawn_function *function, struct value default_value, \
        const struct value *values, size_t values_len, const uint8_t *marks, size_t marks_len, \
        const struct bodkinfawn_span *frames, size_t frames_len, \
        const struct bodkinfawn_span *groups, size_t groups_len, \
        struct value *answers, size_t answers_len, uint8_t *answer_marks, size_t answer_marks_len); \
    struct bodkinfawn_told bodkinfawn_##kind##_numbers( \
        const struct bodkinfawn_function *function, \
        const struct value *values, size_t values_len, const uint8_t *marks, size_t marks_len, \
        const struct bodkinfawn_span *frames, size_t frames_len, \
        const struct bodkinfawn_span *groups, size_t groups_len, \
        uint64_t *answers, size_t answers_len); \
    struct bodkinfawn_told bodkinfawn_##kind##_fractions( \
        const struct bodkinfawn_function *function, \
        const struct value *values, size_t values_len, const uint8_t *marks, size_t marks_len, \
        const struct bodkinfawn_span *frames, size_t frames_len, \
        const struct bodkinfawn_span *groups, size_t groups_len, \
        double *answers, size_t answers_len); \
    struct bodkinfawn_told bodkinfawn_##kind##_groups( \
        const struct value *values, size_t values_len, const uint8_t *marks, size_t marks_len, \
        struct bodkinfawn_span *spans, size_t spans_len); \
    struct bodkinfawn_told bodkinfawn_##kind##_run_cells( \
        const struct bodkinfawn_function *function, struct value default_value, \
        const struct value *values, size_t values_len, const uint8_t *marks, size_t marks_len, \
        const uint8_t *calls, size_t calls_len, struct bodkinfawn_noted *outcomes, size_t outcomes_len, \
        struct value *answers, size_t answers_len, uint8_t *answer_marks, size_t answer_marks_len, \
        struct bodkinfawn_noted *ending); \
    struct bodkinfawn_told bodkinfawn_##kind##_run_numbers( \
        const struct bodkinfawn_function *function, \
        const struct value *values, size_t values_len, const uint8_t *marks, size_t marks_len, \
        const uint8_t *calls, size_t calls_len, struct bodkinfawn_noted *outcomes, size_t outcomes_len, \
        uint64_t *answers, size_t answers_len, struct bodkinfawn_noted *ending);

BODKINFAWN_KIND(instant, bodkinfawn_instant)
BODKINFAWN_KIND(pseudonym, bodkinfawn_pseudonym)
BODKINFAWN_KIND(code, bodkinfawn_code)
BODKINFAWN_KIND(outcome, bodkinfawn_outcome)
BODKINFAWN_KIND(pair, bodkinfawn_pair)

#ifdef __cplusplus
}
#endif

#endif
