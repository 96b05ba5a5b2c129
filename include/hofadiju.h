/* Hofadiju: compares two starts of a control sheet (document 01), within document 01's limits or within
 * the quotation desk's (document 02, card 3), in the end or after so many rounds (document 02, card 13),
 * or all starts of a sheet together (document 02, card 1).
 *
 * Link with target/staticlib/libhofadiju.a, which `tools/staticlib` writes (x86-64 Linux). There are
 * five calls, and a function that says which version of the library is linked. They keep no state: any
 * number of threads may call them at the same time, each with its own slices. They allocate nothing.
 * c/compare.c is an example.
 */
#ifndef HOFADIJU_H
#define HOFADIJU_H

#include <stddef.h>
#include <stdint.h>

#ifdef __cplusplus
extern "C" {
#endif

/* The version of the library that this header belongs to. */
#define HOFADIJU_VERSION_MAJOR 0
#define HOFADIJU_VERSION_MINOR 2
#define HOFADIJU_VERSION_PATCH 0
#define HOFADIJU_VERSION (10000 * HOFADIJU_VERSION_MAJOR + 100 * HOFADIJU_VERSION_MINOR + HOFADIJU_VERSION_PATCH)

/* The version of the library that is linked, a number like HOFADIJU_VERSION. The library fits this header
 * where the two are equal. It also fits where both have the same major number and the library is not older
 * than the header; while the major number is 0, the minor number counts as the major one. c/compare.c has
 * this as a function.
 */
uint32_t hofadiju_version(void);

/* An answer slice of this many bytes always suffices for hofadiju_compare. */
#define HOFADIJU_ANSWER_BYTES 10237

/* An answer slice of this many bytes always suffices for hofadiju_compare_desk. */
#define HOFADIJU_DESK_ANSWER_BYTES 1277

/* An answer slice of this many bytes always suffices for hofadiju_compare_all. */
#define HOFADIJU_ALL_ANSWER_BYTES 6690

/* An answer slice of this many bytes always suffices for hofadiju_compare_rounds. */
#define HOFADIJU_ROUNDS_ANSWER_BYTES 6658

/* An answer slice of this many bytes always suffices for hofadiju_compare_rounds_desk. */
#define HOFADIJU_DESK_ROUNDS_ANSWER_BYTES 834

/* The work slice must have at least this many numbers of 32 bits. */
#define HOFADIJU_WORK_NUMBERS 16384

/* The longest sheet that is read has this many bytes; every longer one is refused. */
#define HOFADIJU_LONGEST_SHEET 724

/* What the functions return: HOFADIJU_REPORT, or the number of a refusal. The place of a refusal is
 * the byte of the sheet at which the field begins, unless it is said otherwise. */
enum hofadiju_number {
    HOFADIJU_REPORT = 0,            /* an answer was written */
    HOFADIJU_CUT_OFF = 1,           /* a field is cut off by the sheet's end; the place is the sheet's length */
    HOFADIJU_TOO_MANY_FACTS = 2,    /* more than 12 facts */
    HOFADIJU_BAD_NAME_BYTE = 3,     /* a name byte outside 32 to 126; the place is that byte's */
    HOFADIJU_TOO_MANY_RULES = 4,    /* more than 32 rules */
    HOFADIJU_ABSENT_FACT = 5,       /* a set holds a fact that is not on the sheet */
                                    /* 6, once an empty premise, is not given any more: a rule with one is
                                       read, and its conclusion always stands (document 02, card 2) */
    HOFADIJU_NODE_COUNT = 7,        /* no node, or more than 64 */
    HOFADIJU_BAD_KIND = 8,          /* a kind byte above 4 */
    HOFADIJU_BAD_NODE = 9,          /* a node number that is not allowed there */
    HOFADIJU_UNUSED_FIELD = 10,     /* a field that its node's kind does not use is not 0 */
    HOFADIJU_START_COUNT = 11,      /* fewer than 2 starts, or more than 16 */
    HOFADIJU_TOO_MANY_THREADS = 12, /* a start has more than 8 threads, as written or once opened; the
                                       place is its thread count */
    HOFADIJU_EXTRA_BYTES = 13,      /* bytes after the last start; the place is the first of them */
    HOFADIJU_ABSENT_START = 14,     /* a chosen start is not on the sheet; place 0 for left, 1 for right;
                                       not where all starts are compared */
    HOFADIJU_WIDE_NODE = 15,        /* a node opens to more than 8 threads; the place is its kind byte */
    HOFADIJU_TOO_LARGE = 21,        /* more than 512 configurations (64 for the desk), one of more than 8
                                       threads, or more than 4096 moves in all (512 for the desk); place 0 */
    HOFADIJU_ANSWER_SHORT = 22,     /* the answer slice is too short; the place is the length needed */
    HOFADIJU_WORK_SHORT = 23        /* the work slice is too short; place 0 */
};

/* Where the numbers stand in result, where two starts are compared in the end. What does not apply is 0. */
enum hofadiju_result {
    HOFADIJU_VERDICT = 0, /* HOFADIJU_SAME or HOFADIJU_DIFF */
    HOFADIJU_ROUND = 1,   /* SAME: the round in which the refinement came to rest.
                             DIFF: the least number of moves that tells the two starts apart */
    HOFADIJU_LEFT = 2,    /* the position of the left start among the members */
    HOFADIJU_RIGHT = 3,   /* the position of the right start */
    HOFADIJU_LENGTH = 4,  /* how many bytes of the answer slice the report takes */
    HOFADIJU_PLACE = 5    /* the place of the refusal */
};
#define HOFADIJU_RESULT_NUMBERS 6

/* Where the numbers stand in result, where all starts are compared. What does not apply is 0. */
enum hofadiju_all_result {
    HOFADIJU_ALL_ROUND = 0,  /* the round in which the refinement came to rest */
    HOFADIJU_ALL_LENGTH = 1, /* how many bytes of the answer slice the answer takes */
    HOFADIJU_ALL_PLACE = 2   /* the place of the refusal */
};
#define HOFADIJU_ALL_RESULT_NUMBERS 3

/* Where the numbers stand in result, where two starts are compared after so many rounds. What does not
 * apply is 0. */
enum hofadiju_rounds_result {
    HOFADIJU_ROUNDS_VERDICT = 0, /* HOFADIJU_SAME, HOFADIJU_DIFF or HOFADIJU_OPEN */
    HOFADIJU_ROUNDS_CLASSES = 1, /* the number of classes in that round */
    HOFADIJU_ROUNDS_MEMBERS = 2, /* the number of members */
    HOFADIJU_ROUNDS_LENGTH = 3,  /* how many bytes of the answer slice the answer takes */
    HOFADIJU_ROUNDS_PLACE = 4    /* the place of the refusal */
};
#define HOFADIJU_ROUNDS_RESULT_NUMBERS 5

#define HOFADIJU_SAME 0
#define HOFADIJU_DIFF 1
#define HOFADIJU_OPEN 2 /* only after so many rounds */

/* In the answer: a step without a reply has this for the reply's target. */
#define HOFADIJU_NO_REPLY 65535

/* Compares the starts numbered left and right, from 0, of the sheet.
 *
 * Every pointer must be non-null, also where its length is 0, and aligned for its type; answer, work,
 * result and sheet must not overlap. result is always written whole.
 *
 * The answer, numbers of two bytes with the low byte first:
 *   count of members        2 bytes
 *   for each member, in order of store, number of threads and threads:
 *     store                 2 bytes   fact i has weight 2 to the power i
 *     count of threads      1 byte    0 to 8
 *     threads               1 byte each, node numbers, ascending
 *     class                 2 bytes   members behave alike exactly where the class is the same
 *   count of steps          2 bytes   the trail: how to tell the two starts apart
 *   for each step:
 *     side that moves       1 byte    0 left, 1 right
 *     label                 2 bytes   the set that is added to the store first; what always stands is in it
 *     mover's target        2 bytes   a position among the members
 *     reply's target        2 bytes   likewise, or HOFADIJU_NO_REPLY
 * Bytes of the answer slice beyond the length stay as they are; a refusal leaves the whole slice as it is.
 *
 * The work slice is room to work in; its contents matter to nothing. After a report and after 21 and 22
 * its first HOFADIJU_WORK_NUMBERS numbers are 0; every other refusal leaves it as it is. Later numbers
 * are never touched. On the stack the call takes less than 64 KiB.
 */
uint32_t hofadiju_compare(const uint8_t *sheet, size_t sheet_len, size_t left, size_t right,
                          uint8_t *answer, size_t answer_len, uint32_t *work, size_t work_len,
                          size_t result[6]);

/* Compares as hofadiju_compare does, within the desk's limits: 64 configurations and 512 moves in all in
 * place of 512 and 4096, and 8 threads as before. 21 goes by these numbers. All else is the same: the
 * slices and their layout, the length of the work slice, the other refusals, the places, and the order,
 * which is the refusals of the sheet, 14, 23, 21, 22.
 *
 * Where both functions report, they return and write the same. Where this one gives 21, the other may
 * report, or give 21, or give 22 for a short answer slice; otherwise the two refuse alike.
 */
uint32_t hofadiju_compare_desk(const uint8_t *sheet, size_t sheet_len, size_t left, size_t right,
                               uint8_t *answer, size_t answer_len, uint32_t *work, size_t work_len,
                               size_t result[6]);

/* Compares all starts of the sheet together. The set begins with every start, and its limits are those of
 * hofadiju_compare: 512 configurations, 8 threads and 4096 moves in all. 21 goes by this set, which may be
 * too large although the set of two starts is not.
 *
 * Two starts have the same class here exactly where hofadiju_compare of the two says HOFADIJU_SAME, if
 * neither call is refused. The round is the set's own and may be larger than that of two starts.
 *
 * The pointers are as for hofadiju_compare, and result is always written whole. The answer, numbers of two
 * bytes with the low byte first:
 *   count of members        2 bytes
 *   for each member, in order of store, number of threads and threads:
 *     store                 2 bytes
 *     count of threads      1 byte
 *     threads               1 byte each
 *     class                 2 bytes
 *   for each start, in the sheet's order:
 *     class                 2 bytes   equal starts are one member, and each has its class here
 * There is no trail and no count of steps. Bytes of the answer slice beyond the length stay as they are; a
 * refusal leaves the whole slice as it is. The work slice is used and left as by hofadiju_compare.
 *
 * The refusals come in this order: those of the sheet, 23, 21, 22. There is no 14. On the stack the call
 * takes less than 64 KiB.
 */
uint32_t hofadiju_compare_all(const uint8_t *sheet, size_t sheet_len, uint8_t *answer, size_t answer_len,
                              uint32_t *work, size_t work_len, size_t result[3]);

/* Compares the starts numbered left and right of the sheet after so many rounds, from 0; any number is
 * allowed. The set is that of hofadiju_compare, with its limits. The verdict is
 *   HOFADIJU_DIFF  if that round has the two starts in different classes,
 *   HOFADIJU_SAME  if it has them in one class and the next round splits no class of the whole set,
 *   HOFADIJU_OPEN  otherwise: the two are together, and some class of the set is still to be split. They
 *                  may prove to behave alike or not.
 * A larger number of rounds never turns HOFADIJU_SAME or HOFADIJU_DIFF into another verdict, and
 * hofadiju_compare says the same. The number of classes that hofadiju_compare ends with is at least the
 * number of classes here and at most the number of members. From the round in which the refinement comes to
 * rest on, a larger number of rounds changes nothing and takes no longer.
 *
 * The pointers are as for hofadiju_compare, and result is always written whole. The answer, numbers of two
 * bytes with the low byte first:
 *   count of members        2 bytes
 *   for each member, in order of store, number of threads and threads:
 *     store                 2 bytes
 *     count of threads      1 byte
 *     threads               1 byte each
 *     class                 2 bytes   of that round, numbered from 0 by first member
 * There is no trail and no count of steps. Bytes of the answer slice beyond the length stay as they are; a
 * refusal leaves the whole slice as it is. The work slice is used and left as by hofadiju_compare.
 *
 * The refusals are those of hofadiju_compare, in the same order: those of the sheet, 14, 23, 21, 22. The
 * place of 22 is the length of this answer, which has no trail. On the stack the call takes less than
 * 64 KiB.
 */
uint32_t hofadiju_compare_rounds(const uint8_t *sheet, size_t sheet_len, size_t left, size_t right,
                                 uint64_t rounds, uint8_t *answer, size_t answer_len, uint32_t *work,
                                 size_t work_len, size_t result[5]);

/* Compares as hofadiju_compare_rounds does, within the desk's limits, which are those of
 * hofadiju_compare_desk. 21 goes by these numbers. All else is the same.
 *
 * Where both functions answer, they return and write the same. Where this one gives 21, the other may
 * answer, or give 21, or give 22 for a short answer slice; otherwise the two refuse alike.
 */
uint32_t hofadiju_compare_rounds_desk(const uint8_t *sheet, size_t sheet_len, size_t left, size_t right,
                                      uint64_t rounds, uint8_t *answer, size_t answer_len, uint32_t *work,
                                      size_t work_len, size_t result[5]);

#ifdef __cplusplus
}
#endif

#endif
