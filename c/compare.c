/* Reads a sheet from a file and compares two of its starts, or all of them.
 *
 *   gcc -I include c/compare.c target/staticlib/libhofadiju.a -o compare
 *   ./compare [--desk] [--rounds K] samples/k-2-4.sheet [LEFT RIGHT]
 *   ./compare --all samples/k-2-4.sheet
 *
 * Without LEFT and RIGHT it compares starts 0 and 1; with --desk it does so within the desk's limits. It
 * prints the report: the verdict and the round, every member with its store, class and threads, and the
 * steps of the trail. With --rounds it compares after K rounds and prints the verdict, the number of classes
 * in that round and the number of members, and then the members. With --all it prints the number of classes
 * among the starts and the round, and then a line for each group of starts that behave alike. A refusal is
 * printed by its number and its place.
 *
 * The exit status is 0 for SAME and for one group, 1 for DIFF and for more groups, 2 for a refusal, 3 where
 * the words, the file or the library's answer cannot be read or the library has another version, and 4 for
 * OPEN. */
#include "hofadiju.h"

#include <inttypes.h>
#include <stdio.h>
#include <string.h>

/* One byte more than the longest sheet, so that a longer file is seen to be too long. */
static uint8_t sheet[HOFADIJU_LONGEST_SHEET + 1];
static size_t sheet_length;

/* Long enough for every call. */
static uint8_t answer[HOFADIJU_ANSWER_BYTES];
static uint32_t work[HOFADIJU_WORK_NUMBERS];

struct member {
    size_t store;
    const uint8_t *threads;
    size_t thread_count;
    size_t class_number;
};

struct step {
    size_t side;
    size_t label;
    size_t target;
    size_t reply; /* HOFADIJU_NO_REPLY where there is none */
};

/* What was read from an answer. A member takes at least 5 bytes of it and a step 7, and a sheet has 2 to 16
 * starts. */
static struct member members[HOFADIJU_ANSWER_BYTES / 5];
static size_t member_count;
static struct step steps[HOFADIJU_ANSWER_BYTES / 7];
static size_t step_count;
static size_t start_classes[16];
static size_t start_count;

static const char *const verdict_names[] = {
    [HOFADIJU_SAME] = "SAME",
    [HOFADIJU_DIFF] = "DIFF",
    [HOFADIJU_OPEN] = "OPEN",
};
static const int verdict_statuses[] = {
    [HOFADIJU_SAME] = 0,
    [HOFADIJU_DIFF] = 1,
    [HOFADIJU_OPEN] = 4,
};

/* The part of an answer that is not read yet. Every function below that reads something from it says whether
 * it was there. */
struct rest {
    const uint8_t *bytes;
    size_t length;
};

static int read_bytes(struct rest *rest, size_t count, const uint8_t **bytes)
{
    if (count > rest->length) {
        return 0;
    }
    *bytes = rest->bytes;
    rest->bytes += count;
    rest->length -= count;
    return 1;
}

static int read_byte(struct rest *rest, size_t *byte)
{
    const uint8_t *bytes;

    if (!read_bytes(rest, 1, &bytes)) {
        return 0;
    }
    *byte = bytes[0];
    return 1;
}

/* A number of two bytes, the low byte first. */
static int read_number(struct rest *rest, size_t *number)
{
    const uint8_t *bytes;

    if (!read_bytes(rest, 2, &bytes)) {
        return 0;
    }
    *number = bytes[0] + 256 * (size_t)bytes[1];
    return 1;
}

/* The count of members and the members. */
static int read_members(struct rest *rest)
{
    size_t i;

    if (!read_number(rest, &member_count) || member_count > sizeof members / sizeof *members) {
        return 0;
    }
    for (i = 0; i < member_count; i++) {
        struct member *member = &members[i];

        if (!read_number(rest, &member->store) || !read_byte(rest, &member->thread_count) ||
            !read_bytes(rest, member->thread_count, &member->threads) || !read_number(rest, &member->class_number)) {
            return 0;
        }
    }
    return 1;
}

/* The count of steps and the steps, whose targets and replies are positions among the members. */
static int read_steps(struct rest *rest)
{
    size_t i;

    if (!read_number(rest, &step_count) || step_count > sizeof steps / sizeof *steps) {
        return 0;
    }
    for (i = 0; i < step_count; i++) {
        struct step *step = &steps[i];

        if (!read_byte(rest, &step->side) || !read_number(rest, &step->label) || !read_number(rest, &step->target) ||
            !read_number(rest, &step->reply)) {
            return 0;
        }
        if (step->side > 1 || step->target >= member_count ||
            (step->reply >= member_count && step->reply != HOFADIJU_NO_REPLY)) {
            return 0;
        }
    }
    return 1;
}

/* The classes of the starts, which are all that is left. */
static int read_start_classes(struct rest *rest)
{
    size_t i;

    start_count = rest->length / 2;
    if (start_count < 2 || start_count > sizeof start_classes / sizeof *start_classes) {
        return 0;
    }
    for (i = 0; i < start_count; i++) {
        if (!read_number(rest, &start_classes[i])) {
            return 0;
        }
    }
    return 1;
}

/* A line for each member: its position, store, class and threads. */
static void print_members(void)
{
    size_t i, j;

    for (i = 0; i < member_count; i++) {
        printf("%zu %zu %zu ", i, members[i].store, members[i].class_number);
        for (j = 0; j < members[i].thread_count; j++) {
            printf("%s%u", j == 0 ? "" : "+", (unsigned)members[i].threads[j]);
        }
        puts(members[i].thread_count == 0 ? "-" : "");
    }
}

/* A line for each step: the side that moves, its label, its target and the reply's target. */
static void print_steps(void)
{
    size_t i;

    for (i = 0; i < step_count; i++) {
        printf("%c %zu %zu ", steps[i].side == 0 ? 'L' : 'R', steps[i].label, steps[i].target);
        if (steps[i].reply == HOFADIJU_NO_REPLY) {
            puts("-");
        } else {
            printf("%zu\n", steps[i].reply);
        }
    }
}

/* The first start that has this one's class. */
static size_t first_alike(size_t start)
{
    size_t first = 0;

    while (start_classes[first] != start_classes[start]) {
        first++;
    }
    return first;
}

/* A line for each group of starts that behave alike, after a line with their number and the round; gives
 * their number. */
static size_t print_groups(size_t round)
{
    size_t groups = 0, i, j;

    for (i = 0; i < start_count; i++) {
        groups += first_alike(i) == i;
    }
    printf("CLASSES %zu %zu\n", groups, round);
    for (i = 0; i < start_count; i++) {
        if (first_alike(i) != i) {
            continue;
        }
        printf("%zu", i);
        for (j = i + 1; j < start_count; j++) {
            if (first_alike(j) == i) {
                printf(" %zu", j);
            }
        }
        puts("");
    }
    return groups;
}

static int refused(uint32_t number, size_t place)
{
    printf("REFUSED %" PRIu32 " %zu\n", number, place);
    return 2;
}

static int unknown_verdict(size_t verdict)
{
    fprintf(stderr, "the library gives verdict %zu, which is not known here\n", verdict);
    return 3;
}

static int unknown_answer(size_t length)
{
    fprintf(stderr, "the library gives an answer of %zu bytes that is not laid out as is known here\n", length);
    return 3;
}

/* Compares two starts. */
static int compare_two(size_t left, size_t right, int desk)
{
    const size_t room = desk ? HOFADIJU_DESK_ANSWER_BYTES : HOFADIJU_ANSWER_BYTES;
    size_t result[HOFADIJU_RESULT_NUMBERS];
    size_t verdict, length;
    struct rest rest;
    uint32_t number;

    if (desk) {
        number = hofadiju_compare_desk(sheet, sheet_length, left, right, answer, room, work, HOFADIJU_WORK_NUMBERS,
                                       result);
    } else {
        number = hofadiju_compare(sheet, sheet_length, left, right, answer, room, work, HOFADIJU_WORK_NUMBERS, result);
    }
    if (number != HOFADIJU_REPORT) {
        return refused(number, result[HOFADIJU_PLACE]);
    }
    verdict = result[HOFADIJU_VERDICT];
    if (verdict != HOFADIJU_SAME && verdict != HOFADIJU_DIFF) {
        return unknown_verdict(verdict);
    }
    length = result[HOFADIJU_LENGTH];
    rest.bytes = answer;
    rest.length = length;
    if (length > room || !read_members(&rest) || !read_steps(&rest) || rest.length != 0 ||
        result[HOFADIJU_LEFT] >= member_count || result[HOFADIJU_RIGHT] >= member_count) {
        return unknown_answer(length);
    }
    printf("%s %zu\n", verdict_names[verdict], result[HOFADIJU_ROUND]);
    printf("CONFIGURATIONS %zu\n", member_count);
    print_members();
    printf("TRAIL %zu\n", step_count);
    print_steps();
    return verdict_statuses[verdict];
}

/* Compares two starts after so many rounds. */
static int compare_rounds(size_t left, size_t right, int desk, uint64_t rounds)
{
    const size_t room = desk ? HOFADIJU_DESK_ROUNDS_ANSWER_BYTES : HOFADIJU_ROUNDS_ANSWER_BYTES;
    size_t result[HOFADIJU_ROUNDS_RESULT_NUMBERS];
    size_t verdict, length;
    struct rest rest;
    uint32_t number;

    if (desk) {
        number = hofadiju_compare_rounds_desk(sheet, sheet_length, left, right, rounds, answer, room, work,
                                              HOFADIJU_WORK_NUMBERS, result);
    } else {
        number = hofadiju_compare_rounds(sheet, sheet_length, left, right, rounds, answer, room, work,
                                         HOFADIJU_WORK_NUMBERS, result);
    }
    if (number != HOFADIJU_REPORT) {
        return refused(number, result[HOFADIJU_ROUNDS_PLACE]);
    }
    verdict = result[HOFADIJU_ROUNDS_VERDICT];
    if (verdict != HOFADIJU_SAME && verdict != HOFADIJU_DIFF && verdict != HOFADIJU_OPEN) {
        return unknown_verdict(verdict);
    }
    length = result[HOFADIJU_ROUNDS_LENGTH];
    rest.bytes = answer;
    rest.length = length;
    if (length > room || !read_members(&rest) || rest.length != 0 ||
        result[HOFADIJU_ROUNDS_MEMBERS] != member_count) {
        return unknown_answer(length);
    }
    printf("%s %zu %zu\n", verdict_names[verdict], result[HOFADIJU_ROUNDS_CLASSES], member_count);
    print_members();
    return verdict_statuses[verdict];
}

/* Compares all starts. */
static int compare_all(void)
{
    const size_t room = HOFADIJU_ALL_ANSWER_BYTES;
    size_t result[HOFADIJU_ALL_RESULT_NUMBERS];
    size_t length;
    struct rest rest;
    uint32_t number;

    number = hofadiju_compare_all(sheet, sheet_length, answer, room, work, HOFADIJU_WORK_NUMBERS, result);
    if (number != HOFADIJU_REPORT) {
        return refused(number, result[HOFADIJU_ALL_PLACE]);
    }
    length = result[HOFADIJU_ALL_LENGTH];
    rest.bytes = answer;
    rest.length = length;
    if (length > room || !read_members(&rest) || !read_start_classes(&rest) || rest.length != 0) {
        return unknown_answer(length);
    }
    return print_groups(result[HOFADIJU_ALL_ROUND]) == 1 ? 0 : 1;
}

/* Whether a library of this version fits the header: the same major number, or the same minor number while
 * the major one is 0, and not older than the header. */
static int fits(uint32_t library)
{
    const uint32_t header = HOFADIJU_VERSION;
    const uint32_t counted = HOFADIJU_VERSION_MAJOR == 0 ? 100 : 10000;

    return library / counted == header / counted && library >= header;
}

/* Reads a decimal number of at most 64 bits; says whether the word is one. */
static int word_number(const char *word, uint64_t *number)
{
    *number = 0;
    if (*word == '\0') {
        return 0;
    }
    for (; *word != '\0'; word++) {
        unsigned digit = (unsigned)(unsigned char)*word - '0';

        if (digit > 9 || *number > (UINT64_MAX - digit) / 10) {
            return 0;
        }
        *number = 10 * *number + digit;
    }
    return 1;
}

/* Reads the sheet from a file; says whether it could be read. */
static int read_sheet(const char *name)
{
    FILE *file = fopen(name, "rb");
    int failed;

    if (file == NULL) {
        perror(name);
        return 0;
    }
    sheet_length = fread(sheet, 1, sizeof sheet, file);
    failed = ferror(file);
    if (failed) {
        perror(name);
    }
    fclose(file);
    return !failed;
}

static int usage(const char *program)
{
    fprintf(stderr, "usage: %s [--desk] [--rounds K] FILE [LEFT RIGHT] | %s --all FILE\n", program, program);
    return 3;
}

int main(int argc, char **argv)
{
    uint64_t count = 0, left = 0, right = 1;
    int desk = 0, all = 0, rounds = 0, at = 1;

    if (!fits(hofadiju_version())) {
        fprintf(stderr, "the library has version %" PRIu32 ", which does not fit this program: it is for version %d\n",
                hofadiju_version(), HOFADIJU_VERSION);
        return 3;
    }
    for (; at < argc && strncmp(argv[at], "--", 2) == 0; at++) {
        if (strcmp(argv[at], "--desk") == 0) {
            desk = 1;
        } else if (strcmp(argv[at], "--all") == 0) {
            all = 1;
        } else if (strcmp(argv[at], "--rounds") == 0 && at + 1 < argc && word_number(argv[at + 1], &count)) {
            rounds = 1;
            at++;
        } else {
            return usage(argv[0]);
        }
    }
    if ((argc - at != 1 && argc - at != 3) || (all && (desk || rounds || argc - at != 1))) {
        return usage(argv[0]);
    }
    if (argc - at == 3 && (!word_number(argv[at + 1], &left) || !word_number(argv[at + 2], &right))) {
        fputs("LEFT and RIGHT are the numbers of two starts\n", stderr);
        return 3;
    }
    if (!read_sheet(argv[at])) {
        return 3;
    }
    if (all) {
        return compare_all();
    }
    return rounds ? compare_rounds(left, right, desk, count) : compare_two(left, right, desk);
}
