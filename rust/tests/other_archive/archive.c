/* A stand-in for the library, as an archive of another version might be. Its calls read no sheet and say what the
 * environment says:
 *
 *   HOFADIJU_SAYS          what a call returns and then the numbers of result, decimal; what is missing is 0
 *   HOFADIJU_SAYS_BYTES    the bytes of the answer, as hex digits; as many as the answer slice has room for are written
 *   HOFADIJU_SAYS_VERSION  what hofadiju_version returns; the header's version where it is not set */
#include "hofadiju.h"

#include <stdlib.h>
#include <string.h>

static const char *said(const char *name)
{
    const char *text = getenv(name);

    return text == NULL ? "" : text;
}

/* Writes the result and the answer, and gives what the call returns. */
static uint32_t say(uint8_t *answer, size_t answer_len, size_t *result, size_t numbers)
{
    const char *text = said("HOFADIJU_SAYS");
    const char *hex = said("HOFADIJU_SAYS_BYTES");
    char *end;
    uint32_t number;
    size_t i;

    number = (uint32_t)strtoull(text, &end, 10);
    for (i = 0; i < numbers; i++) {
        result[i] = (size_t)strtoull(end, &end, 10);
    }
    for (i = 0; i < answer_len && strlen(hex) >= 2 * (i + 1); i++) {
        char digits[3] = { hex[2 * i], hex[2 * i + 1], '\0' };

        answer[i] = (uint8_t)strtoul(digits, NULL, 16);
    }
    return number;
}

uint32_t hofadiju_version(void)
{
    const char *version = getenv("HOFADIJU_SAYS_VERSION");

    return version == NULL ? HOFADIJU_VERSION : (uint32_t)strtoull(version, NULL, 10);
}

uint32_t hofadiju_compare(const uint8_t *sheet, size_t sheet_len, size_t left, size_t right,
                          uint8_t *answer, size_t answer_len, uint32_t *work, size_t work_len,
                          size_t result[6])
{
    (void)sheet, (void)sheet_len, (void)left, (void)right, (void)work, (void)work_len;
    return say(answer, answer_len, result, HOFADIJU_RESULT_NUMBERS);
}

uint32_t hofadiju_compare_desk(const uint8_t *sheet, size_t sheet_len, size_t left, size_t right,
                               uint8_t *answer, size_t answer_len, uint32_t *work, size_t work_len,
                               size_t result[6])
{
    (void)sheet, (void)sheet_len, (void)left, (void)right, (void)work, (void)work_len;
    return say(answer, answer_len, result, HOFADIJU_RESULT_NUMBERS);
}

uint32_t hofadiju_compare_all(const uint8_t *sheet, size_t sheet_len, uint8_t *answer, size_t answer_len,
                              uint32_t *work, size_t work_len, size_t result[3])
{
    (void)sheet, (void)sheet_len, (void)work, (void)work_len;
    return say(answer, answer_len, result, HOFADIJU_ALL_RESULT_NUMBERS);
}

uint32_t hofadiju_compare_rounds(const uint8_t *sheet, size_t sheet_len, size_t left, size_t right,
                                 uint64_t rounds, uint8_t *answer, size_t answer_len, uint32_t *work,
                                 size_t work_len, size_t result[5])
{
    (void)sheet, (void)sheet_len, (void)left, (void)right, (void)rounds, (void)work, (void)work_len;
    return say(answer, answer_len, result, HOFADIJU_ROUNDS_RESULT_NUMBERS);
}

uint32_t hofadiju_compare_rounds_desk(const uint8_t *sheet, size_t sheet_len, size_t left, size_t right,
                                      uint64_t rounds, uint8_t *answer, size_t answer_len, uint32_t *work,
                                      size_t work_len, size_t result[5])
{
    (void)sheet, (void)sheet_len, (void)left, (void)right, (void)rounds, (void)work, (void)work_len;
    return say(answer, answer_len, result, HOFADIJU_ROUNDS_RESULT_NUMBERS);
}
