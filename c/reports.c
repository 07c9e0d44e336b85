// The test program: reads cases from standard input to its end, asks every question of each, and writes the answers. Its forms stand in README.md.

#include <stdio.h>

#include "tmc_report.h"

enum { CASE = 1088, REPORT_AT = 16, REPORT_ROOM = CASE - REPORT_AT, ANSWER = 44 };

// The little-endian number in so many bytes.
static uint64_t number(const uint8_t *bytes, int count)
{
    uint64_t n = 0;
    while (count > 0)
        n = n << 8 | bytes[--count];
    return n;
}

static void put(uint8_t *bytes, int count, uint64_t n)
{
    for (int i = 0; i < count; i++, n >>= 8)
        bytes[i] = (uint8_t)n;
}

static void ask(const uint8_t *report, size_t size, uint64_t index, uint8_t *answer)
{
    put(answer, 1, tmc_report_refusal(report, size));
    put(answer + 1, 8, tmc_report_bad_index(report, size));
    put(answer + 9, 1, tmc_report_suspended(report, size));
    put(answer + 10, 1, tmc_report_more(report, size));
    put(answer + 11, 2, tmc_report_identifier(report, size));
    put(answer + 13, 2, tmc_report_granularity(report, size));
    put(answer + 15, 4, tmc_report_count(report, size));
    put(answer + 19, 1, tmc_report_refusal_at(report, size, index));
    put(answer + 20, 8, tmc_report_address(report, size, index));
    put(answer + 28, 4, tmc_report_length(report, size, index));
    put(answer + 32, 8, tmc_report_run_address(report, size, index));
    put(answer + 40, 4, tmc_report_run_length(report, size, index));
}

static void play(uint8_t *bytes, uint8_t *answer)
{
    size_t size = number(bytes, 2);
    if (size > REPORT_ROOM)
        size = REPORT_ROOM;
    // A reader that went past the lent bytes would find zeros and might not be noticed; with these it answers otherwise.
    for (size_t i = REPORT_AT + size; i < CASE; i++)
        bytes[i] = 0xff;
    // The header says that a report of no bytes may be a null pointer.
    ask(size > 0 ? bytes + REPORT_AT : NULL, size, number(bytes + 2, 8), answer);
}

int main(void)
{
    static uint8_t bytes[CASE], answer[ANSWER];
    while (fread(bytes, CASE, 1, stdin) == 1) {
        play(bytes, answer);
        if (fwrite(answer, ANSWER, 1, stdout) != 1)
            return 1;
    }
    return 0;
}
