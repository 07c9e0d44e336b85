// Reads two reports: that of the whole example in document 01 ("Session listing"), and a damaged one. What it prints stands in example.out.

#include <stdio.h>

#include "tmc_report.h"

// The answer to `recv 5 64`: the buffer has 64 bytes, and those after the last descriptor are no part of the report.
static const uint8_t good[64] = {
    0,                          // version
    0,                          // attributes: bit 1 suspended, bit 0 more to report
    5, 0,                       // the controller's identifier
    1, 0, 0, 0,                 // number of descriptors
    0, 0,                       // granularity 0: a unit is 4,096 bytes
    0, 0, 0, 0, 0, 0,           // zero
    0, 0x10, 1, 0, 0, 0, 0, 0,  // descriptor 0: address 0x11000, that is 69632,
    2, 0, 0, 0, 0, 0, 0, 0,     // and length 2, in units
};

// Suspended, more to report, granularity 8; of two descriptors, the second has length 0.
static const uint8_t damaged[48] = {
    0, 3, 6, 0, 2, 0, 0, 0, 8, 0, 0, 0, 0, 0, 0, 0,
    0, 0, 0x10, 0, 0, 0, 0, 0, 1, 0, 0, 0, 0, 0, 0, 0,
    0, 0, 0x30, 0, 0, 0, 0, 0, 0, 0, 0, 0, 0, 0, 0, 0,
};

static void print_refusal(const uint8_t *report, size_t size)
{
    printf("refused with %u", tmc_report_refusal(report, size));
    if (tmc_report_refusal(report, size) == 17)
        printf(" at descriptor %llu", (unsigned long long)tmc_report_bad_index(report, size));
    printf("\n");
}

static void print_header(const uint8_t *report, size_t size)
{
    printf("controller %u\n", tmc_report_identifier(report, size));
    printf("suspended %u\n", tmc_report_suspended(report, size));
    printf("more to report %u\n", tmc_report_more(report, size));
    printf("granularity %u\n", tmc_report_granularity(report, size));
    printf("runs %u\n", tmc_report_count(report, size));
}

// Of a report that is not refused: then a run may be asked for by itself.
static void print_runs(const uint8_t *report, size_t size)
{
    unsigned long long unit = 4096ull << tmc_report_granularity(report, size);
    uint32_t count = tmc_report_count(report, size);
    for (uint32_t i = 0; i < count; i++) {
        unsigned long long address = tmc_report_run_address(report, size, i);
        uint32_t units = tmc_report_run_length(report, size, i);
        printf("run %u: address %llu, %u units, %llu bytes\n", i, address, units, units * unit);
    }
}

static void print_report(const uint8_t *report, size_t size)
{
    if (tmc_report_refusal(report, size) != 0) {
        print_refusal(report, size);
        return;
    }
    print_header(report, size);
    print_runs(report, size);
}

int main(void)
{
    print_report(good, sizeof good);
    print_report(damaged, sizeof damaged);
    return 0;
}
