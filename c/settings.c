// What an updater does with a shelf's settings file: reads it, and writes it at another version. What it prints stands in settings.out.

#include <stdio.h>

#include "trk_settings.h"

// Manager 1 with limit 16, granularities 0 to 8, controllers 5 and 6: a file of version 1.
static const uint8_t first[TRK_SETTINGS_V1_BYTES] = {
    'T', 'R', 'K',  // the mark
    1, 0,           // version
    1, 0,           // manager
    0, 8,           // least and greatest granularity
    0,              // lengths need not be powers of two
    16, 0,          // limit
    2,              // number of controllers
    5, 0, 6, 0,     // their identifiers; unused places are zeros
};

// Manager 1 with limit 16, manager 2 with limit 4, 18 for both; controllers 5, 6 and 7: a file of version 2.
static const uint8_t both[TRK_SETTINGS_V2_BYTES] = {
    'T', 'R', 'K', 2, 0, 1, 0, 0, 8, 0, 16, 0, 3, 5, 0, 6, 0, 7, 0, 0, 0, 0, 0, 0, 0, 0, 0, 0, 0,
    2, 0,   // second manager
    4, 0,   // its limit
    18, 0,  // the limit over both
};

static void print_settings(const uint8_t *file, size_t size)
{
    printf("version %u\n", trk_settings_version(file, size));
    printf("manager %u, limit %u\n", trk_settings_manager(file, size), trk_settings_limit(file, size));
    if (trk_settings_second(file, size) != trk_settings_manager(file, size))
        printf("manager %u, limit %u\n", trk_settings_second(file, size), trk_settings_second_limit(file, size));
    printf("limit over all %u\n", trk_settings_shelf(file, size));
    printf("granularities %u to %u, rule %u\n", trk_settings_least(file, size), trk_settings_greatest(file, size), trk_settings_rule(file, size));
    printf("controllers");
    for (uint64_t i = 0; i < trk_settings_count(file, size); i++)
        printf(" %u", trk_settings_identifier(file, size, i));
    printf("\n");
}

static void print_file(const char *name, const uint8_t *file, size_t size)
{
    printf("%s: %u bytes\n", name, (unsigned)size);
    if (trk_settings_refusal(file, size) != 0)
        printf("refused with %u\n", trk_settings_refusal(file, size));
    else
        print_settings(file, size);
    if (trk_settings_v1_refusal(file, size) != 0)
        printf("older firmware refuses it with %u\n", trk_settings_v1_refusal(file, size));
    printf("\n");
}

static void print_bytes(const uint8_t *bytes, size_t size)
{
    for (size_t i = 0; i < size; i++)
        printf("%02x", bytes[i]);
    printf("\n");
}

int main(void)
{
    print_file("a file of version 1", first, sizeof first);

    // The update: the same settings at version 2.
    uint8_t updated[TRK_SETTINGS_V2_BYTES];
    printf("saved at version 2: %u\n", trk_settings_save(first, sizeof first, 2, updated, sizeof updated));
    print_bytes(updated, sizeof updated);
    print_file("as it was saved", updated, sizeof updated);

    // And back, should the update be taken back.
    uint8_t old[TRK_SETTINGS_V1_BYTES];
    printf("saved at version 1 again: %u\n", trk_settings_save(updated, sizeof updated, 1, old, sizeof old));
    print_bytes(old, sizeof old);
    print_file("two managers", both, sizeof both);
    printf("saved at version 1: %u\n", trk_settings_save(both, sizeof both, 1, old, sizeof old));
    printf("saved at version 2 in 34 bytes: %u\n", trk_settings_save(both, sizeof both, 2, updated, sizeof updated - 1));
    print_bytes(updated, sizeof updated);

    // A spare byte that is set, and a file that is cut.
    updated[17] = 7;
    print_file("a spare byte is set", updated, sizeof updated);
    print_file("a file that is cut", both, sizeof both - 1);
    return 0;
}
