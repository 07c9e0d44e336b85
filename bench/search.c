// Goes over rows of marks as a report does, from one pending unit to the next: with the proved search, or with one of C that looks 64 marks at a time too
// and works as Linux's find_next_bit does. It prints the sum of the places that it found. With any argument it searches nothing.
// The kit has a C library and no headers for it, so the function that is wanted is declared here.

typedef unsigned char u8;
typedef unsigned long u64;

long write(int file, const void *bytes, u64 size);

enum { WORDS = 256, UNITS = 64 * WORDS, ROWS = 9, ROUNDS = 10000 };

#if PROVED
u64 tmc_next_set(const u64 *words, u64 count, u64 from, u64 to);

static u64 next_set(const u64 *words, u64 from, u64 to) { return tmc_next_set(words, WORDS, from, to); }
#else
// In the first word the marks below the place are left out; then word after word, up to the first that has one.
__attribute__((noinline)) static u64 next_set(const u64 *words, u64 from, u64 to)
{
    if (from >= to)
        return to;
    u64 i = from / 64, word = words[i] & (~0ul << from % 64);
    while (!word) {
        if (++i * 64 >= to)
            return to;
        word = words[i];
    }
    u64 found = i * 64 + __builtin_ctzl(word);
    return found < to ? found : to;
}
#endif

// Row r has r pending units, far apart; the last of all units is one of them in every second row.
static void fill(u64 rows[ROWS][WORDS])
{
    for (u64 r = 0; r < ROWS; r++)
        for (u64 k = 0; k < r; k++) {
            u64 unit = r % 2 && k == r - 1 ? UNITS - 1 : UNITS / 8 * k + 251 * r % (UNITS / 8);
            rows[r][unit / 64] |= 1ul << unit % 64;
        }
}

static u64 found_in(const u64 *row)
{
    u64 sum = 0;
    for (u64 k = next_set(row, 0, UNITS); k < UNITS; k = next_set(row, k + 1, UNITS))
        sum += k;
    return sum;
}

static void put_number(u64 n)
{
    u8 digits[21];
    u64 at = sizeof digits;
    digits[--at] = '\n';
    do
        digits[--at] = '0' + n % 10;
    while (n /= 10);
    write(1, digits + at, sizeof digits - at);
}

int main(int count, char **words)
{
    static u64 rows[ROWS][WORDS];
    u64 sum = 0;
    (void)words;
    fill(rows);
    for (u64 i = 0; count < 2 && i < ROUNDS; i++)
        sum += found_in(rows[i % ROWS]);
    put_number(sum);
    return 0;
}
