// A plain C program for the session listing of document 01, with overlapping ranges (document 02, W2) and one pool of marks (W7), to time the proved one
// beside. It goes over the marks bit by bit, as one would write it first, and trusts its own record. Built with -DSOUND=1 it tests the whole record before
// each call, as document 01 asks and the proved calls do.
// The kit has a C library and no headers for it, so the functions that are wanted are declared here.

#ifndef SOUND
#define SOUND 0
#endif

typedef unsigned char u8;
typedef unsigned short u16;
typedef unsigned int u32;
typedef unsigned long u64;

long read(int file, void *bytes, u64 size);
long write(int file, const void *bytes, u64 size);
_Noreturn void _exit(int status);

enum { IDS = 8, RANGES = 16, UNITS = 16384, WORDS = UNITS / 64, NUMBERS = 2 + 2 * RANGES, LINE = 1023, REPORT = 4096, ROOM = 65536 };
enum { PARTS = 2 * RANGES - 1 };  // 16 ranges have at most 32 ends, with 31 stretches between them

// A controller's parts are its ranges without the units that an earlier listed one has, so that each unit is in one part: in the order of the list,
// then by address. No two parts of one range touch, as units of an earlier one lie between them. Marks and runs go by parts.
// Its share is as many marks as it has units, from `base` on. Shares stand one behind the other from mark 0, in the order of their starts, and all marks
// behind them are clear.
struct range { u64 start; u32 length; };
struct controller { _Bool tracked, suspended; u8 granularity; u32 base, units, count, part_count; struct range ranges[RANGES], parts[PARTS]; };
struct device { u16 manager; u8 least, greatest; _Bool powers; u16 limit; u32 count; u16 ids[IDS]; struct controller controllers[IDS]; };

static struct device device;  // with no identifiers until a `dev` is done
static u64 marks[WORDS];

// ---- rules

static _Bool settings_ok(const struct device *d)
{
    if (d->count < 1 || d->count > IDS || d->least > d->greatest || d->greatest > 20 || d->limit > IDS * RANGES)
        return 0;
    for (u32 i = 0; i < d->count; i++) {
        if (d->ids[i] == d->manager)
            return 0;
        for (u32 j = i + 1; j < d->count; j++)
            if (d->ids[i] == d->ids[j])
                return 0;
    }
    return 1;
}

static u64 unit_size(u8 granularity) { return 4096ul << granularity; }

static u64 last_byte(const struct range *r, u64 unit) { return r->start + (r->length * unit - 1); }

// The first rule of a row that a range breaks, or 0.
static u8 row_refusal(const struct range *r, u64 unit)
{
    return r->length < 1 ? 19 : r->start % unit ? 20 : last_byte(r, unit) < r->start ? 21 : 0;
}

// The first of 18 to 21 that ranges break, with its row, or 0.
static u8 rows_refusal(const struct range *ranges, u32 count, u64 unit, u32 *row)
{
    u8 number = 0;
    *row = 0;
    if (count < 1 || count > RANGES)
        return 18;
    for (u32 i = 0; i < count && !number; i++) {
        number = row_refusal(&ranges[i], unit);
        *row = number ? i : 0;
    }
    return number;
}

// Goes from `at` over the units that the first `count` ranges have. Answers whether it came past `last`; else `at` is a unit that none of them has.
static _Bool pass_taken(const struct range *ranges, u32 count, u64 unit, u64 *at, u64 last)
{
    for (u32 i = 0; i < count;)
        if (*at < ranges[i].start || *at > last_byte(&ranges[i], unit)) {
            i++;
        } else if (last_byte(&ranges[i], unit) >= last) {
            return 1;
        } else {
            *at = last_byte(&ranges[i], unit) + 1;
            i = 0;
        }
    return 0;
}

// The last byte, from `at` to `last`, before one of the first `count` ranges begins.
static u64 free_until(const struct range *ranges, u32 count, u64 at, u64 last)
{
    for (u32 i = 0; i < count; i++)
        if (at < ranges[i].start && ranges[i].start <= last)
            last = ranges[i].start - 1;
    return last;
}

// The parts of these ranges, which keep the range rules, and how many they are.
static u32 split(const struct range *ranges, u32 count, u64 unit, struct range *parts)
{
    u32 n = 0;
    for (u32 i = 0; i < count; i++) {
        u64 at = ranges[i].start, end, last = last_byte(&ranges[i], unit);
        while (!pass_taken(ranges, i, unit, &at, last)) {
            end = free_until(ranges, i, at, last);
            parts[n++] = (struct range){at, (end - at) / unit + 1};
            if (end == last)
                break;
            at = end + 1;
        }
    }
    return n;
}

static u64 units_of(const struct range *parts, u32 count)
{
    u64 units = 0;
    for (u32 i = 0; i < count; i++)
        units += parts[i].length;
    return units;
}

// The first of 7, 18 to 21 and 10 that a granularity and its ranges break, with its row, or 0.
static u8 list_refusal(const struct device *d, u8 granularity, const struct range *ranges, u32 count, u32 *row)
{
    u8 number;
    if (granularity < d->least || granularity > d->greatest)
        return 7;
    number = rows_refusal(ranges, count, unit_size(granularity), row);
    if (number)
        return number;
    for (u32 i = 0; i < count; i++)
        if (d->powers && (ranges[i].length & (ranges[i].length - 1)))
            return 10;
    return 0;
}

static u32 counts(const struct device *d)
{
    u32 total = 0;
    for (u32 i = 0; i < d->count; i++)
        total += d->controllers[i].tracked ? d->controllers[i].count : 0;
    return total;
}

static u32 tracked_units(const struct device *d)
{
    u32 total = 0;
    for (u32 i = 0; i < d->count; i++)
        total += d->controllers[i].tracked ? d->controllers[i].units : 0;
    return total;
}

// Whether the ranges keep their rules, and the share has as many marks as they have different units and lies within the pool.
static _Bool controller_ok(const struct device *d, const struct controller *c)
{
    struct range parts[PARTS];
    u32 row;
    if (list_refusal(d, c->granularity, c->ranges, c->count, &row))
        return 0;
    u64 units = units_of(parts, split(c->ranges, c->count, unit_size(c->granularity), parts));
    return units == c->units && units <= UNITS && c->base <= UNITS - units;
}

static _Bool shares_apart(const struct controller *a, const struct controller *b)
{
    return !a->tracked || !b->tracked || a->base + a->units <= b->base || b->base + b->units <= a->base;
}

static _Bool sound(const struct device *d)
{
    if (!settings_ok(d))
        return 0;
    for (u32 i = 0; i < d->count; i++) {
        if (d->controllers[i].tracked && !controller_ok(d, &d->controllers[i]))
            return 0;
        for (u32 j = 0; j < i; j++)
            if (!shares_apart(&d->controllers[i], &d->controllers[j]))
                return 0;
    }
    return counts(d) <= d->limit && tracked_units(d) <= UNITS;
}

// ---- marks

static _Bool pending(u32 k) { return marks[k / 64] >> k % 64 & 1; }
static void set(u32 k) { marks[k / 64] |= 1ul << k % 64; }
static void clear(u32 k) { marks[k / 64] &= ~(1ul << k % 64); }

static void clear_all(u32 from, u32 count)
{
    for (u32 k = from; k < from + count; k++)
        clear(k);
}

// Takes a share out of the pool: the marks behind it move down to its place.
static void close_gap(u32 base, u32 units)
{
    u32 end = tracked_units(&device);
    for (u32 k = base; k < end - units; k++)
        if (pending(k + units))
            set(k);
        else
            clear(k);
    clear_all(end - units, units);
    for (u32 i = 0; i < device.count; i++)
        if (device.controllers[i].base > base)
            device.controllers[i].base -= units;
}

// ---- calls: each answers its number

// Where a call finds its controller: 0 and its place, or 1 or 2.
static u8 find(u16 id, u32 *place)
{
    *place = 0;
    if (SOUND ? !sound(&device) : !device.count)
        return 1;
    for (; *place < device.count; ++*place)
        if (device.ids[*place] == id)
            return 0;
    return 2;
}

static u8 fresh(const struct device *d)
{
    if (!settings_ok(d))
        return 16;
    device = *d;
    clear_all(0, UNITS);
    return 0;
}

static u8 start(u16 id, u8 granularity, const struct range *ranges, u32 count, u32 *row)
{
    struct range parts[PARTS];
    u32 place;
    u8 number = find(id, &place);
    struct controller *c = &device.controllers[place];
    if (number)
        return number;
    if (c->suspended)
        return 4;
    if (c->tracked)
        return 3;
    number = list_refusal(&device, granularity, ranges, count, row);
    if (number)
        return number;
    u32 part_count = split(ranges, count, unit_size(granularity), parts), base = tracked_units(&device);
    u64 units = units_of(parts, part_count);
    if (units + base > UNITS)
        return 11;
    if (count + counts(&device) > device.limit)
        return 12;
    c->tracked = 1;
    c->granularity = granularity;
    c->base = base;
    c->units = units;
    c->count = count;
    c->part_count = part_count;
    for (u32 i = 0; i < count; i++)
        c->ranges[i] = ranges[i];
    for (u32 i = 0; i < part_count; i++)
        c->parts[i] = parts[i];
    return 0;
}

static u8 stop(u16 id)
{
    u32 place;
    u8 number = find(id, &place);
    struct controller *c = &device.controllers[place];
    if (number)
        return number;
    if (c->suspended)
        return 4;
    if (!c->tracked)
        return 5;
    close_gap(c->base, c->units);
    *c = (struct controller){0};
    return 0;
}

// Marks what a write touches in one part, whose marks stand from `base` on, and counts what was not pending.
static u32 mark(const struct range *r, u64 unit, u32 base, u64 first, u64 last)
{
    u32 new = 0;
    if (last < r->start || first > last_byte(r, unit))
        return 0;
    u64 from = first < r->start ? 0 : (first - r->start) / unit;
    u64 to = last > last_byte(r, unit) ? r->length - 1 : (last - r->start) / unit;
    for (u32 k = base + from; k <= base + to; k++)
        if (!pending(k)) {
            set(k);
            new++;
        }
    return new;
}

static u8 note(u16 id, u64 address, u64 bytes, u32 *new)
{
    u32 place;
    u8 number = find(id, &place);
    const struct controller *c = &device.controllers[place];
    *new = 0;
    if (number)
        return number;
    if (c->suspended)
        return 4;
    if (bytes == 0)
        return 0;
    if (address + (bytes - 1) < address)
        return 14;
    if (!c->tracked)
        return 0;
    u32 base = c->base;
    for (u32 i = 0; i < c->part_count; i++) {
        *new += mark(&c->parts[i], unit_size(c->granularity), base, address, address + (bytes - 1));
        base += c->parts[i].length;
    }
    return 0;
}

static void put_little(u8 *bytes, u64 n, u32 size)
{
    for (u32 i = 0; i < size; i++)
        bytes[i] = n >> 8 * i;
}

static u64 get_little(const u8 *bytes, u32 size)
{
    u64 n = 0;
    for (u32 i = 0; i < size; i++)
        n |= (u64)bytes[i] << 8 * i;
    return n;
}

static void put_descriptor(u8 *at, u64 address, u32 length)
{
    put_little(at, address, 8);
    put_little(at + 8, length, 4);
    put_little(at + 12, 0, 4);
}

// Lists the first runs, as many as there is room for, and makes them clear. Answers whether a run stays.
static _Bool list_runs(const struct controller *c, u8 *report, u32 room, u32 *runs)
{
    u32 base = c->base;
    *runs = 0;
    for (u32 i = 0; i < c->part_count; i++) {
        const struct range *r = &c->parts[i];
        for (u32 k = base; k < base + r->length;) {
            if (!pending(k)) {
                k++;
                continue;
            }
            if (*runs == room)
                return 1;
            u32 from = k;
            while (k < base + r->length && pending(k))
                clear(k++);
            put_descriptor(report + 16 + 16 * (*runs)++, r->start + (from - base) * unit_size(c->granularity), k - from);
        }
        base += r->length;
    }
    return 0;
}

static u8 receive(u16 id, u8 *report, u32 size)
{
    u32 place, runs;
    u8 number = find(id, &place);
    const struct controller *c = &device.controllers[place];
    if (number)
        return number;
    if (!c->tracked)
        return 5;
    if (size < 32)
        return 8;
    _Bool more = list_runs(c, report, (size - 16) / 16, &runs);
    put_little(report, 0, 1);
    put_little(report + 1, c->suspended * 2 + more, 1);
    put_little(report + 2, id, 2);
    put_little(report + 4, runs, 4);
    put_little(report + 8, c->granularity, 2);
    put_little(report + 10, 0, 6);
    return 0;
}

static u8 suspend(u16 id, u8 type)
{
    u32 place;
    u8 number = find(id, &place);
    if (number)
        return number;
    if (type > 1)
        return 15;
    if (type == 1)
        device.controllers[place].suspended = 1;
    return 0;
}

static u8 resume(u16 id)
{
    u32 place;
    u8 number = find(id, &place);
    if (number)
        return number;
    if (!device.controllers[place].suspended)
        return 13;
    device.controllers[place].suspended = 0;
    return 0;
}

// ---- answers as text

static u8 out[ROOM];
static u32 used;

static void flush(void)
{
    for (u32 at = 0; at < used;) {
        long n = write(1, out + at, used - at);
        if (n <= 0)
            _exit(1);
        at += n;
    }
    used = 0;
}

static void put_byte(u8 b)
{
    if (used == ROOM)
        flush();
    out[used++] = b;
}

static void put_text(const char *text)
{
    while (*text)
        put_byte(*text++);
}

static void put_number(const char *before, u64 n)
{
    u8 digits[20];
    u32 count = 0;
    put_text(before);
    do
        digits[count++] = '0' + n % 10;
    while (n /= 10);
    while (count)
        put_byte(digits[--count]);
}

static void put_answer(u8 number)
{
    put_number("", number);
    put_byte('\n');
}

static void put_report(const u8 *report)
{
    u32 runs = get_little(report + 4, 4);
    put_number("0 susp ", report[1] >> 1 & 1);
    put_number(" more ", report[1] & 1);
    put_number(" gran ", get_little(report + 8, 2));
    put_number(" runs ", runs);
    put_byte('\n');
    for (const u8 *at = report + 16; at < report + 16 + 16 * runs; at += 16) {
        put_number("", get_little(at, 8));
        put_number(" ", get_little(at + 8, 4));
        put_byte('\n');
    }
}

// ---- lines

enum word { DEV, START, STOP, WRITE, RECV, SUSP, RESUME, NO_WORD };
static const struct { const char *name; u32 least, most; } words[NO_WORD] = {
    {"dev", 5, 5 + IDS}, {"start", 2, NUMBERS}, {"stop", 1, 1}, {"write", 3, 3}, {"recv", 2, 2}, {"susp", 2, 2}, {"resume", 1, 1},
};

// The greatest number that a place after a word takes.
static u64 greatest(enum word word, u32 place)
{
    if (word == DEV)
        return place == 3 ? 1 : place == 1 || place == 2 ? 255 : 65535;
    if (place == 0)
        return 65535;
    if (word == START)
        return place == 1 ? 255 : place % 2 ? 0xfffffffful : ~0ul;
    return word == WRITE ? ~0ul : word == RECV ? REPORT : 255;
}

static enum word word_of(const u8 *text, u32 length)
{
    for (enum word word = DEV; word < NO_WORD; word++) {
        u32 i = 0;
        while (i < length && words[word].name[i] && words[word].name[i] == text[i])
            i++;
        if (i == length && !words[word].name[i])
            return word;
    }
    return NO_WORD;
}

static _Bool number_of(const u8 *text, u32 length, u64 most, u64 *n)
{
    *n = 0;
    if (length == 0 || (length > 1 && text[0] == '0'))
        return 0;
    for (u32 i = 0; i < length; i++) {
        u64 digit = text[i] - '0';
        if (digit > 9 || digit > most || *n > (most - digit) / 10)
            return 0;
        *n = 10 * *n + digit;
    }
    return 1;
}

static u32 field_end(const u8 *line, u32 length, u32 from)
{
    while (from < length && line[from] != ' ')
        from++;
    return from;
}

// Reads a line: its word and numbers, or NO_WORD for one that is bad.
static enum word read_line(const u8 *line, u32 length, u64 *numbers, u32 *count)
{
    u32 end = field_end(line, length, 0);
    enum word word = word_of(line, end);
    *count = 0;
    if (word == NO_WORD || length > LINE)
        return NO_WORD;
    while (end < length) {
        u32 from = end + 1;
        end = field_end(line, length, from);
        if (*count == words[word].most || !number_of(line + from, end - from, greatest(word, *count), &numbers[*count]))
            return NO_WORD;
        ++*count;
    }
    if (*count < words[word].least || (word == START && *count % 2))
        return NO_WORD;
    return word;
}

static void play_dev(const u64 *n, u32 count)
{
    struct device d = {.manager = n[0], .least = n[1], .greatest = n[2], .powers = n[3], .limit = n[4], .count = count - 5};
    for (u32 i = 0; i < d.count; i++)
        d.ids[i] = n[5 + i];
    put_answer(fresh(&d));
}

static void play_start(const u64 *n, u32 count)
{
    struct range ranges[RANGES];
    u32 row;
    u8 number;
    for (u32 i = 0; i < count / 2 - 1; i++)
        ranges[i] = (struct range){n[2 + 2 * i], n[3 + 2 * i]};
    number = start(n[0], n[1], ranges, count / 2 - 1, &row);
    if (number >= 18 && number <= 21) {
        put_number("", number);
        put_number(" ", row);
        put_byte('\n');
    } else {
        put_answer(number);
    }
}

static void play_write(const u64 *n)
{
    u32 new;
    u8 number = note(n[0], n[1], n[2], &new);
    if (number) {
        put_answer(number);
    } else {
        put_number("0 ", new);
        put_byte('\n');
    }
}

static void play_recv(const u64 *n)
{
    u8 report[REPORT];
    u8 number = receive(n[0], report, n[1]);
    if (number)
        put_answer(number);
    else
        put_report(report);
}

static void play(const u8 *line, u32 length)
{
    u64 n[NUMBERS];
    u32 count;
    switch (read_line(line, length, n, &count)) {
    case DEV: play_dev(n, count); break;
    case START: play_start(n, count); break;
    case STOP: put_answer(stop(n[0])); break;
    case WRITE: play_write(n); break;
    case RECV: play_recv(n); break;
    case SUSP: put_answer(suspend(n[0], n[1])); break;
    case RESUME: put_answer(resume(n[0])); break;
    case NO_WORD: put_text("bad\n"); break;
    }
}

// Plays standard input, line by line; answers go out before more input is waited for. A line keeps one byte more than it may have, as a sign that it is
// too long. A last line without a line feed is played too.
int main(void)
{
    static u8 input[ROOM], line[LINE + 1];
    u32 length = 0;
    for (long got; (got = read(0, input, ROOM)) > 0; flush())
        for (long i = 0; i < got; i++)
            if (input[i] == '\n') {
                play(line, length);
                length = 0;
            } else if (length <= LINE) {
                line[length++] = input[i];
            }
    if (length)
        play(line, length);
    flush();
    return 0;
}
