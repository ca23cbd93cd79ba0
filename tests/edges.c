/*
 * Uses the library as a C program does, with nothing of it but the header, which comes first so that it has to stand
 * by itself. It prints the examples of document 01, files three blocks in a sheet, and then makes thousands of calls,
 * right and wrong ones, with every buffer malloc'ed to the exact byte, for valgrind to watch. Of each answer it checks
 * what C can check cheaply; the comparisons in Rust check the rest.
 *
 * usage: edges SEED
 *
 * It stops with status 1 at the first difference; otherwise its last line is `edges: N calls, 0 differ`.
 */
#include "drawmitten.h"

#include <inttypes.h>
#include <stdarg.h>
#include <stdio.h>
#include <stdlib.h>
#include <string.h>

enum { BLOCK = 10, SLOT = 11, RECORD = 14, MOST_INPUTS = 9, LONGEST_TABLE = 64, OPEN = 15, LAST_REFUSAL = 17 };

/* How many calls there must be of each, and in all. */
enum { LEAST_OF_EACH = 500, LEAST = 10000 };

/* Rounds of blocks, of sheets, of covers and of builds, records of a sheet, and requests of a build. */
enum { BLOCK_ROUNDS = 3000, SHEET_ROUNDS = 150, SHEET_RECORDS = 12, COVER_ROUNDS = 1500 };
enum { BUILD_ROUNDS = 400, BUILD_REQUESTS = 10 };

enum call {
    COVER,
    MATCH,
    BATCH,
    CHECK,
    EVALUATE,
    TYPE,
    PACK,
    SHEET_CHECK,
    SHEET_READ,
    SHEET_FIND,
    SHEET_APPEND,
    CALLS
};

static const char *const names[CALLS] = {"cover", "match",       "batch",      "check",      "evaluate",    "type",
                                         "pack",  "sheet_check", "sheet_read", "sheet_find", "sheet_append"};
static unsigned long made[CALLS];
static uint64_t seed, state;

/* ---- differences, chance, buffers */

/* Tells of a difference and ends the run. */
static void differ(const char *text, ...)
{
    va_list words;
    va_start(words, text);
    printf("differ: ");
    vprintf(text, words);
    printf("\n  repeat: edges %" PRIu64 "\n", seed);
    va_end(words);
    exit(1);
}

/* The next number below a limit, by the method called SplitMix64. */
static uint32_t below(uint32_t limit)
{
    uint64_t mixed = state += 0x9E3779B97F4A7C15;
    mixed = (mixed ^ mixed >> 30) * 0xBF58476D1CE4E5B9;
    mixed = (mixed ^ mixed >> 27) * 0x94D049BB133111EB;
    return (uint32_t)((mixed ^ mixed >> 31) >> 32) % limit;
}

static int one_in(uint32_t count)
{
    return below(count) == 0;
}

/* A buffer of the exact length, and a copy of what it held. A length of 0 has a byte too, since no pointer is null. */
struct lent {
    uint8_t *bytes, *before;
    size_t length;
};

static uint8_t *exact(size_t length)
{
    uint8_t *bytes = malloc(length ? length : 1);
    if (!bytes)
        differ("no memory");
    return bytes;
}

/* Lends a copy of some bytes. */
static struct lent lend(const uint8_t *bytes, size_t length)
{
    struct lent lent = {exact(length), exact(length), length};
    memcpy(lent.bytes, bytes, length);
    memcpy(lent.before, bytes, length);
    return lent;
}

/* Lends room to write, filled by chance. */
static struct lent lend_room(size_t length)
{
    struct lent lent = {exact(length), exact(length), length};
    for (size_t k = 0; k < length; k++)
        lent.bytes[k] = lent.before[k] = (uint8_t)below(256);
    return lent;
}

static void give_back(struct lent *lent)
{
    free(lent->bytes);
    free(lent->before);
}

/* Whether the bytes from one place to another are as they were. */
static int kept(const struct lent *lent, size_t from, size_t to)
{
    return memcmp(lent->bytes + from, lent->before + from, to - from) == 0;
}

static unsigned number(uint64_t answer)
{
    return (unsigned)(answer & 255);
}

static uint64_t part(uint64_t answer)
{
    return answer >> 8;
}

/* ---- the calls, each with what holds of every answer */

/* Notes a call that was lent this buffer to read. */
static uint64_t read_only(enum call call, uint64_t answer, struct lent *lent)
{
    made[call]++;
    if (!kept(lent, 0, lent->length))
        differ("%s changes what it is lent to read", names[call]);
    if (number(answer) > LAST_REFUSAL)
        differ("%s answers %#" PRIx64, names[call], answer);
    give_back(lent);
    return answer;
}

/* Judges what a call wrote: `count` bytes from `at` on and no other after success, with the length in use; nothing
 * after a refusal. What was written is copied to `copy`. */
static uint64_t written(enum call call, uint64_t answer, struct lent *out, size_t at, size_t count, uint8_t *copy)
{
    if (number(answer) != 0 && !kept(out, 0, out->length))
        differ("%s refuses with %u and writes", names[call], number(answer));
    if (number(answer) == 0) {
        if (part(answer) != at + count || at + count > out->length)
            differ("%s says that %" PRIu64 " bytes of %zu are in use", names[call], part(answer), out->length);
        if (!kept(out, 0, at) || !kept(out, at + count, out->length))
            differ("%s writes to bytes that are not its own", names[call]);
        memcpy(copy, out->bytes + at, count);
    }
    give_back(out);
    return answer;
}

/* After a refusal that is about no record the other part is 0. */
static uint64_t plain(enum call call, uint64_t answer)
{
    if (number(answer) != 0 && part(answer) != 0)
        differ("%s refuses with %u and the other part %" PRIu64, names[call], number(answer), part(answer));
    return answer;
}

static size_t table_length(unsigned n)
{
    return n < 3 ? 1 : (size_t)1 << (n - 3);
}

/* The inputs of a cover that was read. */
static unsigned inputs(uint64_t answer)
{
    return answer >> 8 & 255;
}

static uint64_t cover(const void *text, size_t length, uint8_t *table, size_t room)
{
    struct lent in = lend(text, length), out = lend_room(room);
    uint64_t answer = drawmitten_cover(in.bytes, length, out.bytes, room);
    read_only(COVER, answer, &in);
    if (inputs(answer) > MOST_INPUTS)
        differ("cover answers %#" PRIx64, answer);
    written(COVER, answer >> 16 << 8 | number(answer), &out, 0, table_length(inputs(answer)), table);
    return plain(COVER, answer);
}

static uint64_t match(uint8_t n, const uint8_t *table, size_t length, uint8_t *ten, size_t room)
{
    struct lent in = lend(table, length), out = lend_room(room);
    uint64_t answer = drawmitten_match(n, in.bytes, length, out.bytes, room);
    read_only(MATCH, answer, &in);
    return plain(MATCH, written(MATCH, answer, &out, 0, BLOCK, ten));
}

/* A build of this many requests, if it is right. */
static uint64_t batch(const uint8_t *build, size_t length, size_t requests, uint8_t *slots, size_t room)
{
    struct lent in = lend(build, length), out = lend_room(room);
    uint64_t answer = drawmitten_batch(in.bytes, length, out.bytes, room);
    read_only(BATCH, answer, &in);
    return plain(BATCH, written(BATCH, answer, &out, 0, SLOT * requests, slots));
}

static uint64_t check(uint8_t n, const uint8_t *block, size_t length)
{
    struct lent in = lend(block, length);
    uint64_t answer = plain(CHECK, read_only(CHECK, drawmitten_check(n, in.bytes, length), &in));
    if (part(answer) != 0)
        differ("check answers %#" PRIx64, answer);
    return answer;
}

static uint64_t evaluate(uint8_t n, const uint8_t *block, size_t length, uint32_t row)
{
    struct lent in = lend(block, length);
    uint64_t answer = drawmitten_evaluate(n, in.bytes, length, row);
    plain(EVALUATE, read_only(EVALUATE, answer, &in));
    if (part(answer) > 1)
        differ("evaluate answers %#" PRIx64, answer);
    return answer;
}

static uint64_t type(uint8_t n, const uint8_t *block, size_t length)
{
    struct lent in = lend(block, length);
    uint64_t answer = plain(TYPE, read_only(TYPE, drawmitten_type(n, in.bytes, length), &in));
    unsigned letter = (answer >> 8) & 255;
    if (number(answer) == 0 && (letter < 'A' || letter > 'C' || answer >> 16 > 4))
        differ("type answers %#" PRIx64, answer);
    return answer;
}

/* Nine pin fields and three tables. */
struct parts {
    uint8_t fields[9];
    uint16_t f, g;
    uint8_t h;
};

static uint64_t pack(uint8_t n, const struct parts *parts, uint8_t *ten, size_t room)
{
    struct lent in = lend(parts->fields, 9), out = lend_room(room);
    uint64_t answer = drawmitten_pack(n, in.bytes, parts->f, parts->g, parts->h, out.bytes, room);
    read_only(PACK, answer, &in);
    return plain(PACK, written(PACK, answer, &out, 0, BLOCK, ten));
}

static uint64_t sheet_check(const uint8_t *sheet, size_t length)
{
    struct lent in = lend(sheet, length);
    return read_only(SHEET_CHECK, drawmitten_sheet_check(in.bytes, length), &in);
}

static uint64_t sheet_read(const uint8_t *sheet, size_t length, uint64_t place, uint8_t *record, size_t room)
{
    struct lent in = lend(sheet, length), out = lend_room(room);
    uint64_t answer = drawmitten_sheet_read(in.bytes, length, place, out.bytes, room);
    read_only(SHEET_READ, answer, &in);
    return written(SHEET_READ, answer, &out, 0, RECORD, record);
}

static uint64_t sheet_find(const uint8_t *sheet, size_t length, uint32_t craft, uint32_t block)
{
    struct lent in = lend(sheet, length);
    return read_only(SHEET_FIND, drawmitten_sheet_find(in.bytes, length, craft, block), &in);
}

/* A record offered. */
struct offer {
    uint32_t craft, block;
    uint8_t n;
    uint8_t ten[BLOCK + 2];
    size_t length;
};

/* The sheet is the used part of a buffer of `room` bytes; with less room than that, the buffer has what it holds. */
static uint64_t sheet_append(const uint8_t *sheet, size_t used, size_t room, const struct offer *offer, uint8_t *record)
{
    struct lent out = lend_room(room), in = lend(offer->ten, offer->length);
    size_t held = used < room ? used : room;
    memcpy(out.bytes, sheet, held);
    memcpy(out.before, sheet, held);
    uint64_t answer =
        drawmitten_sheet_append(out.bytes, room, used, offer->craft, offer->block, offer->n, in.bytes, in.length);
    read_only(SHEET_APPEND, answer, &in);
    return written(SHEET_APPEND, answer, &out, used, RECORD, record);
}

/* ---- tables and blocks */

static void set_row(uint8_t *table, uint32_t row)
{
    table[row / 8] |= (uint8_t)(0x80 >> row % 8);
}

static unsigned ones(uint32_t row)
{
    unsigned count = 0;
    for (; row; row >>= 1)
        count += row & 1;
    return count;
}

/* The table that a block computes, through the library. */
static void computed(uint8_t n, const uint8_t *block, uint8_t *table)
{
    memset(table, 0, LONGEST_TABLE);
    for (uint32_t row = 0; row < 1u << n; row++) {
        uint64_t answer = evaluate(n, block, BLOCK, row);
        if (number(answer) != 0)
            differ("evaluate refuses row %" PRIu32 " of a right block with %u", row, number(answer));
        if (part(answer) == 1)
            set_row(table, row);
    }
}

/* A match that is found: it passes the check, and computes the table on every row. */
static void right_match(uint8_t n, const uint8_t *table, const uint8_t *ten)
{
    uint8_t again[LONGEST_TABLE];
    if (check(n, ten, BLOCK) != 0)
        differ("a match of %u inputs does not pass the check", n);
    computed(n, ten, again);
    if (memcmp(table, again, table_length(n)) != 0)
        differ("a match of %u inputs computes another table", n);
}

/* The parts of ten bytes. */
static struct parts parts_of(const uint8_t *ten)
{
    struct parts parts;
    for (int pin = 0; pin < 9; pin++)
        parts.fields[pin] = pin % 2 ? ten[pin / 2] & 15 : ten[pin / 2] >> 4;
    parts.f = (uint16_t)((ten[4] & 15) << 12 | ten[5] << 4 | ten[6] >> 4);
    parts.g = (uint16_t)((ten[6] & 15) << 12 | ten[7] << 4 | ten[8] >> 4);
    parts.h = (uint8_t)((ten[8] & 15) << 4 | ten[9] >> 4);
    return parts;
}

/* Four pins that carry some of n variables in order, and contents with 0 in the rows that need a 0 on an open pin. */
static uint16_t some_table(uint8_t n, uint8_t *pins)
{
    static const uint16_t readable[] = {0x0001, 0x0101, 0x1111, 0x5555, 0xFFFF};
    int carried = 0;
    memset(pins, OPEN, 4);
    for (uint8_t variable = 0; variable < n && carried < 4; variable++)
        if (!one_in(3))
            pins[carried++] = variable;
    return (uint16_t)(below(65536) & readable[carried]);
}

/* The parts of a tidy block of n inputs. */
static struct parts some_parts(uint8_t n)
{
    struct parts parts;
    parts.f = some_table(n, parts.fields);
    parts.g = some_table(n, parts.fields + 4);
    parts.fields[8] = n > 0 && !one_in(4) ? (uint8_t)below(n) : OPEN;
    parts.h = (uint8_t)(below(256) & (parts.fields[8] == OPEN ? 0x55 : 0xFF));
    return parts;
}

/* A tidy block of n inputs. */
static void some_block(uint8_t n, uint8_t *ten)
{
    struct parts parts = some_parts(n);
    if (number(pack(n, &parts, ten, BLOCK)) != 0)
        differ("pack refuses the parts of a tidy block of %u inputs", n);
}

/* ---- document 01 */

static int odd(uint32_t row, unsigned n)
{
    (void)n;
    return ones(row) % 2 == 1;
}

static int all(uint32_t row, unsigned n)
{
    return ones(row) == n;
}

static int at_least_five(uint32_t row, unsigned n)
{
    (void)n;
    return ones(row) >= 5;
}

/* An example that asks for a match: the table by its first bytes, or by a rule for its rows; the line, as the program
 * prints it. */
struct example {
    const char *mark;
    uint8_t n;
    size_t length;
    uint8_t bytes[4];
    int (*rule)(uint32_t row, unsigned n);
    const char *line;
};

static const struct example examples[] = {
    {"P1", 0, 1, {0x80}, NULL, "A-0 FFFFFFFFF00000000400"},
    {"P2", 0, 1, {0x00}, NULL, "A-0 FFFFFFFFF00000000000"},
    {"P3", 1, 1, {0x40}, NULL, "C-0 0FFF0FFF000000000400"},
    {"P4", 5, 4, {0x00, 0x00, 0xFF, 0xFF}, NULL, "A-4 01230123400000000400"},
    {"P5", 6, 8, {0}, all, "A-3 01230124500010001010"},
    {"P6", 6, 8, {0}, odd, "A-3 01230124555556996690"},
    {"P7", 9, 64, {0}, odd, "A-0 01234567869966996690"},
    {"P8", 9, 64, {0}, all, "A-0 01234567800010001010"},
    {"P9", 2, 1, {0x81}, NULL, "R 3"},
    {"Q1", 9, 64, {0}, at_least_five, "R 4"},
    {"Q2", 10, 64, {0}, NULL, "R 1"},
    {"Q3", 4, 1, {0x00}, NULL, "R 2"},
};

/* An example that asks for a check, with the number of its refusal, or 0. "P1 before" is P1 as document 01 has it, with
 * open pins that read 0. */
static const struct {
    const char *mark;
    uint8_t n;
    uint8_t ten[BLOCK];
    unsigned number;
} checked[] = {
    {"P10", 1, {0x1F, 0xFF, 0xFF, 0xFF, 0xF0, 0, 0, 0, 0, 0}, 6},
    {"P11", 2, {0x10, 0xFF, 0xFF, 0xFF, 0xF0, 0, 0, 0, 0, 0}, 7},
    {"P12", 0, {0xFF, 0xFF, 0xFF, 0xFF, 0xF0, 0, 0, 0, 0x04, 0}, 0},
    {"P1 before", 0, {0xFF, 0xFF, 0xFF, 0xFF, 0xF0, 0, 0, 0, 0x08, 0}, 8},
    {"Q4", 1, {0x0F, 0xFF, 0x0F, 0xFF, 0, 0, 0, 0, 0x04, 0x01}, 9},
};

/* The line for a match or a refusal. */
static void write_line(char *line, uint8_t n, uint64_t answer, const uint8_t *ten)
{
    if (number(answer) != 0) {
        sprintf(line, "R %u", number(answer));
        return;
    }
    uint64_t kind = type(n, ten, BLOCK);
    line += sprintf(line, "%c-%u ", (int)(kind >> 8 & 255), (unsigned)(kind >> 16));
    for (int k = 0; k < BLOCK; k++)
        line += sprintf(line, "%02X", ten[k]);
}

/* The table of an example. */
static void example_table(const struct example *example, uint8_t *table)
{
    memset(table, 0, LONGEST_TABLE);
    memcpy(table, example->bytes, sizeof example->bytes);
    for (uint32_t row = 0; example->rule && row < 1u << example->n; row++)
        if (example->rule(row, example->n))
            set_row(table, row);
}

static void try_example(const struct example *example)
{
    uint8_t table[LONGEST_TABLE], ten[BLOCK];
    char line[32];
    example_table(example, table);
    uint64_t answer = match(example->n, table, example->length, ten, BLOCK);
    write_line(line, example->n, answer, ten);
    printf("%s %s\n", example->mark, line);
    if (strcmp(line, example->line) != 0)
        differ("%s is %s", example->mark, example->line);
    if (number(answer) == 0)
        right_match(example->n, table, ten);
}

static void try_document(void)
{
    for (size_t k = 0; k < sizeof examples / sizeof *examples; k++)
        try_example(&examples[k]);
    for (size_t k = 0; k < sizeof checked / sizeof *checked; k++) {
        unsigned given = number(check(checked[k].n, checked[k].ten, BLOCK));
        printf(given == 0 ? "%s %u\n" : "%s R %u\n", checked[k].mark, given);
        if (given != checked[k].number)
            differ("the check of %s must give %u", checked[k].mark, checked[k].number);
    }
}

/* The blocks of P1, P3 and P7 filed in a sheet of three records, whose bytes are written out by hand. */
static void try_three_records(void)
{
    static const uint8_t wanted[3 * RECORD] = {
        0x00, 0x01, 0x00, 0x00, 0xFF, 0xFF, 0xFF, 0xFF, 0xF0, 0x00, 0x00, 0x00, 0x04, 0x00,
        0x00, 0x01, 0xFF, 0xF1, 0x0F, 0xFF, 0x0F, 0xFF, 0x00, 0x00, 0x00, 0x00, 0x04, 0x00,
        0xFF, 0xFF, 0x00, 0x09, 0x01, 0x23, 0x45, 0x67, 0x86, 0x99, 0x66, 0x99, 0x66, 0x90,
    };
    static const struct offer offers[3] = {
        {1, 0, 0, {0xFF, 0xFF, 0xFF, 0xFF, 0xF0, 0, 0, 0, 0x04, 0}, BLOCK},
        {1, 4095, 1, {0x0F, 0xFF, 0x0F, 0xFF, 0, 0, 0, 0, 0x04, 0}, BLOCK},
        {65535, 0, 9, {0x01, 0x23, 0x45, 0x67, 0x86, 0x99, 0x66, 0x99, 0x66, 0x90}, BLOCK},
    };
    uint8_t sheet[3 * RECORD], record[RECORD];
    for (size_t k = 0; k < 3; k++)
        if (number(sheet_append(sheet, k * RECORD, (k + 1) * RECORD, &offers[k], sheet + k * RECORD)) != 0)
            differ("record %zu of three is refused", k);
    if (memcmp(sheet, wanted, sizeof wanted) != 0 || sheet_check(sheet, sizeof sheet) != 3u << 8)
        differ("the sheet of three records is another");
    for (size_t k = 0; k < 3; k++) {
        if (sheet_find(sheet, sizeof sheet, offers[k].craft, offers[k].block) != (uint64_t)k << 8)
            differ("record %zu of three is not found", k);
        sheet_read(sheet, sizeof sheet, k, record, RECORD);
        if (memcmp(record, wanted + k * RECORD, RECORD) != 0)
            differ("record %zu of three is read as another", k);
    }
}

/* ---- blocks and tables by chance */

/* The number that matching gives before it searches, or 0. */
static unsigned refused_first(uint8_t n, const uint8_t *table, size_t length, size_t room)
{
    static const uint8_t padding[] = {0x7F, 0x3F, 0x0F};
    if (n > MOST_INPUTS)
        return 1;
    if (length != table_length(n))
        return 2;
    if (n < 3 && table[0] & padding[n])
        return 3;
    return room < BLOCK ? 5 : 0;
}

/* A table by chance, with now and then a wrong n, length or padding, or too little room. Up to five inputs every
 * table has a match. */
static void try_table(void)
{
    uint8_t n = (uint8_t)(one_in(8) ? below(256) : below(6)), table[LONGEST_TABLE + 1], ten[BLOCK];
    size_t length = one_in(8) ? below(sizeof table + 1) : table_length(n > MOST_INPUTS ? 0 : n);
    size_t room = one_in(4) ? below(13) : BLOCK;
    for (size_t k = 0; k < sizeof table; k++)
        table[k] = (uint8_t)below(256);
    if (n < 3 && !one_in(4))
        table[0] &= (uint8_t)(0xFF00 >> (1 << n));
    unsigned wanted = refused_first(n, table, length, room), given = number(match(n, table, length, ten, room));
    if (given != wanted && (wanted != 0 || given != 4 || n < 6))
        differ("match of n %u, %zu bytes and room %zu gives %u, not %u", n, length, room, given, wanted);
    if (given == 0)
        right_match(n, table, ten);
}

/* The table of a block has a match, which is this block or one before it. */
static void try_fitting(uint8_t n)
{
    uint8_t block[BLOCK], table[LONGEST_TABLE], ten[BLOCK];
    some_block(n, block);
    computed(n, block, table);
    if (number(match(n, table, table_length(n), ten, BLOCK + below(3))) != 0 || memcmp(ten, block, BLOCK) > 0)
        differ("the table of a block of %u inputs has no match, or a later one", n);
    right_match(n, table, ten);
}

/* Damages a block of `length` bytes in some ways. */
static void damage(uint8_t *block, size_t length)
{
    for (uint32_t times = below(4); times > 0 && length > 0; times--) {
        uint8_t *byte = &block[below((uint32_t)length)];
        *byte = (uint8_t)(one_in(2) ? *byte ^ 1u << below(8) : below(256));
    }
}

/* A block, right or damaged: checking, typing and evaluating refuse it alike; and packing what it holds gives it
 * back, or is refused like it. */
static void try_block(void)
{
    uint8_t n = (uint8_t)below(MOST_INPUTS + 1), block[BLOCK + 2] = {0}, ten[BLOCK];
    size_t length = one_in(8) ? below(sizeof block + 1) : BLOCK, room = below(13);
    some_block(n, block);
    damage(block, length);
    n = (uint8_t)(one_in(8) ? below(256) : n);
    uint32_t rows[] = {below(512), below(UINT32_MAX), below(512) + 65536, n < 32 ? 1u << n : 0}, row = rows[below(4)];
    unsigned given = number(check(n, block, length)), value = number(evaluate(n, block, length, row));
    if (number(type(n, block, length)) != given)
        differ("check gives %u and type another number", given);
    if (value != (given != 0 ? given : row >= 1u << n ? 13 : 0))
        differ("check gives %u and evaluate at row %" PRIu32 " of %u inputs %u", given, row, n, value);
    if (length != BLOCK)
        return;
    struct parts parts = parts_of(block);
    unsigned wanted = given != 0 && given != 9 ? given : room < BLOCK ? 5 : 0;
    if (number(pack(n, &parts, ten, room)) != wanted)
        differ("check gives %u and pack with room %zu not %u", given, room, wanted);
    block[9] &= 0xF0;
    if (wanted == 0 && memcmp(ten, block, BLOCK) != 0)
        differ("pack gives another block than the one that was taken apart");
}

/* A field of 16 or more is refused, whatever its last four bits. */
static void try_far_field(void)
{
    uint8_t n = (uint8_t)below(MOST_INPUTS + 1), ten[BLOCK];
    struct parts parts = some_parts(n);
    parts.fields[below(9)] += (uint8_t)(16 * (1 + below(15)));
    if (number(pack(n, &parts, ten, below(13))) != 6)
        differ("pack takes a field of 16 or more");
}

/* ---- sheets by chance */

/* A record with a number pair and a tidy block. */
static struct offer some_offer(uint32_t craft, uint32_t block)
{
    struct offer offer = {craft, block, (uint8_t)below(MOST_INPUTS + 1), {0}, BLOCK};
    some_block(offer.n, offer.ten);
    return offer;
}

/* A sheet at fault: every call gives the answer of the check. */
static void try_wrong_sheet(const uint8_t *sheet, size_t length, uint64_t fault)
{
    uint8_t record[RECORD];
    struct offer offer = some_offer(65535, 4095);
    if (sheet_read(sheet, length, below(4), record, below(16)) != fault)
        differ("a sheet that is refused is read, or refused otherwise");
    if (sheet_find(sheet, length, below(65536), below(4096)) != fault)
        differ("a sheet that is refused is searched, or refused otherwise");
    if (sheet_append(sheet, length, length + below(16), &offer, record) != fault)
        differ("a sheet that is refused is added to, or refused otherwise");
}

/* A sheet with some of its bytes changed, cut, or as it was. */
static void try_damaged_sheet(const uint8_t *sheet, size_t length)
{
    uint8_t *damaged = exact(length);
    memcpy(damaged, sheet, length);
    damage(damaged, length);
    size_t cut = one_in(4) ? below((uint32_t)length + 1) : length;
    uint64_t answer = sheet_check(damaged, cut);
    if (number(answer) != 0)
        try_wrong_sheet(damaged, cut, answer);
    else if (cut % RECORD != 0 || part(answer) != cut / RECORD)
        differ("a sheet of %zu bytes has %" PRIu64 " records", cut, part(answer));
    free(damaged);
}

/* Offers that are refused leave the sheet as it is: a number pair not above the last, one out of range, a block of
 * another length, too little room, and a used length above the buffer's. */
static void try_refused_offers(const uint8_t *sheet, size_t used, struct offer offer)
{
    uint8_t record[RECORD];
    uint64_t count = used / RECORD;
    if (sheet_append(sheet, used, used + RECORD, &offer, record) != (count << 8 | 11))
        differ("the last number pair is taken again");
    offer.craft += 65536;
    if (sheet_append(sheet, used, used + RECORD, &offer, record) != (count << 8 | 10))
        differ("a spacecraft number above 65535 is taken");
    offer.craft = 65535;
    offer.block = 4095;
    if (sheet_append(sheet, used, used + below(RECORD), &offer, record) != 5)
        differ("a record is added without room");
    if (sheet_append(sheet, used, below((uint32_t)used), &offer, record) != 2)
        differ("a used length above the buffer's is taken");
    offer.length = below(BLOCK);
    if (sheet_append(sheet, used, used + RECORD, &offer, record) != 2)
        differ("a block of %zu bytes is added", offer.length);
}

/* The record added last is found where it must be, and read as it was written. */
static void try_last(const uint8_t *sheet, size_t used, const struct offer *offer)
{
    uint8_t record[RECORD];
    uint64_t place = used / RECORD - 1;
    if (sheet_find(sheet, used, offer->craft, offer->block) != place << 8)
        differ("the record added is not found at place %" PRIu64, place);
    if (sheet_read(sheet, used, place, record, RECORD + below(4)) != RECORD << 8)
        differ("the record at place %" PRIu64 " is not read", place);
    if (memcmp(record, sheet + used - RECORD, RECORD) != 0 || memcmp(record + 4, offer->ten, BLOCK) != 0)
        differ("the record at place %" PRIu64 " is read as another", place);
    if (number(sheet_read(sheet, used, place, record, below(RECORD))) != 5)
        differ("a record is read without room");
    if (sheet_read(sheet, used, place + ((uint64_t)1 << (one_in(2) ? 32 : 0)), record, RECORD) != 12)
        differ("a record is read that is not there");
    if (sheet_find(sheet, used, offer->craft + 65536, offer->block) != 12)
        differ("a number pair is found that is not there");
}

/* A sheet that grows record by record from nothing. */
static void try_sheet(void)
{
    uint8_t sheet[SHEET_RECORDS * RECORD];
    uint32_t craft = 1 + below(3), block = below(4);
    for (size_t used = 0; used < sizeof sheet; used += RECORD) {
        struct offer offer = some_offer(craft, block);
        size_t room = used + RECORD + below(20);
        if (sheet_append(sheet, used, room, &offer, sheet + used) != (uint64_t)(used + RECORD) << 8)
            differ("a right record is refused");
        try_last(sheet, used + RECORD, &offer);
        try_refused_offers(sheet, used + RECORD, offer);
        try_damaged_sheet(sheet, used + RECORD);
        craft += one_in(2) ? 1 : 0;
        block += 1 + below(200);
    }
}

/* ---- covers */

/* A text with the number that it is refused with, or its n and the first byte of its table. */
static const struct {
    const char *text;
    unsigned number, n;
    uint8_t first;
} covers[] = {
    {".names y", 0, 0, 0x00},
    {".names y\n 1\n", 0, 0, 0x80},
    {".names y\n0", 0, 0, 0x00},
    {".names a y\n1 1", 0, 1, 0x40},
    {".names a y\r\n1 0\r\n", 0, 1, 0x80},
    {"# a\n\t.names a#\\\n\n0#\r", 0, 0, 0x00},
    {".names a b y\n10 1\n", 0, 2, 0x40},
    {".names a b y\n-1 0", 0, 2, 0xC0},
    {".names a b c y\n1-- 1\n--1 1", 0, 3, 0x5F},
    {".names a b c d y\n-000 1", 0, 4, 0xC0},
    {".names a b c d e f g h i y\n--------0 1\n", 0, 9, 0xFF},
    {"", 15, 0, 0},
    {"#", 15, 0, 0},
    {".names", 15, 0, 0},
    {".names y\n1\r", 15, 0, 0},
    {".names a \\\n y\n1 1\n", 15, 0, 0},
    {".names a y\n1 1\n.end\n", 15, 0, 0},
    {".names a b c d e f g h i j y\n---------- 1\n--------- 1", 15, 0, 0},
    {".names a b c d e f g h i a y\n---------- 1", 1, 0, 0},
    {".names a b a\n11 1\n00 0\n", 16, 0, 0},
    {".names a y\n1 1\n0 0", 17, 0, 0},
};

/* Each of these texts with room and with too little; and, for valgrind, each cut at every length. */
static void try_known_covers(void)
{
    uint8_t table[LONGEST_TABLE];
    for (size_t k = 0; k < sizeof covers / sizeof *covers; k++) {
        size_t length = strlen(covers[k].text), needed = table_length(covers[k].n);
        unsigned wanted = covers[k].number;
        uint64_t answer = cover(covers[k].text, length, table, needed + below(4));
        if (number(answer) != wanted || (wanted == 0 && (inputs(answer) != covers[k].n || table[0] != covers[k].first)))
            differ("cover %zu of those known is another: %#" PRIx64, k, answer);
        if (cover(covers[k].text, length, table, needed - 1) != (wanted != 0 ? wanted : 5))
            differ("cover %zu of those known is read without room", k);
        while (length > 0)
            cover(covers[k].text, --length, table, LONGEST_TABLE);
    }
}

/* A text that grows; the longest has a line for each of 512 rows. */
struct text {
    size_t length;
    char bytes[16384];
};

static void add(struct text *text, const char *more)
{
    strcpy(text->bytes + text->length, more);
    text->length += strlen(more);
}

/* Adds one of the ways to separate two words. */
static void add_blank(struct text *text)
{
    static const char *const ways[] = {" ", "\t", "  ", "\t \t"};
    add(text, ways[below(sizeof ways / sizeof *ways)]);
}

/* Adds one of the ways to end a line. */
static void add_end(struct text *text)
{
    static const char *const ways[] = {"\n", "\r\n", " \n", "\n\n", "\t#\\\n", "#\r 1\r\n"};
    add(text, ways[below(sizeof ways / sizeof *ways)]);
}

/* A cover with a line for each row that is 1 in a table. */
static void some_cover(unsigned n, const uint8_t *table, struct text *text)
{
    text->length = 0;
    add(text, ".names");
    for (char name[] = "a"; name[0] <= 'a' + (int)n; name[0]++) {
        add_blank(text);
        add(text, name);
    }
    for (uint32_t row = 0; row < 1u << n; row++) {
        if (table[row / 8] >> (7 - row % 8) & 1) {
            add_end(text);
            for (unsigned variable = 0; variable < n; variable++)
                add(text, row >> variable & 1 ? "1" : "0");
            add_blank(text);
            add(text, "1");
        }
    }
    if (one_in(2))
        add_end(text);
}

/* A text by whatever damage: with less room the answer is the same, or 5 for a cover that was read. */
static void try_rooms(const struct text *text)
{
    uint8_t table[LONGEST_TABLE], again[LONGEST_TABLE];
    size_t room = below(LONGEST_TABLE + 2);
    uint64_t answer = cover(text->bytes, text->length, table, LONGEST_TABLE + below(2));
    uint64_t other = cover(text->bytes, text->length, again, room);
    if (other != (number(answer) == 0 && room < answer >> 16 ? 5 : answer))
        differ("cover answers %#" PRIx64 ", and with room %zu %#" PRIx64, answer, room, other);
    if (number(other) == 0 && memcmp(table, again, answer >> 16) != 0)
        differ("cover writes two tables for one text");
}

/* A table as a cover: it is read back, and matching takes it. Then the text is damaged and cut. */
static void try_cover(void)
{
    uint8_t n = (uint8_t)below(MOST_INPUTS + 1), table[LONGEST_TABLE], again[LONGEST_TABLE], ten[BLOCK];
    struct text text;
    for (size_t k = 0; k < sizeof table; k++)
        table[k] = (uint8_t)(below(256) & below(256));
    if (n < 3)
        table[0] &= (uint8_t)(0xFF00 >> (1 << n));
    some_cover(n, table, &text);
    uint64_t answer = cover(text.bytes, text.length, again, table_length(n) + below(3));
    if (number(answer) != 0 || inputs(answer) != n || memcmp(table, again, table_length(n)) != 0)
        differ("the table of a cover of %u inputs is another: %#" PRIx64, n, answer);
    unsigned given = n < 6 || one_in(50) ? number(match(n, again, table_length(n), ten, BLOCK)) : 4;
    if (given != 0 && (given != 4 || n < 6))
        differ("the table of a cover of %u inputs is refused with %u", n, given);
    damage((uint8_t *)text.bytes, text.length);
    text.length = one_in(4) ? below((uint32_t)text.length + 1) : text.length;
    try_rooms(&text);
}

/* ---- builds */

/* A build, with room for a request more, and its slots. */
struct build {
    size_t length, requests;
    uint8_t bytes[(BUILD_REQUESTS + 1) * (1 + LONGEST_TABLE)], slots[BUILD_REQUESTS * SLOT];
};

/* Adds a request, and its slot by a single call. */
static void add_request(struct build *build, uint8_t n, const uint8_t *table)
{
    uint8_t *request = build->bytes + build->length, *slot = build->slots + SLOT * build->requests;
    request[0] = n;
    memcpy(request + 1, table, table_length(n));
    memset(slot, 0, SLOT);
    slot[0] = (uint8_t)number(match(n, table, table_length(n), slot + 1, BLOCK));
    build->length += 1 + table_length(n);
    build->requests++;
}

/* The first bytes of a build that end with a request: with room its slots are those of single calls, with less it is
 * refused. */
static void try_right(const struct build *build, size_t length, size_t requests)
{
    uint8_t slots[sizeof build->slots];
    size_t needed = SLOT * requests, room = needed + (one_in(2) ? below(20) : 0);
    if (batch(build->bytes, length, requests, slots, room) != (uint64_t)needed << 8)
        differ("a build of %zu requests is refused, or has another length", requests);
    if (memcmp(slots, build->slots, needed) != 0)
        differ("a slot of a build of %zu requests is not that of a single call", requests);
    if (requests > 0 && batch(build->bytes, length, requests, slots, needed - 1) != 5)
        differ("a build of %zu requests is taken without room", requests);
    if (requests > 0 && batch(build->bytes, length, requests, slots, below((uint32_t)needed)) != 5)
        differ("a build of %zu requests is taken with little room", requests);
}

/* Bytes that are no build are refused, whatever the room. */
static void try_wrong(const struct build *build, size_t length)
{
    uint8_t slots[sizeof build->slots];
    if (batch(build->bytes, length, build->requests, slots, one_in(2) ? below(sizeof slots) : 0) != 14)
        differ("%zu bytes that are no build are not refused with 14", length);
}

/* Adds an example, which has its line; the build is right with it, and wrong where it is cut in it. */
static void add_example(struct build *build, const struct example *example)
{
    uint8_t table[LONGEST_TABLE], *slot = build->slots + SLOT * build->requests;
    char line[32];
    example_table(example, table);
    add_request(build, example->n, table);
    write_line(line, example->n, slot[0], slot + 1);
    if (strcmp(line, example->line) != 0)
        differ("%s in a build is %s", example->mark, example->line);
    try_right(build, build->length, build->requests);
    for (size_t cut = 1; cut <= example->length; cut++)
        try_wrong(build, build->length - cut);
}

/* A build with an example after it that is no request. */
static void try_after(struct build *build, const struct example *example)
{
    build->bytes[build->length] = example->n;
    try_wrong(build, build->length + 1 + example->length);
}

/* No request, and P1 to P9 and Q1 in one build, cut at every length; and with Q2 or Q3 after them. */
static void try_document_build(void)
{
    struct build build = {0};
    try_right(&build, 0, 0);
    for (size_t k = 0; k < BUILD_REQUESTS; k++)
        add_example(&build, &examples[k]);
    try_after(&build, &examples[BUILD_REQUESTS]);
    try_after(&build, &examples[BUILD_REQUESTS + 1]);
}

/* A request by chance, mostly of few inputs and with right padding. */
static void add_some_request(struct build *build)
{
    uint8_t n = (uint8_t)(one_in(60) ? below(MOST_INPUTS + 1) : below(6)), table[LONGEST_TABLE];
    for (size_t k = 0; k < sizeof table; k++)
        table[k] = (uint8_t)below(256);
    if (n < 3 && !one_in(3))
        table[0] &= (uint8_t)(0xFF00 >> (1 << n));
    add_request(build, n, table);
}

/* A build by chance; then an n above 9 after it, a table after it that runs past the end, and an n above 9 in it. */
static void try_build(void)
{
    struct build build = {0};
    uint8_t n = (uint8_t)below(MOST_INPUTS + 1);
    for (uint32_t left = below(BUILD_REQUESTS / 2); left > 0; left--)
        add_some_request(&build);
    try_right(&build, build.length, build.requests);
    build.bytes[build.length] = n;
    try_wrong(&build, build.length + 1 + below((uint32_t)table_length(n)));
    build.bytes[build.length] = (uint8_t)(10 + below(246));
    try_wrong(&build, build.length + 1 + below(LONGEST_TABLE + 1));
    build.bytes[0] = (uint8_t)(10 + below(246));
    try_wrong(&build, build.length + 1);
}

/* ---- the whole */

/* Prints how often each was called; fails if that is too little. */
static void account(void)
{
    unsigned long total = 0;
    for (int call = 0; call < CALLS; call++) {
        printf("%s: %lu calls\n", names[call], made[call]);
        total += made[call];
        if (made[call] < LEAST_OF_EACH)
            differ("that is too few");
    }
    if (total < LEAST)
        differ("%lu calls are too few", total);
    printf("edges: %lu calls, 0 differ\n", total);
}

int main(int count, char **words)
{
    char *end;
    seed = count == 2 ? strtoull(words[1], &end, 10) : 0;
    if (count != 2 || *words[1] < '0' || *words[1] > '9' || *end) {
        fprintf(stderr, "usage: edges SEED\n");
        return 2;
    }
    state = seed;
    printf("seed %" PRIu64 "\n", seed);
    try_document();
    try_three_records();
    for (int round = 0; round < BLOCK_ROUNDS; round++) {
        try_table();
        try_block();
        try_far_field();
        if (round % 4 == 0)
            try_fitting((uint8_t)(round % 100 ? below(7) : MOST_INPUTS));
    }
    for (int round = 0; round < SHEET_ROUNDS; round++)
        try_sheet();
    try_known_covers();
    for (int round = 0; round < COVER_ROUNDS; round++)
        try_cover();
    try_document_build();
    for (int round = 0; round < BUILD_ROUNDS; round++)
        try_build();
    account();
    return 0;
}
