/*
 * Checks the C interface: each part makes calls and compares code, values and memory with those of the rules. Every
 * slice that is written has guard elements behind it.
 */
#include "check.h"

uint8_t image[LEN + GUARD];
uint64_t map[1 + GUARD];
uint32_t list[ROWS + GUARD];
uint64_t result[N + GUARD];
uint8_t file[LEN];
static unsigned failures;

void fill(void)
{
    memset(image, 0xa5, sizeof image);
    memset(map, 0xa5, sizeof map);
    memset(list, 0xa5, sizeof list);
}

void expect(int holds, const char *what)
{
    if (!holds) {
        fprintf(stderr, "check_c: %s\n", what);
        failures++;
    }
}

uint64_t *clear(void)
{
    memset(result, 0xa5, sizeof result);
    return result;
}

void equals(const char *what, const char *part, size_t i, uint64_t number, uint64_t expected)
{
    if (number != expected) {
        fprintf(stderr, "check_c: %s: %s %u is %" PRIu64 ", not %" PRIu64 "\n", what, part, (unsigned)i, number,
                expected);
        failures++;
    }
}

void has_values(const char *what, uint32_t code, uint32_t expected, size_t count, const uint64_t *values)
{
    size_t i;

    equals(what, "code", 0, code, expected);
    for (i = 0; i < sizeof result / sizeof result[0]; i++) {
        equals(what, "value", i, result[i], i < count ? values[i] : FILLED);
    }
}

void answers(const char *what, uint32_t code, uint32_t expected, size_t count, uint64_t a, uint64_t b, uint64_t c)
{
    const uint64_t values[3] = {a, b, c};

    has_values(what, code, expected, count, values);
}

void refused(const char *what, uint32_t code, uint32_t expected, uint64_t value, uint64_t entry)
{
    answers(what, code, expected, 2, value, entry, 0);
}

void put16(size_t at, uint32_t n)
{
    file[at] = (uint8_t)n;
    file[at + 1] = (uint8_t)(n >> 8);
}

void put32(size_t at, uint32_t n)
{
    size_t i;

    for (i = 0; i < 4; i++) {
        file[at + i] = (uint8_t)(n >> (8 * i));
    }
}

void make_file(void)
{
    memset(file, 0, sizeof file);
    put32(0x04, 512);
    put32(0x08, 1);
    put32(0x1c, SARVOLTIG_TABLE_GENRES);
    put32(0x24, 1);
    put32(0x28, 2);
    put32(512 + 0x04, 1);
    put32(512 + 0x08, SARVOLTIG_TABLE_GENRES);
    put32(512 + 0x0c, 2);
    file[512 + 0x1b] = 0x64;
    put32(1024 + 0x04, 2);
    put32(1024 + 0x08, SARVOLTIG_TABLE_GENRES);
    file[1024 + 0x18] = 2;
    file[1024 + 0x19] = 0x20;
    file[1024 + 0x1b] = 0x24;
    put32(1024 + 0x28 + 16, 7);
    memcpy(&file[1024 + 0x28 + 20], "\x0b\x46unk", 5);
    file[1536 - 4] = 0x02;
    file[1536 - 8] = 16;
}

uint32_t open_intake(void)
{
    return sarvoltig_open(LEN, image, LEN, map, 1, clear(), N);
}

uint32_t deliver(uint64_t block, const uint8_t *piece, size_t piece_len)
{
    return sarvoltig_deliver(LEN, image, LEN, map, 1, block, piece, piece_len, clear(), N);
}

uint32_t rows(uint32_t table, size_t length)
{
    return sarvoltig_rows(LEN, image, LEN, map, 1, table, list, length, clear(), N);
}

uint32_t record(uint32_t table, uint64_t k)
{
    return sarvoltig_record(LEN, image, LEN, map, 1, table, k, clear(), N);
}

uint32_t text(uint32_t table, uint64_t k, uint64_t slot)
{
    return sarvoltig_text(LEN, image, LEN, map, 1, table, k, slot, clear(), N);
}

uint32_t record_in(uint32_t table, size_t length, uint64_t i)
{
    return sarvoltig_record_in(LEN, image, LEN, map, 1, table, list, length, i, clear(), N);
}

uint32_t text_in(uint32_t table, size_t length, uint64_t i, uint64_t slot)
{
    return sarvoltig_text_in(LEN, image, LEN, map, 1, table, list, length, i, slot, clear(), N);
}

void take_in_file(void)
{
    uint64_t block;

    answers("opening", open_intake(), SARVOLTIG_CODE_DONE, 1, 3, 0, 0);
    for (block = 0; block < 3; block++) {
        answers("a block", deliver(block, file + 512 * block, 512), SARVOLTIG_CODE_DONE, 1, block + 1, 0, 0);
    }
}

static void guards_hold(void)
{
    size_t i;

    for (i = 0; i < GUARD; i++) {
        expect(image[LEN + i] == 0xa5 && map[1 + i] == FILLED && list[ROWS + i] == 0xa5a5a5a5u,
               "nothing is written behind a slice");
    }
}

int main(void)
{
    static void (*const parts[])(void) = {check_case_d,  check_packets, check_rows,  check_codes, check_fetching,
                                          check_intakes, check_texts,   check_sizes, check_beats, check_cues,
                                          check_names};
    size_t i;

    for (i = 0; i < sizeof parts / sizeof parts[0]; i++) {
        fill();
        make_file();
        parts[i]();
        guards_hold();
    }
    if (failures == 0) {
        puts("check_c: the C interface answers as the rules say");
    }
    return failures != 0;
}
