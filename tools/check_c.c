/*
 * Runs case D (rule 9.11), block by block and in packets, the same with other row counts and page headers, rows of
 * several tables with absent entries and two for one row, a track with a recording code, a small ANLZ file with beats
 * and one with cues and waveforms through the C interface. Every slice that is written has guard elements behind it:
 * each call has to give the code and the values of the rules, and to leave everything else as it was.
 */
#include <inttypes.h>
#include <stdint.h>
#include <stdio.h>
#include <string.h>

#include "sarvoltig.h"

enum { LEN = 1536, ROWS = 4, GUARD = 4 };

/* The most blocks of a packet, and its bytes, with one more that a packet may be wrong by. */
enum { PACKET = 8, PACKET_BYTES = PACKET * SARVOLTIG_BLOCK + 1 };

/* The track of an export of one track: where its row starts, the offset of a string in it, and the string's place. */
enum { TRACK = 512 + 0x28, STRING = 0x88, STRING_PLACE = TRACK + STRING };

/* An ANLZ file and the places of its sections: one of an unknown code, the grid, and one behind it; the grid's beats. */
enum { ANLZ_LEN = 0x70, UNKNOWN = 0x1c, GRID = 0x28, BEATS = 0x40, BEHIND = 0x58 };

/*
 * An ANLZ file of cues and waveforms, the places of its sections, and the length of a cue: hot cues, a point and a loop,
 * a waveform of each sort, a memory loop, and a list of no cues.
 */
enum { HOT = 0x0c, DETAIL = 0x94, MEMORY = 0xae, COLOR = 0xfe, EMPTY = 0x11a, PREVIEW = 0x132, MARKED_LEN = 0x1d6a };
enum { CUE = 0x38, PREVIEW_ENTRIES = 1200 };

static uint8_t image[LEN + GUARD];
static uint64_t map[1 + GUARD];
static uint32_t list[ROWS + GUARD];
static uint32_t codes[PACKET + GUARD];
static uint64_t result[SARVOLTIG_RESULT + GUARD];
static uint8_t file[LEN];
static uint8_t anlz[ANLZ_LEN];
static uint8_t marked[MARKED_LEN];
static unsigned failures;

/* What the buffers hold where nothing was written. */
static void fill(void)
{
    memset(image, 0xa5, sizeof image);
    memset(map, 0xa5, sizeof map);
    memset(list, 0xa5, sizeof list);
    memset(codes, 0xa5, sizeof codes);
}

static void expect(int holds, const char *what)
{
    if (!holds) {
        fprintf(stderr, "check_c: %s\n", what);
        failures++;
    }
}

/* Clears the result before a call. */
static uint64_t *clear(void)
{
    memset(result, 0xa5, sizeof result);
    return result;
}

/* The call's code and values; what stands behind the values is as before the call. */
static void has_values(const char *what, uint32_t code, uint32_t expected, size_t count, const uint64_t *values)
{
    size_t i;

    if (code != expected) {
        fprintf(stderr, "check_c: %s: code %" PRIu32 ", not %" PRIu32 "\n", what, code, expected);
        failures++;
    }
    for (i = 0; i < sizeof result / sizeof result[0]; i++) {
        uint64_t value = i < count ? values[i] : 0xa5a5a5a5a5a5a5a5u;

        if (result[i] != value) {
            fprintf(stderr, "check_c: %s: value %u is %" PRIu64 ", not %" PRIu64 "\n", what, (unsigned)i, result[i], value);
            failures++;
        }
    }
}

/* The call's code and up to three values. */
static void answers(const char *what, uint32_t code, uint32_t expected, size_t count, uint64_t a, uint64_t b, uint64_t c)
{
    const uint64_t values[3] = {a, b, c};

    has_values(what, code, expected, count, values);
}

/* A refusal writes its value and its entry. */
static void refused(const char *what, uint32_t code, uint32_t expected, uint64_t value, uint64_t entry)
{
    answers(what, code, expected, 2, value, entry, 0);
}

static void put16(size_t at, uint32_t n)
{
    file[at] = (uint8_t)n;
    file[at + 1] = (uint8_t)(n >> 8);
}

static void put32(size_t at, uint32_t n)
{
    size_t i;

    for (i = 0; i < 4; i++) {
        file[at + i] = (uint8_t)(n >> (8 * i));
    }
}

static void make_file(void)
{
    memset(file, 0, sizeof file);
    put32(0x04, 512);
    put32(0x08, 1);
    put32(0x1c, SARVOLTIG_GENRES);
    put32(0x24, 1);
    put32(0x28, 2);
    put32(512 + 0x04, 1);
    put32(512 + 0x08, SARVOLTIG_GENRES);
    put32(512 + 0x0c, 2);
    file[512 + 0x1b] = 0x64;
    put32(1024 + 0x04, 2);
    put32(1024 + 0x08, SARVOLTIG_GENRES);
    file[1024 + 0x18] = 2;
    file[1024 + 0x19] = 0x20;
    file[1024 + 0x1b] = 0x24;
    put32(1024 + 0x28 + 16, 7);
    memcpy(&file[1024 + 0x28 + 20], "\x0b" "Funk", 5);
    file[1536 - 4] = 0x02;
    file[1536 - 8] = 16;
}

static uint32_t deliver(uint64_t block, const uint8_t *piece, size_t piece_len)
{
    return sarvoltig_deliver(LEN, image, LEN, map, 1, block, piece, piece_len, clear(), SARVOLTIG_RESULT);
}

/* A packet: the numbers of its blocks, and the block of the file whose bytes each brings. */
typedef struct {
    size_t count;
    uint64_t blocks[PACKET];
    size_t brings[PACKET];
} Packet;

/* The pieces of a packet, end to end. */
static const uint8_t *pieces_of(const Packet *p)
{
    static uint8_t pieces[PACKET_BYTES];
    size_t i;

    for (i = 0; i < p->count; i++) {
        memcpy(pieces + 512 * i, file + 512 * p->brings[i], 512);
    }
    return pieces;
}

/* Delivers a packet of so many bytes, with a slice of so many codes. */
static uint32_t packet(const Packet *p, size_t pieces_len, size_t codes_len)
{
    memset(codes, 0xa5, sizeof codes);
    return sarvoltig_packet(LEN, image, LEN, map, 1, p->blocks, p->count, pieces_of(p), pieces_len, codes, codes_len, clear(),
                            SARVOLTIG_RESULT);
}

/* The codes of a packet's blocks; what stands behind them is as before the call. */
static void has_codes(const char *what, size_t count, const uint32_t *expected)
{
    size_t i;

    for (i = 0; i < sizeof codes / sizeof codes[0]; i++) {
        uint32_t code = i < count ? expected[i] : 0xa5a5a5a5u;

        if (codes[i] != code) {
            fprintf(stderr, "check_c: %s: code %u is %" PRIu32 ", not %" PRIu32 "\n", what, (unsigned)i, codes[i], code);
            failures++;
        }
    }
}

static uint32_t rows(uint32_t table, size_t length)
{
    return sarvoltig_rows(LEN, image, LEN, map, 1, table, list, length, clear(), SARVOLTIG_RESULT);
}

static uint32_t record(uint32_t table, uint64_t k)
{
    return sarvoltig_record(LEN, image, LEN, map, 1, table, k, clear(), SARVOLTIG_RESULT);
}

static uint32_t text(uint32_t table, uint64_t k, uint64_t slot)
{
    return sarvoltig_text(LEN, image, LEN, map, 1, table, k, slot, clear(), SARVOLTIG_RESULT);
}

static uint32_t record_in(uint32_t table, size_t length, uint64_t i)
{
    return sarvoltig_record_in(LEN, image, LEN, map, 1, table, list, length, i, clear(), SARVOLTIG_RESULT);
}

static uint32_t text_in(uint32_t table, size_t length, uint64_t i, uint64_t slot)
{
    return sarvoltig_text_in(LEN, image, LEN, map, 1, table, list, length, i, slot, clear(), SARVOLTIG_RESULT);
}

static void run_intake(void)
{
    refused("delivery before any opening",
            sarvoltig_deliver(0, image, LEN, map, 1, 0, file, 512, clear(), SARVOLTIG_RESULT), SARVOLTIG_LENGTH, 0, 0);
    refused("opening of no file", sarvoltig_open(0, image, LEN, map, 1, clear(), SARVOLTIG_RESULT), SARVOLTIG_LENGTH, 0,
            0);
    refused("opening with a short image", sarvoltig_open(LEN, image, LEN - 1, map, 1, clear(), SARVOLTIG_RESULT),
            SARVOLTIG_IMAGE_SHORT, 0, 0);
    refused("opening with no map", sarvoltig_open(LEN, image, LEN, map, 0, clear(), SARVOLTIG_RESULT),
            SARVOLTIG_MAP_SHORT, 0, 0);
    expect(map[0] == 0xa5a5a5a5a5a5a5a5u, "a refused opening leaves the map");
    answers("opening", sarvoltig_open(LEN, image, LEN, map, 1, clear(), SARVOLTIG_RESULT), SARVOLTIG_DONE, 1, 3, 0, 0);
    expect(map[0] == 0, "an opening clears the map");
    answers("rows before any block", rows(SARVOLTIG_GENRES, ROWS), SARVOLTIG_WAITING, 3, 0, 0, 0);
    answers("block 2", deliver(2, file + 1024, 512), SARVOLTIG_DONE, 1, 1, 0, 0);
    answers("block 0", deliver(0, file, 512), SARVOLTIG_DONE, 1, 2, 0, 0);
    answers("rows with page 1 missing", rows(SARVOLTIG_GENRES, ROWS), SARVOLTIG_WAITING, 3, 0, 0, 1);
    answers("record with page 1 missing", record(SARVOLTIG_GENRES, 0), SARVOLTIG_WAITING, 3, 0, 0, 1);
    answers("text with page 1 missing", text(SARVOLTIG_GENRES, 0, 0), SARVOLTIG_WAITING, 3, 0, 0, 1);
    answers("block 0 again", deliver(0, file, 512), SARVOLTIG_SAME, 1, 2, 0, 0);
    refused("block 0 with other bytes", deliver(0, file + 512, 512), SARVOLTIG_BLOCK_DIFFERS, 0, 0);
    refused("block 3", deliver(3, file, 512), SARVOLTIG_BLOCK_NUMBER, 0, 0);
    refused("block 2^40", deliver((uint64_t)1 << 40, file, 512), SARVOLTIG_BLOCK_NUMBER, 0, 0);
    refused("a short piece", deliver(1, file, 511), SARVOLTIG_PIECE_SIZE, 0, 0);
    expect(map[0] == 5, "the map has blocks 0 and 2");
    answers("block 1", deliver(1, file + 512, 512), SARVOLTIG_DONE, 1, 3, 0, 0);
    expect(map[0] == 7 && memcmp(image, file, LEN) == 0, "the image is the file");
}

static void run_questions(void)
{
    refused("rows for no list", rows(SARVOLTIG_GENRES, 0), SARVOLTIG_LIST_SHORT, 1, 0);
    expect(list[0] == 0xa5a5a5a5u, "a refusal leaves the list");
    answers("rows", rows(SARVOLTIG_GENRES, ROWS), SARVOLTIG_DONE, 2, 1, 2, 0);
    expect(list[0] == 1080 && list[1] == 0xa5a5a5a5u, "the list has the row's place, and no other");
    refused("rows of an unknown table", rows(9, ROWS), SARVOLTIG_TABLE_TYPE, 0, 0);
    refused("rows of table 2^32 - 1", rows(UINT32_MAX, ROWS), SARVOLTIG_TABLE_TYPE, 0, 0);
    refused("rows of a table with no pointer", rows(SARVOLTIG_TRACKS, ROWS), SARVOLTIG_NO_POINTER, 0, 0);
    answers("record 0", record(SARVOLTIG_GENRES, 0), SARVOLTIG_DONE, 3, 2, 1, 7);
    refused("record 1", record(SARVOLTIG_GENRES, 1), SARVOLTIG_NO_ROW, 0, 0);
    refused("record 2^32", record(SARVOLTIG_GENRES, (uint64_t)1 << 32), SARVOLTIG_NO_ROW, 0, 0);
    answers("text", text(SARVOLTIG_GENRES, 0, 0), SARVOLTIG_DONE, 3, 1085, 4, SARVOLTIG_ASCII);
    expect(memcmp(image + 1085, "Funk", 4) == 0, "the text is Funk");
    refused("text of slot 1", text(SARVOLTIG_GENRES, 0, 1), SARVOLTIG_NO_SLOT, 0, 0);
    refused("text of slot 2^32", text(SARVOLTIG_GENRES, 0, (uint64_t)1 << 32), SARVOLTIG_NO_SLOT, 0, 0);
    answers("text with a result of two",
            sarvoltig_text(LEN, image, LEN, map, 1, SARVOLTIG_GENRES, 0, 0, clear(), 2), SARVOLTIG_DONE, 2, 1085, 4, 0);
    answers("text with no result", sarvoltig_text(LEN, image, LEN, map, 1, SARVOLTIG_GENRES, 0, 0, clear(), 0), SARVOLTIG_DONE, 0,
            0, 0, 0);
    expect(map[0] == 7 && memcmp(image, file, LEN) == 0, "a question leaves image and map");
}

/* The list has the row's place, then elements that the question for all rows left as they were. */
static void run_lists(void)
{
    answers("record in the list", record_in(SARVOLTIG_GENRES, ROWS, 0), SARVOLTIG_DONE, 3, 2, 1, 7);
    answers("text in the list", text_in(SARVOLTIG_GENRES, ROWS, 0, 0), SARVOLTIG_DONE, 3, 1085, 4, SARVOLTIG_ASCII);
    answers("record in a list of one", record_in(SARVOLTIG_GENRES, 1, 0), SARVOLTIG_DONE, 3, 2, 1, 7);
    refused("record in no list", record_in(SARVOLTIG_GENRES, 0, 0), SARVOLTIG_NO_ROW, 0, 0);
    refused("record past the list", record_in(SARVOLTIG_GENRES, 1, 1), SARVOLTIG_NO_ROW, 0, 0);
    refused("text past the list", text_in(SARVOLTIG_GENRES, 1, 1, 0), SARVOLTIG_NO_ROW, 0, 0);
    refused("record in the list, 2^32", record_in(SARVOLTIG_GENRES, ROWS, (uint64_t)1 << 32), SARVOLTIG_NO_ROW, 0, 0);
    refused("text in the list, 2^64 - 1", text_in(SARVOLTIG_GENRES, ROWS, UINT64_MAX, 0), SARVOLTIG_NO_ROW, 0, 0);
    refused("text in the list of slot 1", text_in(SARVOLTIG_GENRES, ROWS, 0, 1), SARVOLTIG_NO_SLOT, 0, 0);
    refused("text in the list of slot 2^32", text_in(SARVOLTIG_GENRES, ROWS, 0, (uint64_t)1 << 32), SARVOLTIG_NO_SLOT,
            0, 0);
    refused("text past the list of slot 1", text_in(SARVOLTIG_GENRES, 1, 1, 1), SARVOLTIG_NO_SLOT, 0, 0);
    refused("record in the list of an unknown table", record_in(9, ROWS, 0), SARVOLTIG_TABLE_TYPE, 0, 0);
    refused("text in the list of table 2^32 - 1", text_in(UINT32_MAX, ROWS, 0, 1), SARVOLTIG_TABLE_TYPE, 0, 0);
    refused("record in the list of another table", record_in(SARVOLTIG_KEYS, ROWS, 0), SARVOLTIG_PAGE_TYPE, 2, 0);
    refused("text in the list of another table", text_in(SARVOLTIG_KEYS, ROWS, 0, 0), SARVOLTIG_PAGE_TYPE, 2, 0);
    refused("record in a list, with no file",
            sarvoltig_record_in(0, image, LEN, map, 1, SARVOLTIG_GENRES, list, ROWS, 0, clear(), SARVOLTIG_RESULT),
            SARVOLTIG_LENGTH, 0, 0);
    refused("text in a list, with no map",
            sarvoltig_text_in(LEN, image, LEN, map, 0, SARVOLTIG_GENRES, list, ROWS, 0, 0, clear(), SARVOLTIG_RESULT),
            SARVOLTIG_MAP_SHORT, 0, 0);
}

static void run_list_results(void)
{
    answers("record in the list with no result",
            sarvoltig_record_in(LEN, image, LEN, map, 1, SARVOLTIG_GENRES, list, ROWS, 0, clear(), 0), SARVOLTIG_DONE, 0, 0, 0, 0);
    answers("text in the list with a result of two",
            sarvoltig_text_in(LEN, image, LEN, map, 1, SARVOLTIG_GENRES, list, ROWS, 0, 0, clear(), 2), SARVOLTIG_DONE, 2, 1085, 4,
            0);
    answers("text in the list with no result",
            sarvoltig_text_in(LEN, image, LEN, map, 1, SARVOLTIG_GENRES, list, ROWS, 0, 0, clear(), 0), SARVOLTIG_DONE, 0, 0, 0, 0);
    expect(map[0] == 7 && memcmp(image, file, LEN) == 0, "reading from a list leaves image and map");
    expect(list[0] == 1080 && list[1] == 0xa5a5a5a5u, "reading from a list leaves the list");
}

/* Lists that no question wrote. */
static void run_wrong_lists(void)
{
    static const uint32_t wrong[] = {1064, 1079, 1081, 0, 511, 552, 1535, 1536, UINT32_MAX};
    size_t i;

    for (i = 0; i < sizeof wrong / sizeof wrong[0]; i++) {
        list[0] = wrong[i];
        refused("record at a wrong place", record_in(SARVOLTIG_GENRES, ROWS, 0), SARVOLTIG_NO_ROW, 0, 0);
        refused("text at a wrong place", text_in(SARVOLTIG_GENRES, ROWS, 0, 0), SARVOLTIG_NO_ROW, 0, 0);
        expect(list[0] == wrong[i], "a refusal leaves the list that it reads");
    }
    list[1] = 1080;
    answers("record behind a place on another page", record_in(SARVOLTIG_GENRES, ROWS, 1), SARVOLTIG_DONE, 3, 2, 1, 7);
    list[0] = 1080;
    refused("record at a repeated place", record_in(SARVOLTIG_GENRES, ROWS, 1), SARVOLTIG_NO_ROW, 0, 0);
    refused("text at a repeated place", text_in(SARVOLTIG_GENRES, ROWS, 1, 0), SARVOLTIG_NO_ROW, 0, 0);
    expect(list[0] == 1080 && list[1] == 1080 && list[2] == 0xa5a5a5a5u, "reading from a list leaves the list");
}

/* A new intake over the same buffers: the image has the file, but its blocks are not held. */
static void run_list_waits(void)
{
    answers("opening again", sarvoltig_open(LEN, image, LEN, map, 1, clear(), SARVOLTIG_RESULT), SARVOLTIG_DONE, 1, 3, 0, 0);
    answers("record in a list before any block", record_in(SARVOLTIG_GENRES, ROWS, 0), SARVOLTIG_WAITING, 3, 0, 0, 0);
    answers("text past a list before any block", text_in(SARVOLTIG_GENRES, 1, 1, 0), SARVOLTIG_WAITING, 3, 0, 0, 0);
    answers("block 0", deliver(0, file, 512), SARVOLTIG_DONE, 1, 1, 0, 0);
    answers("record in a list with page 2 missing", record_in(SARVOLTIG_GENRES, ROWS, 0), SARVOLTIG_WAITING, 3, 0, 0, 2);
    answers("text in a list with page 2 missing", text_in(SARVOLTIG_GENRES, ROWS, 0, 0), SARVOLTIG_WAITING, 3, 0, 0, 2);
    refused("text past a list with page 2 missing", text_in(SARVOLTIG_GENRES, 1, 1, 0), SARVOLTIG_NO_ROW, 0, 0);
    answers("block 2", deliver(2, file + 1024, 512), SARVOLTIG_DONE, 1, 2, 0, 0);
    answers("record in a list with page 1 missing", record_in(SARVOLTIG_GENRES, ROWS, 0), SARVOLTIG_DONE, 3, 2, 1, 7);
    answers("text in a list with page 1 missing", text_in(SARVOLTIG_GENRES, ROWS, 0, 0), SARVOLTIG_DONE, 3, 1085, 4,
            SARVOLTIG_ASCII);
    expect(map[0] == 5 && list[0] == 1080, "reading from a list leaves map and list, also when it waits");
}

/* The row counts of page 2: its second entry is present, and no other. */
static const struct {
    const char *what;
    uint8_t bytes[3];
    uint32_t code;
} counts[] = {
    {"two entries, one row", {0x02, 0x20, 0x00}, SARVOLTIG_DONE},
    {"16 entries, one row", {0x10, 0x20, 0x00}, SARVOLTIG_DONE},
    {"17 entries, one row", {0x11, 0x20, 0x00}, SARVOLTIG_DONE},
    {"two entries, no row", {0x02, 0x00, 0x00}, SARVOLTIG_ROW_INDEX},
    {"two entries, two rows", {0x02, 0x40, 0x00}, SARVOLTIG_ROW_INDEX},
    {"two entries, 1,025 rows", {0x02, 0x20, 0x80}, SARVOLTIG_ROW_INDEX},
    {"one entry, one row", {0x01, 0x20, 0x00}, SARVOLTIG_ROW_INDEX},
    {"8,191 entries, one row", {0xff, 0x3f, 0x00}, SARVOLTIG_ROW_INDEX},
};

static void take_in_file(void)
{
    uint64_t block;

    answers("opening", sarvoltig_open(LEN, image, LEN, map, 1, clear(), SARVOLTIG_RESULT), SARVOLTIG_DONE, 1, 3, 0, 0);
    for (block = 0; block < 3; block++) {
        answers("a block", deliver(block, file + 512 * block, 512), SARVOLTIG_DONE, 1, block + 1, 0, 0);
    }
}

/* Each by the questions and from a list. Bytes 22 and 23 of a page mean nothing. */
static void run_counts(void)
{
    size_t i;

    for (i = 0; i < sizeof counts / sizeof counts[0]; i++) {
        const char *what = counts[i].what;

        make_file();
        memcpy(&file[1024 + 0x18], counts[i].bytes, 3);
        memset(&file[1024 + 0x22], (int)i, 2);
        take_in_file();
        if (counts[i].code == SARVOLTIG_DONE) {
            list[0] = 0;
            answers(what, rows(SARVOLTIG_GENRES, ROWS), SARVOLTIG_DONE, 2, 1, 2, 0);
            expect(list[0] == 1080, "the list has the row's place");
            answers(what, record(SARVOLTIG_GENRES, 0), SARVOLTIG_DONE, 3, 2, 1, 7);
            answers(what, record_in(SARVOLTIG_GENRES, ROWS, 0), SARVOLTIG_DONE, 3, 2, 1, 7);
        } else {
            list[0] = 1080;
            refused(what, rows(SARVOLTIG_GENRES, ROWS), counts[i].code, 2, 0);
            refused(what, record(SARVOLTIG_GENRES, 0), counts[i].code, 2, 0);
            refused(what, record_in(SARVOLTIG_GENRES, ROWS, 0), counts[i].code, 2, 0);
        }
    }
}

/* Wrong fields of a page's header: what is added to page_index, the type, and page_flags. */
static const struct {
    const char *what;
    uint32_t more;
    uint32_t type;
    uint8_t page_flags;
    uint32_t code;
} headers[] = {
    {"another page", 1, SARVOLTIG_GENRES, 0x24, SARVOLTIG_PAGE_NUMBER},
    {"a page 2^24 behind", 1u << 24, SARVOLTIG_GENRES, 0x24, SARVOLTIG_PAGE_NUMBER},
    {"another table", 0, SARVOLTIG_KEYS, 0x24, SARVOLTIG_PAGE_TYPE},
    {"no table", 0, SARVOLTIG_GENRES + (1u << 24), 0x24, SARVOLTIG_PAGE_TYPE},
    {"another page of another table", 1, SARVOLTIG_KEYS, 0x24, SARVOLTIG_PAGE_NUMBER},
    {"another page with no rows", 1, SARVOLTIG_GENRES, 0x64, SARVOLTIG_PAGE_NUMBER},
    {"a page with no rows of another table", 0, SARVOLTIG_KEYS, 0x64, SARVOLTIG_PAGE_TYPE},
    {"another page with no rows of another table", 1, SARVOLTIG_KEYS, 0x64, SARVOLTIG_PAGE_NUMBER},
};

/* Case D with such a header, and row counts that are wrong too. */
static void take_in_header(size_t i, uint32_t page)
{
    size_t at = 512 * page;

    make_file();
    put32(at + 0x04, page + headers[i].more);
    put32(at + 0x08, headers[i].type);
    put32(at + 0x18, 2 + (3 << 13));
    file[at + 0x1b] = headers[i].page_flags;
    take_in_file();
    list[0] = 1080;
}

/* On page 1, which has no rows, and on page 2, which is the only one that reading from the list looks at. */
static void run_headers(void)
{
    size_t i;

    for (i = 0; i < sizeof headers / sizeof headers[0]; i++) {
        const char *what = headers[i].what;
        uint32_t page;

        for (page = 1; page <= 2; page++) {
            take_in_header(i, page);
            refused(what, rows(SARVOLTIG_GENRES, ROWS), headers[i].code, page, 0);
            refused(what, record(SARVOLTIG_GENRES, 0), headers[i].code, page, 0);
            refused(what, text(SARVOLTIG_GENRES, 0, 0), headers[i].code, page, 0);
            if (page == 1) {
                answers(what, record_in(SARVOLTIG_GENRES, 1, 0), SARVOLTIG_DONE, 3, 2, 1, 7);
                answers(what, text_in(SARVOLTIG_GENRES, 1, 0, 0), SARVOLTIG_DONE, 3, 1085, 4, SARVOLTIG_ASCII);
            } else {
                refused(what, record_in(SARVOLTIG_GENRES, 1, 0), headers[i].code, 2, 0);
                refused(what, text_in(SARVOLTIG_GENRES, 1, 0, 0), headers[i].code, 2, 0);
            }
        }
    }
}

/* A number of a record: its place in the result, its offset in the row, and itself. */
typedef struct {
    size_t place;
    size_t offset;
    uint32_t number;
} Number;

/* Rows of one table, and the numbers of their records, by offset. */
typedef struct {
    const char *what;
    uint32_t table;
    size_t empty; /* the offset of an empty string */
    size_t count;
    Number numbers[SARVOLTIG_RESULT];
} Record;

static const Record records[] = {
    {"a genre", SARVOLTIG_GENRES, 0x04, 1, {{SARVOLTIG_ROW_NUMBERS, 0x00, 0xf1020304}}},
    {"an album", SARVOLTIG_ALBUMS, 0x00, 2,
     {{SARVOLTIG_ROW_NUMBERS, 0x08, 0xf1000008}, {SARVOLTIG_ROW_NUMBERS + 1, 0x0c, 0xf100000c}}},
    {"a color", SARVOLTIG_COLORS, 0x08, 1, {{SARVOLTIG_ROW_NUMBERS, 0x05, 0xf105}}},
    {"a playlist", SARVOLTIG_PLAYLIST_TREE, 0x14, 4,
     {{SARVOLTIG_NODE_PARENT_ID, 0x00, 0xf1000000},
      {SARVOLTIG_NODE_SORT_ORDER, 0x08, 0xf1000008},
      {SARVOLTIG_NODE_ID, 0x0c, 0xf100000c},
      {SARVOLTIG_NODE_RAW_IS_FOLDER, 0x10, 0xf1000010}}},
    {"an entry of a playlist", SARVOLTIG_PLAYLIST_ENTRIES, 0x0c, 3,
     {{SARVOLTIG_ENTRY_INDEX, 0x00, 0xf1000000},
      {SARVOLTIG_ENTRY_TRACK_ID, 0x04, 0xf1000004},
      {SARVOLTIG_ENTRY_PLAYLIST_ID, 0x08, 0xf1000008}}},
    {"a track", SARVOLTIG_TRACKS, 0x00, 22,
     {{SARVOLTIG_TRACK_SAMPLE_RATE, 0x08, 0xf1000008},
      {SARVOLTIG_TRACK_COMPOSER_ID, 0x0c, 0xf100000c},
      {SARVOLTIG_TRACK_FILE_SIZE, 0x10, 0xf1000010},
      {SARVOLTIG_TRACK_ARTWORK_ID, 0x1c, 0xf100001c},
      {SARVOLTIG_TRACK_KEY_ID, 0x20, 0xf1000020},
      {SARVOLTIG_TRACK_ORIGINAL_ARTIST_ID, 0x24, 0xf1000024},
      {SARVOLTIG_TRACK_LABEL_ID, 0x28, 0xf1000028},
      {SARVOLTIG_TRACK_REMIXER_ID, 0x2c, 0xf100002c},
      {SARVOLTIG_TRACK_BITRATE, 0x30, 0xf1000030},
      {SARVOLTIG_TRACK_TRACK_NUMBER, 0x34, 0xf1000034},
      {SARVOLTIG_TRACK_TEMPO, 0x38, 0xf1000038},
      {SARVOLTIG_TRACK_GENRE_ID, 0x3c, 0xf100003c},
      {SARVOLTIG_TRACK_ALBUM_ID, 0x40, 0xf1000040},
      {SARVOLTIG_TRACK_ARTIST_ID, 0x44, 0xf1000044},
      {SARVOLTIG_TRACK_ID, 0x48, 0xf1000048},
      {SARVOLTIG_TRACK_DISC_NUMBER, 0x4c, 0xf14c},
      {SARVOLTIG_TRACK_PLAY_COUNT, 0x4e, 0xf14e},
      {SARVOLTIG_TRACK_YEAR, 0x50, 0xf150},
      {SARVOLTIG_TRACK_SAMPLE_DEPTH, 0x52, 0xf152},
      {SARVOLTIG_TRACK_DURATION, 0x54, 0xf154},
      {SARVOLTIG_TRACK_COLOR_ID, 0x58, 0x58},
      {SARVOLTIG_TRACK_RATING, 0x59, 0xf1}}},
};

/* Page and index entry of the rows of an export of one table. */
static const uint64_t named[3][2] = {{1, 0}, {2, 1}, {2, 17}};

/* Where these rows start, and where the offsets of the last two stand. */
enum { FIRST = 512 + 0x28, SECOND = 1024 + 0x28, OFFSET_1 = 1536 - 8, OFFSET_17 = 1536 - 36 - 8 };

/* An export of one table: page 1 has one index entry, page 2 has 18, of which 1 and 17 are present and name one row. */
static void make_rows(const Record *r)
{
    size_t i;

    memset(file, 0, sizeof file);
    put32(0x04, 512);
    put32(0x08, 1);
    put32(0x1c, r->table);
    put32(0x24, 1);
    put32(0x28, 2);
    put32(512 + 0x04, 1);
    put32(512 + 0x08, r->table);
    put32(512 + 0x0c, 2);
    put32(512 + 0x18, 1 + (1 << 13));
    file[1024 - 4] = 0x01;
    put32(1024 + 0x04, 2);
    put32(1024 + 0x08, r->table);
    put32(1024 + 0x18, 18 + (2 << 13));
    file[1536 - 4] = 0x02;
    file[1536 - 36 - 4] = 0x02;
    for (i = 0; i < r->count; i++) {
        put32(FIRST + r->numbers[i].offset, r->numbers[i].number);
        put32(SECOND + r->numbers[i].offset, r->numbers[i].number);
    }
    file[FIRST + r->empty] = 0x03;
    file[SECOND + r->empty] = 0x03;
}

/* Record k by the question and from the list, into results of every length. */
static void has_record(const Record *r, uint64_t k)
{
    uint64_t values[SARVOLTIG_RESULT] = {0};
    size_t count = 2 + r->count;
    size_t i;

    values[0] = named[k][0];
    values[1] = named[k][1];
    for (i = 0; i < r->count; i++) {
        values[r->numbers[i].place] = r->numbers[i].number;
    }
    for (i = 0; i <= SARVOLTIG_RESULT; i++) {
        size_t taken = i < count ? i : count;

        has_values(r->what, sarvoltig_record(LEN, image, LEN, map, 1, r->table, k, clear(), i), SARVOLTIG_DONE, taken,
                   values);
        has_values(r->what, sarvoltig_record_in(LEN, image, LEN, map, 1, r->table, list, ROWS, k, clear(), i),
                   SARVOLTIG_DONE, taken, values);
    }
}

/* A row that two entries name is found twice, each time with its own entry. */
static void run_records(void)
{
    size_t i;
    uint64_t k;

    for (i = 0; i < sizeof records / sizeof records[0]; i++) {
        const Record *r = &records[i];

        make_rows(r);
        take_in_file();
        answers(r->what, rows(r->table, ROWS), SARVOLTIG_DONE, 2, 3, 2, 0);
        expect(list[0] == FIRST && list[1] == SECOND && list[2] == SECOND, "two entries name one row");
        for (k = 0; k < 3; k++) {
            has_record(r, k);
        }
        refused(r->what, record(r->table, 3), SARVOLTIG_NO_ROW, 0, 0);
    }
}

/*
 * Genres with other offsets for entries 1 and 17 of page 2, and the code of each. At 0 is a row, at 16 one whose string
 * is malformed; at 424 the row fits before the index and its string does not; from 425 on no row fits.
 */
static const struct {
    const char *what;
    uint32_t offsets[2];
    uint32_t codes[2];
} row_faults[] = {
    {"entry 1 does not fit", {425, 0}, {SARVOLTIG_ROW_SHORT, SARVOLTIG_DONE}},
    {"entry 17 does not fit", {0, 425}, {SARVOLTIG_DONE, SARVOLTIG_ROW_SHORT}},
    {"a malformed string of entry 1", {16, 0}, {SARVOLTIG_TEXT_FAULT, SARVOLTIG_DONE}},
    {"a malformed string of entry 17", {0, 16}, {SARVOLTIG_DONE, SARVOLTIG_TEXT_FAULT}},
    {"a string of entry 17 outside", {0, 424}, {SARVOLTIG_DONE, SARVOLTIG_TEXT_FAULT}},
    {"neither fits", {425, 470}, {SARVOLTIG_ROW_SHORT, SARVOLTIG_ROW_SHORT}},
    {"a malformed string, then a row that does not fit", {16, 425}, {SARVOLTIG_TEXT_FAULT, SARVOLTIG_ROW_SHORT}},
    {"a row that does not fit, then a malformed string", {425, 16}, {SARVOLTIG_ROW_SHORT, SARVOLTIG_TEXT_FAULT}},
};

static void take_in_row_fault(size_t i)
{
    make_rows(&records[0]);
    put16(OFFSET_1, row_faults[i].offsets[0]);
    put16(OFFSET_17, row_faults[i].offsets[1]);
    take_in_file();
    list[0] = FIRST;
    list[1] = SECOND + row_faults[i].offsets[0];
    list[2] = SECOND + row_faults[i].offsets[1];
}

/* The questions meet the first fault, also where the row asked for is right. From the list each row has its own. */
static void run_row_faults(void)
{
    size_t i;
    size_t row;

    for (i = 0; i < sizeof row_faults / sizeof row_faults[0]; i++) {
        const char *what = row_faults[i].what;
        const uint32_t *code = row_faults[i].codes;
        size_t first = code[0] != SARVOLTIG_DONE ? 0 : 1;

        take_in_row_fault(i);
        refused(what, rows(SARVOLTIG_GENRES, ROWS), code[first], 2, named[1 + first][1]);
        refused(what, record(SARVOLTIG_GENRES, 0), code[first], 2, named[1 + first][1]);
        refused(what, text(SARVOLTIG_GENRES, 0, 0), code[first], 2, named[1 + first][1]);
        answers(what, record_in(SARVOLTIG_GENRES, 3, 0), SARVOLTIG_DONE, 3, 1, 0, 0xf1020304);
        for (row = 0; row < 2; row++) {
            uint64_t entry = named[1 + row][1];

            if (code[row] == SARVOLTIG_DONE) {
                answers(what, record_in(SARVOLTIG_GENRES, 3, 1 + row), SARVOLTIG_DONE, 3, 2, entry, 0xf1020304);
            } else {
                refused(what, record_in(SARVOLTIG_GENRES, 3, 1 + row), code[row], 2, entry);
                refused(what, text_in(SARVOLTIG_GENRES, 3, 1 + row, 0), code[row], 2, entry);
            }
        }
    }
}

/* A refusal into results of every length. */
static void run_short_refusals(void)
{
    static const uint64_t values[2] = {2, 17};
    const uint32_t table = SARVOLTIG_GENRES;
    size_t i;

    take_in_row_fault(1);
    for (i = 0; i <= SARVOLTIG_RESULT; i++) {
        size_t taken = i < 2 ? i : 2;

        has_values("refused rows", sarvoltig_rows(LEN, image, LEN, map, 1, table, list, ROWS, clear(), i),
                   SARVOLTIG_ROW_SHORT, taken, values);
        has_values("refused record", sarvoltig_record(LEN, image, LEN, map, 1, table, 0, clear(), i),
                   SARVOLTIG_ROW_SHORT, taken, values);
        has_values("refused text", sarvoltig_text(LEN, image, LEN, map, 1, table, 0, 0, clear(), i),
                   SARVOLTIG_ROW_SHORT, taken, values);
        has_values("refused record in a list",
                   sarvoltig_record_in(LEN, image, LEN, map, 1, table, list, ROWS, 2, clear(), i), SARVOLTIG_ROW_SHORT,
                   taken, values);
        has_values("refused text in a list",
                   sarvoltig_text_in(LEN, image, LEN, map, 1, table, list, ROWS, 2, 0, clear(), i), SARVOLTIG_ROW_SHORT,
                   taken, values);
    }
}

/* A packet that is refused whole: image, map and codes are as before. */
static void refused_whole(const char *what, uint32_t code, uint32_t expected, uint64_t value, uint64_t word)
{
    size_t i;

    refused(what, code, expected, value, 0);
    has_codes(what, 0, NULL);
    expect(map[0] == word, "a refused packet leaves the map");
    for (i = 0; i < sizeof image; i++) {
        expect(image[i] == 0xa5, "a refused packet leaves the image");
    }
}

/* In the order of the refusals; those behind the expected one apply too. */
static void run_refused_packets(void)
{
    static const Packet none = {0, {0}, {0}};
    static const Packet two = {2, {0, 2}, {0, 2}};
    static const size_t wrong[] = {0, 1, 512, 1023, 1025, 1536, 2048};
    const uint64_t filled = 0xa5a5a5a5a5a5a5a5u;
    const uint8_t *pieces = pieces_of(&two);
    size_t i;

    fill();
    refused_whole("packet before any opening",
                  sarvoltig_packet(0, image, 0, map, 0, two.blocks, 2, pieces, 1, codes, 0, clear(), SARVOLTIG_RESULT),
                  SARVOLTIG_LENGTH, 0, filled);
    refused_whole("packet with a short image",
                  sarvoltig_packet(LEN, image, LEN - 1, map, 0, two.blocks, 2, pieces, 1, codes, 0, clear(),
                                   SARVOLTIG_RESULT),
                  SARVOLTIG_IMAGE_SHORT, 0, filled);
    refused_whole("packet with no map",
                  sarvoltig_packet(LEN, image, LEN, map, 0, two.blocks, 2, pieces, 1, codes, 0, clear(),
                                   SARVOLTIG_RESULT),
                  SARVOLTIG_MAP_SHORT, 0, filled);
    map[0] = 8;
    refused_whole("packet with a bit behind the last block", packet(&two, 1, 0), SARVOLTIG_MAP_SPARE, 0, 8);
    refused_whole("no packet with a bit behind the last block", packet(&none, 0, 0), SARVOLTIG_MAP_SPARE, 0, 8);
    map[0] = 0;
    for (i = 0; i < sizeof wrong / sizeof wrong[0]; i++) {
        refused_whole("packet of a wrong size", packet(&two, wrong[i], PACKET), SARVOLTIG_PIECE_SIZE, 0, 0);
        refused_whole("packet of a wrong size with no codes", packet(&two, wrong[i], 0), SARVOLTIG_PIECE_SIZE, 0, 0);
    }
    refused_whole("bytes with no block", packet(&none, 1, PACKET), SARVOLTIG_PIECE_SIZE, 0, 0);
    refused_whole("a piece with no block", packet(&none, 512, 0), SARVOLTIG_PIECE_SIZE, 0, 0);
    refused_whole("packet with one code", packet(&two, 1024, 1), SARVOLTIG_LIST_SHORT, 2, 0);
    refused_whole("packet with no codes", packet(&two, 1024, 0), SARVOLTIG_LIST_SHORT, 2, 0);
}

/* Every code of a block, also for a number that comes again in the packet. */
static void run_packets(void)
{
    static const Packet none = {0, {0}, {0}};
    static const Packet mixed = {8,
                                 {2, 0, 2, 0, 3, (uint64_t)1 << 40, UINT64_MAX, 0},
                                 {2, 0, 2, 1, 1, 2, 0, 0}};
    static const uint32_t mixed_codes[] = {SARVOLTIG_DONE,          SARVOLTIG_DONE,         SARVOLTIG_SAME,
                                           SARVOLTIG_BLOCK_DIFFERS, SARVOLTIG_BLOCK_NUMBER, SARVOLTIG_BLOCK_NUMBER,
                                           SARVOLTIG_BLOCK_NUMBER,  SARVOLTIG_SAME};
    static const Packet last = {1, {1}, {1}};
    static const uint32_t done = SARVOLTIG_DONE;
    static const uint32_t same = SARVOLTIG_SAME;

    answers("no packet", packet(&none, 0, 0), SARVOLTIG_DONE, 1, 0, 0, 0);
    answers("a packet", packet(&mixed, 8 * 512, PACKET), SARVOLTIG_DONE, 1, 2, 0, 0);
    has_codes("a packet", 8, mixed_codes);
    expect(map[0] == 5 && image[512] == 0xa5 && image[1023] == 0xa5, "a packet brings its blocks and no other");
    expect(memcmp(image, file, 512) == 0 && memcmp(image + 1024, file + 1024, 512) == 0, "the first of a number stays");
    answers("no packet with codes", packet(&none, 0, PACKET), SARVOLTIG_DONE, 1, 2, 0, 0);
    has_codes("no packet with codes", 0, NULL);
    answers("the last block", packet(&last, 512, 1), SARVOLTIG_DONE, 1, 3, 0, 0);
    has_codes("the last block", 1, &done);
    answers("packet with no result",
            sarvoltig_packet(LEN, image, LEN, map, 1, last.blocks, 1, pieces_of(&last), 512, codes, PACKET, clear(), 0),
            SARVOLTIG_DONE, 0, 0, 0, 0);
    has_codes("packet with no result", 1, &same);
    answers("refused packet with no result",
            sarvoltig_packet(LEN, image, LEN, map, 1, last.blocks, 1, pieces_of(&last), 512, codes, 0, clear(), 0),
            SARVOLTIG_LIST_SHORT, 0, 0, 0, 0);
    answers("refused packet with a result of one",
            sarvoltig_packet(LEN, image, LEN, map, 1, last.blocks, 1, pieces_of(&last), 512, codes, 0, clear(), 1),
            SARVOLTIG_LIST_SHORT, 1, 1, 0, 0);
    has_codes("refused packet with no result", 1, &same);
    expect(map[0] == 7 && memcmp(image, file, LEN) == 0, "the image is the file, in packets");
    answers("rows of a file from packets", rows(SARVOLTIG_GENRES, ROWS), SARVOLTIG_DONE, 2, 1, 2, 0);
}

/* What a slot answers: a refusal, or the text's offset in the string, its length and its encoding. */
typedef struct {
    uint32_t code;
    uint64_t offset;
    uint64_t length;
    uint64_t encoding;
} Text;

/* Strings of a track, each with the answers of slot 0 and slot 1. */
static const struct {
    const char *what;
    const char *string; /* zero bytes follow */
    size_t string_len;
    Text slot[2];
} strings[] = {
    {"a code of odd total length", "\x90\x09\0\0\x03" "AB1", 8, {{0, 5, 3, SARVOLTIG_ASCII}, {15, 0, 0, 0}}},
    {"a code of even total length", "\x90\x0a\0\0\x03" "AB12", 9, {{0, 5, 4, SARVOLTIG_ASCII}, {0, 4, 6, SARVOLTIG_UTF16LE}}},
    {"a code of no length", "\x90\x06\0\0\x03", 5, {{0, 5, 0, SARVOLTIG_ASCII}, {0, 4, 2, SARVOLTIG_UTF16LE}}},
    {"a code with bytes behind its zero byte", "\x90\x09\0\0\x03" "A\0B1", 9, {{0, 5, 1, SARVOLTIG_ASCII}, {15, 0, 0, 0}}},
    {"a code with bytes above 7f", "\x90\x09\0\0\x03\x80\x1b\xff", 8, {{0, 5, 3, SARVOLTIG_ASCII}, {15, 0, 0, 0}}},
    {"a code without a zero byte, odd", "\x90\x09\0\0\x03" "AB12", 9, {{15, 0, 0, 0}, {15, 0, 0, 0}}},
    {"a code without a zero byte, even", "\x90\x08\0\0\x03" "AB1", 8, {{15, 0, 0, 0}, {0, 4, 4, SARVOLTIG_UTF16LE}}},
    {"03 alone", "\x90\x05\0\0\x03", 5, {{15, 0, 0, 0}, {15, 0, 0, 0}}},
    {"an empty text before a 03", "\x90\x04\0\0\x03" "A", 6, {{0, 4, 0, SARVOLTIG_UTF16LE}, {0, 4, 0, SARVOLTIG_UTF16LE}}},
    {"another first byte", "\x90\x08\0\x03" "A\0\x03", 7, {{0, 4, 4, SARVOLTIG_UTF16LE}, {0, 4, 4, SARVOLTIG_UTF16LE}}},
};

/* An export of one track on page 1. Slots from first to last name string i, the others an empty one in the row's first byte. */
static void make_track(size_t i, size_t first, size_t last)
{
    memset(file, 0, sizeof file);
    put32(0x04, 512);
    put32(0x08, 1);
    put32(0x1c, SARVOLTIG_TRACKS);
    put32(0x24, 1);
    put32(0x28, 1);
    put32(512 + 0x04, 1);
    put32(512 + 0x08, SARVOLTIG_TRACKS);
    file[512 + 0x18] = 1;
    file[512 + 0x19] = 0x20;
    file[1024 - 4] = 1;
    file[TRACK] = 0x03;
    for (; first <= last; first++) {
        file[TRACK + 0x5e + 2 * first] = STRING;
    }
    memcpy(&file[STRING_PLACE], strings[i].string, strings[i].string_len);
}

static void take_in_track(void)
{
    take_in_file();
    list[0] = TRACK;
}

/* What a slot answers, by the question and from the list; a refusal is about page 1 and its index entry 0. */
static void answers_text(const char *what, uint64_t slot, Text expected)
{
    const uint64_t values[3] = {STRING_PLACE + expected.offset, expected.length, expected.encoding};

    if (expected.code == SARVOLTIG_DONE) {
        has_values(what, text(SARVOLTIG_TRACKS, 0, slot), SARVOLTIG_DONE, 3, values);
        has_values(what, text_in(SARVOLTIG_TRACKS, 1, 0, slot), SARVOLTIG_DONE, 3, values);
    } else {
        refused(what, text(SARVOLTIG_TRACKS, 0, slot), expected.code, 1, 0);
        refused(what, text_in(SARVOLTIG_TRACKS, 1, 0, slot), expected.code, 1, 0);
    }
}

/* Each string in slot 0 alone, in slot 1 alone, and in all slots, where it has to be right in slot 0 and in the others. */
static void run_codes(void)
{
    size_t i;

    for (i = 0; i < sizeof strings / sizeof strings[0]; i++) {
        const Text *slot = strings[i].slot;
        const Text *fault = slot[0].code != SARVOLTIG_DONE ? &slot[0] : &slot[1];
        int shared = fault->code == SARVOLTIG_DONE;

        make_track(i, SARVOLTIG_SLOT_ISRC, SARVOLTIG_SLOT_ISRC);
        take_in_track();
        answers_text(strings[i].what, SARVOLTIG_SLOT_ISRC, slot[0]);
        make_track(i, SARVOLTIG_SLOT_TEXTER, SARVOLTIG_SLOT_TEXTER);
        take_in_track();
        answers_text(strings[i].what, SARVOLTIG_SLOT_TEXTER, slot[1]);
        make_track(i, SARVOLTIG_SLOT_ISRC, SARVOLTIG_SLOT_FILE_PATH);
        take_in_track();
        answers_text(strings[i].what, SARVOLTIG_SLOT_ISRC, shared ? slot[0] : *fault);
        answers_text(strings[i].what, SARVOLTIG_SLOT_FILE_PATH, shared ? slot[1] : *fault);
    }
    expect(map[0] == 7 && memcmp(image, file, LEN) == 0, "questions about a code leave image and map");
}

static void put_envelope(size_t at, const char *code, uint8_t len_header, uint8_t len)
{
    memcpy(&anlz[at], code, 4);
    anlz[at + 0x07] = len_header;
    anlz[at + 0x0b] = len;
}

static void make_anlz(void)
{
    static const uint8_t beats[] = {
        0, 4, 0x30, 0xd4, 0, 0, 0, 25,          /* bar position 4, 125.00, 25 ms */
        0, 1, 0x30, 0xd4, 0, 0, 0x01, 0xf9,     /* bar position 1, 125.00, 505 ms */
        0, 2, 0xff, 0xfe, 0xff, 0xff, 0xff, 0xfd /* bar position 2, 655.34, 2^32 - 3 ms */
    };

    memset(anlz, 0, sizeof anlz);
    put_envelope(0, "PMAI", UNKNOWN, ANLZ_LEN);
    put_envelope(UNKNOWN, "\x1bqtz", 12, 12);
    put_envelope(GRID, "PQTZ", 24, BEHIND - GRID);
    anlz[GRID + 0x17] = 3;
    memcpy(&anlz[BEATS], beats, sizeof beats);
    put_envelope(BEHIND, "PCOB", 12, ANLZ_LEN - BEHIND);
}

static uint32_t beats(size_t length)
{
    return sarvoltig_beats(anlz, length, clear(), SARVOLTIG_RESULT);
}

static uint32_t beat(size_t length, uint64_t k)
{
    return sarvoltig_beat(anlz, length, k, clear(), SARVOLTIG_RESULT);
}

static void run_beats(void)
{
    uint8_t before[ANLZ_LEN];

    make_anlz();
    memcpy(before, anlz, ANLZ_LEN);
    answers("number of beats", beats(ANLZ_LEN), SARVOLTIG_DONE, 1, 3, 0, 0);
    answers("beat 0", beat(ANLZ_LEN, 0), SARVOLTIG_DONE, 3, 4, 12500, 25);
    answers("beat 1", beat(ANLZ_LEN, 1), SARVOLTIG_DONE, 3, 1, 12500, 505);
    answers("beat 2", beat(ANLZ_LEN, 2), SARVOLTIG_DONE, 3, 2, 65534, UINT32_MAX - 2);
    expect(result[SARVOLTIG_BEAT_BAR_POSITION] == 2 && result[SARVOLTIG_BEAT_TEMPO] == 65534 &&
               result[SARVOLTIG_BEAT_TIME] == UINT32_MAX - 2,
           "the places of a beat's numbers");
    refused("beat 3", beat(ANLZ_LEN, 3), SARVOLTIG_NO_ROW, 0, 0);
    refused("beat 2^32", beat(ANLZ_LEN, (uint64_t)1 << 32), SARVOLTIG_NO_ROW, 0, 0);
    refused("beat 2^61", beat(ANLZ_LEN, (uint64_t)1 << 61), SARVOLTIG_NO_ROW, 0, 0);
    refused("beat 2^64 - 1", beat(ANLZ_LEN, UINT64_MAX), SARVOLTIG_NO_ROW, 0, 0);
    answers("number of beats with no result", sarvoltig_beats(anlz, ANLZ_LEN, clear(), 0), SARVOLTIG_DONE, 0, 0, 0, 0);
    answers("number of beats with a result of one", sarvoltig_beats(anlz, ANLZ_LEN, clear(), 1), SARVOLTIG_DONE, 1, 3, 0, 0);
    answers("beat with no result", sarvoltig_beat(anlz, ANLZ_LEN, 1, clear(), 0), SARVOLTIG_DONE, 0, 0, 0, 0);
    answers("beat with a result of one", sarvoltig_beat(anlz, ANLZ_LEN, 1, clear(), 1), SARVOLTIG_DONE, 1, 1, 0, 0);
    answers("beat with a result of two", sarvoltig_beat(anlz, ANLZ_LEN, 1, clear(), 2), SARVOLTIG_DONE, 2, 1, 12500, 0);
    answers("beat 3 with no result", sarvoltig_beat(anlz, ANLZ_LEN, 3, clear(), 0), SARVOLTIG_NO_ROW, 0, 0, 0, 0);
    answers("beat 3 with a result of one", sarvoltig_beat(anlz, ANLZ_LEN, 3, clear(), 1), SARVOLTIG_NO_ROW, 1, 0, 0, 0);
    expect(memcmp(anlz, before, ANLZ_LEN) == 0, "a question leaves the ANLZ file");
}

/* Files with a grid of no beats, and with none. */
static void run_short_anlz(void)
{
    make_anlz();
    put_envelope(0, "PMAI", UNKNOWN, BEATS);
    put_envelope(GRID, "PQTZ", 12, BEATS - GRID);
    anlz[GRID + 0x17] = 0;
    answers("number of beats of an empty grid", beats(BEATS), SARVOLTIG_DONE, 1, 0, 0, 0);
    refused("beat 0 of an empty grid", beat(BEATS, 0), SARVOLTIG_NO_ROW, 0, 0);
    put_envelope(0, "PMAI", UNKNOWN, GRID + 12);
    put_envelope(GRID, "PQTZ", 12, 12);
    refused("number of beats of a grid that is an envelope", beats(GRID + 12), SARVOLTIG_GRID_LENGTH, 0, 0);
    put_envelope(0, "PMAI", 12, 12);
    refused("number of beats of a header alone", beats(12), SARVOLTIG_NO_GRID, 0, 0);
    refused("beat 0 of a header alone", beat(12, 0), SARVOLTIG_NO_GRID, 0, 0);
    refused("number of beats of no file", beats(0), SARVOLTIG_ANLZ_HEADER, 0, 0);
    refused("beat 0 of no file", beat(0, 0), SARVOLTIG_ANLZ_HEADER, 0, 0);
}

/* One byte of the ANLZ file that is written over, and the refusal of what is left. In the order of the refusals. */
static const struct {
    const char *what;
    size_t at;
    uint8_t byte;
    uint32_t refusal;
} damages[] = {
    {"another file code", 0x03, 'i', SARVOLTIG_ANLZ_HEADER},
    {"a file header of 11 bytes", 0x07, 11, SARVOLTIG_ANLZ_HEADER},
    {"a file header past the file", 0x07, ANLZ_LEN + 1, SARVOLTIG_ANLZ_HEADER},
    {"len_file too great", 0x0b, ANLZ_LEN + 1, SARVOLTIG_ANLZ_HEADER},
    {"len_file too small", 0x0b, ANLZ_LEN - 1, SARVOLTIG_ANLZ_HEADER},
    {"a section's header of 11 bytes", UNKNOWN + 0x07, 11, SARVOLTIG_SECTION},
    {"a section's header longer than its tag", UNKNOWN + 0x07, 13, SARVOLTIG_SECTION},
    {"a section one byte past the file", BEHIND + 0x0b, ANLZ_LEN - BEHIND + 1, SARVOLTIG_SECTION},
    {"a section 2^31 bytes past the file", BEHIND + 0x08, 0x80, SARVOLTIG_SECTION},
    {"one byte left over", BEHIND + 0x0b, ANLZ_LEN - BEHIND - 1, SARVOLTIG_SECTION},
    {"eleven bytes left over", BEHIND + 0x0b, ANLZ_LEN - BEHIND - 11, SARVOLTIG_SECTION},
    {"another code for the grid", GRID + 0x03, 'z', SARVOLTIG_NO_GRID},
    {"a beat more", GRID + 0x17, 4, SARVOLTIG_GRID_LENGTH},
    {"a beat less", GRID + 0x17, 2, SARVOLTIG_GRID_LENGTH},
    {"2^29 beats more", GRID + 0x14, 0x20, SARVOLTIG_GRID_LENGTH},
    {"bar position 0", BEATS + 0x01, 0, SARVOLTIG_BAR_POSITION},
    {"bar position 5 of the last beat", BEATS + 0x11, 5, SARVOLTIG_BAR_POSITION},
    {"bar position 257", BEATS + 0x08, 1, SARVOLTIG_BAR_POSITION},
};

static void run_damage(size_t i)
{
    anlz[damages[i].at] = damages[i].byte;
    refused(damages[i].what, beats(ANLZ_LEN), damages[i].refusal, 0, 0);
    refused(damages[i].what, beat(ANLZ_LEN, 1), damages[i].refusal, 0, 0);
    refused(damages[i].what, beat(ANLZ_LEN, UINT64_MAX), damages[i].refusal, 0, 0);
    answers(damages[i].what, sarvoltig_beats(anlz, ANLZ_LEN, clear(), 0), damages[i].refusal, 0, 0, 0, 0);
}

/* Each damage alone; then one after the other from the last on, where the first refusal that applies is answered. */
static void run_damages(void)
{
    size_t i;

    for (i = 0; i < sizeof damages / sizeof damages[0]; i++) {
        make_anlz();
        run_damage(i);
    }
    make_anlz();
    while (i-- > 0) {
        run_damage(i);
    }
    make_anlz();
    for (i = 0; i < ANLZ_LEN; i++) {
        refused("a cut file", beats(i), SARVOLTIG_ANLZ_HEADER, 0, 0);
        refused("a beat of a cut file", beat(i, 0), SARVOLTIG_ANLZ_HEADER, 0, 0);
    }
}

static void put32_be(size_t at, uint32_t n)
{
    size_t i;

    for (i = 0; i < 4; i++) {
        marked[at + i] = (uint8_t)(n >> (24 - 8 * i));
    }
}

/* A section, and the two numbers behind its envelope. */
static void put_section(size_t at, const char *code, uint32_t len_header, uint32_t len, uint32_t a, uint32_t b)
{
    memcpy(&marked[at], code, 4);
    put32_be(at + 0x04, len_header);
    put32_be(at + 0x08, len);
    put32_be(at + 0x0c, a);
    put32_be(at + 0x10, b);
}

/* An entry of a cue list. Its status, at 10, is 0 for a loop. */
static void put_cue(size_t at, uint32_t hot_cue, uint8_t kind, uint32_t time, uint32_t loop_time)
{
    put_section(at, "PCPT", 0x1c, CUE, hot_cue, kind == SARVOLTIG_POINT);
    marked[at + 0x1c] = kind;
    put32_be(at + 0x20, time);
    put32_be(at + 0x24, loop_time);
}

static void make_marked(void)
{
    memset(marked, 0xee, sizeof marked);
    put_section(0, "PMAI", HOT, MARKED_LEN, 0, 0);
    put_section(HOT, "PCOB", 24, 0x18 + 2 * CUE, SARVOLTIG_HOT, 2);
    put_cue(HOT + 0x18, 1, SARVOLTIG_POINT, 505, UINT32_MAX);
    put_cue(HOT + 0x18 + CUE, 2, SARVOLTIG_LOOP, 1000, 3000);
    put_section(DETAIL, "PWV3", 24, MEMORY - DETAIL, 1, 2);
    put_section(MEMORY, "PCOB", 12, 0x18 + CUE, SARVOLTIG_MEMORY, 1);
    put_cue(MEMORY + 0x18, UINT32_MAX, SARVOLTIG_LOOP, UINT32_MAX - 1, 0);
    put_section(COLOR, "PWV5", 12, EMPTY - COLOR, 2, 2);
    put_section(EMPTY, "PCOB", 24, PREVIEW - EMPTY, SARVOLTIG_HOT, 0);
    put_section(PREVIEW, "PWV4", 24, MARKED_LEN - PREVIEW, 6, PREVIEW_ENTRIES);
}

static uint32_t cue(size_t length, uint64_t k)
{
    return sarvoltig_cue(marked, length, k, clear(), SARVOLTIG_RESULT);
}

static uint32_t wave(size_t length, uint64_t sort, uint64_t k)
{
    return sarvoltig_wave(marked, length, sort, k, clear(), SARVOLTIG_RESULT);
}

/* Cue 1, a loop, and cue 0, a point, into results of up to five numbers. */
static void run_cue_results(void)
{
    static const uint64_t loop[5] = {SARVOLTIG_HOT, 2, SARVOLTIG_LOOP, 1000, 3000};
    static const uint64_t point[4] = {SARVOLTIG_HOT, 1, SARVOLTIG_POINT, 505};
    static const uint64_t nothing[2] = {0, 0};
    size_t room;

    for (room = 0; room <= 5; room++) {
        has_values("a loop", sarvoltig_cue(marked, MARKED_LEN, 1, clear(), room), SARVOLTIG_DONE, room, loop);
        has_values("a point", sarvoltig_cue(marked, MARKED_LEN, 0, clear(), room), SARVOLTIG_DONE, room < 4 ? room : 4,
                   point);
        has_values("no cue", sarvoltig_cue(marked, MARKED_LEN, 3, clear(), room), SARVOLTIG_NO_ROW, room < 2 ? room : 2,
                   nothing);
    }
}

static void run_cues(void)
{
    static const uint64_t memory[5] = {SARVOLTIG_MEMORY, UINT32_MAX, SARVOLTIG_LOOP, UINT32_MAX - 1, 0};
    static uint8_t before[MARKED_LEN];

    make_marked();
    memcpy(before, marked, MARKED_LEN);
    run_cue_results();
    has_values("cue 2", cue(MARKED_LEN, 2), SARVOLTIG_DONE, 5, memory);
    cue(MARKED_LEN, 1);
    expect(result[SARVOLTIG_CUE_LIST_TYPE] == 1 && result[SARVOLTIG_CUE_HOT_CUE] == 2 &&
               result[SARVOLTIG_CUE_KIND] == 2 && result[SARVOLTIG_CUE_TIME] == 1000 &&
               result[SARVOLTIG_CUE_LOOP_TIME] == 3000,
           "the places of a cue's numbers");
    refused("cue 3", cue(MARKED_LEN, 3), SARVOLTIG_NO_ROW, 0, 0);
    refused("cue 2^16", cue(MARKED_LEN, 1 << 16), SARVOLTIG_NO_ROW, 0, 0);
    refused("cue 2^32", cue(MARKED_LEN, (uint64_t)1 << 32), SARVOLTIG_NO_ROW, 0, 0);
    refused("cue 2^32 + 1", cue(MARKED_LEN, ((uint64_t)1 << 32) + 1), SARVOLTIG_NO_ROW, 0, 0);
    refused("cue 2^64 - 1", cue(MARKED_LEN, UINT64_MAX), SARVOLTIG_NO_ROW, 0, 0);
    expect(memcmp(marked, before, MARKED_LEN) == 0, "a question for a cue leaves the ANLZ file");
}

/* The first and the last entry of a sort, and those past it. */
static void run_sort(uint64_t sort, uint64_t place, uint64_t width, uint64_t count)
{
    size_t room;

    answers("entry 0", wave(MARKED_LEN, sort, 0), SARVOLTIG_DONE, 2, place, width, 0);
    answers("last entry", wave(MARKED_LEN, sort, count - 1), SARVOLTIG_DONE, 2, place + width * (count - 1), width, 0);
    expect(result[SARVOLTIG_WAVE_PLACE] == place + width * (count - 1) && result[SARVOLTIG_WAVE_WIDTH] == width,
           "the places of an entry's numbers");
    for (room = 0; room <= 2; room++) {
        answers("entry 1", sarvoltig_wave(marked, MARKED_LEN, sort, 1, clear(), room), SARVOLTIG_DONE, room, place + width,
                width, 0);
        answers("no entry", sarvoltig_wave(marked, MARKED_LEN, sort, count, clear(), room), SARVOLTIG_NO_ROW, room, 0, 0, 0);
    }
    refused("entry 2^32", wave(MARKED_LEN, sort, (uint64_t)1 << 32), SARVOLTIG_NO_ROW, 0, 0);
    refused("entry 2^63", wave(MARKED_LEN, sort, (uint64_t)1 << 63), SARVOLTIG_NO_ROW, 0, 0);
    refused("entry 2^64 - 1", wave(MARKED_LEN, sort, UINT64_MAX), SARVOLTIG_NO_ROW, 0, 0);
    refused("sort + 2^32", wave(MARKED_LEN, sort + ((uint64_t)1 << 32), 0), SARVOLTIG_NO_ROW, 0, 0);
    refused("sort + 2^8", wave(MARKED_LEN, sort + 256, 0), SARVOLTIG_NO_ROW, 0, 0);
}

static void run_waves(void)
{
    static uint8_t before[MARKED_LEN];

    make_marked();
    memcpy(before, marked, MARKED_LEN);
    run_sort(SARVOLTIG_WAVE_DETAIL, DETAIL + 0x18, 1, 2);
    run_sort(SARVOLTIG_WAVE_COLOR_PREVIEW, PREVIEW + 0x18, 6, PREVIEW_ENTRIES);
    run_sort(SARVOLTIG_WAVE_COLOR_DETAIL, COLOR + 0x18, 2, 2);
    refused("sort 0", wave(MARKED_LEN, 0, 0), SARVOLTIG_NO_ROW, 0, 0);
    refused("sort 2", wave(MARKED_LEN, 2, 0), SARVOLTIG_NO_ROW, 0, 0);
    refused("sort 6", wave(MARKED_LEN, 6, 0), SARVOLTIG_NO_ROW, 0, 0);
    refused("sort 2^64 - 1", wave(MARKED_LEN, UINT64_MAX, 0), SARVOLTIG_NO_ROW, 0, 0);
    expect(memcmp(marked, before, MARKED_LEN) == 0, "a question for an entry leaves the ANLZ file");
    put_section(0, "PMAI", HOT, HOT, 0, 0);
    refused("cue 0 of a header alone", cue(HOT, 0), SARVOLTIG_NO_ROW, 0, 0);
    refused("entry 0 of a header alone", wave(HOT, SARVOLTIG_WAVE_DETAIL, 0), SARVOLTIG_NO_ROW, 0, 0);
    refused("cue 0 of no file", cue(0, 0), SARVOLTIG_ANLZ_HEADER, 0, 0);
    refused("entry 0 of no file", wave(0, SARVOLTIG_WAVE_DETAIL, 0), SARVOLTIG_ANLZ_HEADER, 0, 0);
}

/*
 * One byte of this file that is written over, and the refusals of what is left, or SARVOLTIG_DONE: of cue 1 and of entry 1
 * of a sort.
 */
static const struct {
    const char *what;
    size_t at;
    uint8_t byte;
    uint64_t sort;
    uint32_t cue;
    uint32_t entry;
} marked_damages[] = {
    {"another file code", 0x00, 'p', 3, SARVOLTIG_ANLZ_HEADER, SARVOLTIG_ANLZ_HEADER},
    {"a section one byte past the file", PREVIEW + 0x0b, 0x39, 3, SARVOLTIG_SECTION, SARVOLTIG_SECTION},
    {"another code for the detail", DETAIL + 0x03, '6', 3, SARVOLTIG_DONE, SARVOLTIG_NO_ROW},
    {"a list of type 2", HOT + 0x0f, 2, 3, SARVOLTIG_CUE_LIST, SARVOLTIG_DONE},
    {"a list of type 256 behind the cue", MEMORY + 0x0e, 1, 3, SARVOLTIG_CUE_LIST, SARVOLTIG_DONE},
    {"an empty list of type 2", EMPTY + 0x0f, 2, 4, SARVOLTIG_CUE_LIST, SARVOLTIG_DONE},
    {"a cue more", HOT + 0x13, 3, 3, SARVOLTIG_CUE_LIST, SARVOLTIG_DONE},
    {"another code of a cue", HOT + 0x18, 'p', 3, SARVOLTIG_CUE_LIST, SARVOLTIG_DONE},
    {"a cue of 57 bytes", MEMORY + 0x18 + 0x0b, 0x39, 3, SARVOLTIG_CUE_LIST, SARVOLTIG_DONE},
    {"kind 0", HOT + 0x18 + 0x1c, 0, 3, SARVOLTIG_CUE_LIST, SARVOLTIG_DONE},
    {"kind 3", MEMORY + 0x18 + 0x1c, 3, 3, SARVOLTIG_CUE_LIST, SARVOLTIG_DONE},
    {"width 2 of the detail", DETAIL + 0x0f, 2, 3, SARVOLTIG_DONE, SARVOLTIG_WAVEFORM},
    {"width 1 of the color detail", COLOR + 0x0f, 1, 5, SARVOLTIG_DONE, SARVOLTIG_WAVEFORM},
    {"an entry more", COLOR + 0x13, 3, 5, SARVOLTIG_DONE, SARVOLTIG_WAVEFORM},
    {"2^31 entries more", COLOR + 0x10, 0x80, 5, SARVOLTIG_DONE, SARVOLTIG_WAVEFORM},
    {"a preview of 1199 entries", PREVIEW + 0x13, 0xaf, 4, SARVOLTIG_DONE, SARVOLTIG_WAVEFORM},
    {"len_header of a cue", HOT + 0x18 + 0x07, 0, 3, SARVOLTIG_DONE, SARVOLTIG_DONE},
    {"status of a cue", HOT + 0x18 + 0x13, 4, 3, SARVOLTIG_DONE, SARVOLTIG_DONE},
    {"another sort's width", COLOR + 0x0f, 1, 3, SARVOLTIG_DONE, SARVOLTIG_DONE},
};

/* The code of a question with and without room for the answer. */
static void has_code(const char *what, uint32_t code, uint32_t without_room, uint32_t expected)
{
    if (code != expected || without_room != expected) {
        fprintf(stderr, "check_c: %s: code %" PRIu32 " and %" PRIu32 ", not %" PRIu32 "\n", what, code, without_room,
                expected);
        failures++;
    }
}

static void run_marked_damages(void)
{
    size_t i;

    for (i = 0; i < sizeof marked_damages / sizeof marked_damages[0]; i++) {
        const char *what = marked_damages[i].what;
        uint64_t sort = marked_damages[i].sort;

        make_marked();
        marked[marked_damages[i].at] = marked_damages[i].byte;
        has_code(what, cue(MARKED_LEN, 1), sarvoltig_cue(marked, MARKED_LEN, 1, clear(), 0), marked_damages[i].cue);
        has_code(what, wave(MARKED_LEN, sort, 1), sarvoltig_wave(marked, MARKED_LEN, sort, 1, clear(), 0),
                 marked_damages[i].entry);
        if (marked_damages[i].cue != SARVOLTIG_DONE) {
            refused(what, cue(MARKED_LEN, UINT64_MAX), marked_damages[i].cue, 0, 0);
        }
        if (marked_damages[i].entry != SARVOLTIG_DONE) {
            refused(what, wave(MARKED_LEN, sort, UINT64_MAX), marked_damages[i].entry, 0, 0);
        }
    }
    make_marked();
    for (i = 0; i < MARKED_LEN; i++) {
        refused("a cue of a cut file", cue(i, 0), SARVOLTIG_ANLZ_HEADER, 0, 0);
        refused("an entry of a cut file", wave(i, SARVOLTIG_WAVE_DETAIL, 0), SARVOLTIG_ANLZ_HEADER, 0, 0);
    }
}

/* A bad section, a bad list and a bad waveform in one file: the first refusal that applies is answered. */
static void run_marked_order(void)
{
    make_marked();
    marked[EMPTY + 0x0f] = 2;
    marked[DETAIL + 0x0f] = 2;
    refused("a bad list", cue(MARKED_LEN, UINT64_MAX), SARVOLTIG_CUE_LIST, 0, 0);
    refused("a bad waveform", wave(MARKED_LEN, SARVOLTIG_WAVE_DETAIL, UINT64_MAX), SARVOLTIG_WAVEFORM, 0, 0);
    refused("an absent sort", wave(MARKED_LEN, 7, 0), SARVOLTIG_NO_ROW, 0, 0);
    marked[PREVIEW + 0x07] = 11;
    refused("a cue behind a bad section", cue(MARKED_LEN, 0), SARVOLTIG_SECTION, 0, 0);
    refused("an entry behind a bad section", wave(MARKED_LEN, SARVOLTIG_WAVE_DETAIL, 0), SARVOLTIG_SECTION, 0, 0);
    refused("an absent sort behind a bad section", wave(MARKED_LEN, 7, 0), SARVOLTIG_SECTION, 0, 0);
    marked[0x0b]++;
    refused("a cue of another length", cue(MARKED_LEN, 0), SARVOLTIG_ANLZ_HEADER, 0, 0);
    refused("an entry of another length", wave(MARKED_LEN, 7, 0), SARVOLTIG_ANLZ_HEADER, 0, 0);
}

int main(void)
{
    size_t i;

    fill();
    make_file();
    run_intake();
    run_questions();
    run_lists();
    run_list_results();
    run_wrong_lists();
    run_list_waits();
    run_refused_packets();
    run_packets();
    run_counts();
    run_headers();
    run_records();
    run_row_faults();
    run_short_refusals();
    run_codes();
    run_beats();
    run_short_anlz();
    run_damages();
    run_cues();
    run_waves();
    run_marked_damages();
    run_marked_order();
    for (i = 0; i < GUARD; i++) {
        expect(image[LEN + i] == 0xa5 && map[1 + i] == 0xa5a5a5a5a5a5a5a5u && list[ROWS + i] == 0xa5a5a5a5u,
               "nothing is written behind a slice");
    }
    if (failures == 0) {
        puts("check_c: the C interface answers as the rules say");
    }
    return failures != 0;
}
