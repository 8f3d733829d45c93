/* What is held and what is missing, the layout of a file, and the bounds of a table. */
#include "check.h"

enum { WORDS = 3, POINTERS = 30, LAST_POINTER = 0x1c + 16 * (POINTERS - 1) };

static uint64_t words[WORDS + GUARD];

/* Lengths around words of the map, also those that no export has. */
static const uint64_t lengths[] = {0,
                                   1,
                                   511,
                                   512,
                                   1536,
                                   63 * 512,
                                   64 * 512,
                                   64 * 512 + 511,
                                   65 * 512,
                                   192 * 512,
                                   193 * 512,
                                   SARVOLTIG_SIZE_FILE_MAX,
                                   (uint64_t)1 << 41,
                                   (uint64_t)1 << 63,
                                   UINT64_MAX};

static const uint64_t patterns[][WORDS] = {
    {0, 0, 0},
    {UINT64_MAX, UINT64_MAX, UINT64_MAX},
    {UINT64_MAX, UINT64_MAX, 0},
    {(uint64_t)1 << 63, 1, (uint64_t)1 << 32},
    {UINT64_MAX - 1, UINT64_MAX, UINT64_MAX >> 1},
    {0xaaaaaaaaaaaaaaaau, 0x5555555555555555u, 0x00ff00ff0000ffffu},
};

/* Numbers past the blocks of the map. */
static const uint64_t far[] = {(uint64_t)1 << 32, ((uint64_t)1 << 32) + 1, (uint64_t)1 << 54,
                               (uint64_t)1 << 55, ((uint64_t)1 << 58) + 1, UINT64_MAX};

/* Whether a block is held, by the bytes of the map: numbers are little-endian on this target. */
static int is_held(uint64_t len, size_t map_len, uint64_t block)
{
    const uint8_t *bytes = (const uint8_t *)words;

    return block < len / 512 && block / 64 < map_len && (bytes[block / 8] >> block % 8 & 1) != 0;
}

/* One number, as a block and as the first that may be missing. */
static void run_number(uint64_t len, size_t map_len, uint64_t from)
{
    uint64_t missing = from;
    uint32_t code;
    size_t room;

    equals("holds", "block", (size_t)from, sarvoltig_holds(len, words, map_len, from),
           (uint64_t)is_held(len, map_len, from));
    while (missing < len / 512 && is_held(len, map_len, missing)) {
        missing++;
    }
    code = missing < len / 512 ? SARVOLTIG_CODE_DONE : SARVOLTIG_CODE_NONE;
    for (room = 0; room <= 2; room++) {
        answers("missing", sarvoltig_missing(len, words, map_len, from, clear(), room), code,
                code == SARVOLTIG_CODE_DONE && room > 0, missing, 0, 0);
    }
}

static void run_map(uint64_t len, size_t map_len)
{
    uint64_t number;
    size_t i;

    for (number = 0; number <= 64 * WORDS + 2; number++) {
        run_number(len, map_len, number);
    }
    for (i = 0; i < sizeof far / sizeof far[0]; i++) {
        run_number(len, map_len, far[i]);
    }
}

/* Every pattern in maps of every length. What stands behind a map has all bits set. */
static void run_maps(void)
{
    size_t pattern, length, map_len;

    for (pattern = 0; pattern < sizeof patterns / sizeof patterns[0]; pattern++) {
        for (map_len = 0; map_len <= WORDS; map_len++) {
            memset(words, 0xff, sizeof words);
            memcpy(words, patterns[pattern], map_len * sizeof words[0]);
            for (length = 0; length < sizeof lengths / sizeof lengths[0]; length++) {
                run_map(lengths[length], map_len);
            }
            expect(memcmp(words, patterns[pattern], map_len * sizeof words[0]) == 0, "questions leave the map");
        }
    }
}

static uint32_t layout(void)
{
    return sarvoltig_layout(LEN, image, LEN, map, 1, clear(), N);
}

static uint32_t bounds(uint32_t table)
{
    return sarvoltig_bounds(LEN, image, LEN, map, 1, table, clear(), N);
}

/* Case D with 30 pointers of different types, the last for the genres; behind them stands one more type. */
static void make_pointers(void)
{
    uint32_t i;

    make_file();
    put32(0x08, POINTERS);
    for (i = 0; i < POINTERS; i++) {
        put32(0x1c + 16 * i, 100 + i);
        put32(0x1c + 16 * i + 8, UINT32_MAX);
        put32(0x1c + 16 * i + 12, 0);
    }
    put32(LAST_POINTER, SARVOLTIG_TABLE_GENRES);
    put32(LAST_POINTER + 8, 1);
    put32(LAST_POINTER + 12, 2);
    put32(LAST_POINTER + 16, SARVOLTIG_TABLE_KEYS);
}

/* Takes in block 0 and no other. */
static void take_in_header(void)
{
    answers("opening", open_intake(), SARVOLTIG_CODE_DONE, 1, 3, 0, 0);
    answers("block 0", deliver(0, file, 512), SARVOLTIG_CODE_DONE, 1, 1, 0, 0);
}

/* In the order of the refusals; those behind the expected one apply too. */
static void run_refusals(void)
{
    static const uint64_t wrong[] = {0, 1, 511, 513, LEN + 1, SARVOLTIG_SIZE_FILE_MAX + 512u, UINT64_MAX};
    static const uint32_t unknown[] = {9, 10, 11, 12, 14, 256, 65536 + 1, UINT32_MAX};
    size_t i;

    for (i = 0; i < sizeof wrong / sizeof wrong[0]; i++) {
        refused("layout of a wrong length", sarvoltig_layout(wrong[i], image, 0, map, 0, clear(), N),
                SARVOLTIG_REFUSED_LENGTH, 0, 0);
        refused("bounds of a wrong length", sarvoltig_bounds(wrong[i], image, 0, map, 0, 9, clear(), N),
                SARVOLTIG_REFUSED_LENGTH, 0, 0);
    }
    refused("layout with a short image", sarvoltig_layout(LEN, image, LEN - 1, map, 0, clear(), N),
            SARVOLTIG_REFUSED_IMAGE_SHORT, 0, 0);
    refused("bounds with a short image", sarvoltig_bounds(LEN, image, LEN - 1, map, 0, 9, clear(), N),
            SARVOLTIG_REFUSED_IMAGE_SHORT, 0, 0);
    refused("layout with no map", sarvoltig_layout(LEN, image, LEN, map, 0, clear(), N), SARVOLTIG_REFUSED_MAP_SHORT, 0,
            0);
    refused("bounds with no map", sarvoltig_bounds(LEN, image, LEN, map, 0, 9, clear(), N), SARVOLTIG_REFUSED_MAP_SHORT,
            0, 0);
    map[0] = 8;
    refused("layout with a bit behind the last block", layout(), SARVOLTIG_REFUSED_MAP_SPARE, 0, 0);
    refused("bounds with a bit behind the last block", bounds(9), SARVOLTIG_REFUSED_MAP_SPARE, 0, 0);
    map[0] = 6;
    answers("layout without block 0", layout(), SARVOLTIG_CODE_WAITING, 3, 0, 0, 0);
    answers("bounds without block 0", bounds(SARVOLTIG_TABLE_ARTWORK), SARVOLTIG_CODE_WAITING, 3, 0, 0, 0);
    for (i = 0; i < sizeof unknown / sizeof unknown[0]; i++) {
        refused("bounds of an unknown table", bounds(unknown[i]), SARVOLTIG_REFUSED_TABLE_TYPE, 0, 0);
    }
}

/* One number of block 0 that is written over, so that the header is broken. */
static const struct {
    const char *what;
    size_t at;
    uint32_t number;
} broken[] = {
    {"another first byte", 0x00, 1},
    {"another fourth byte", 0x00, (uint32_t)1 << 24},
    {"len_page 0", 0x04, 0},
    {"len_page 256", 0x04, 256},
    {"len_page 513", 0x04, 513},
    {"len_page 1,024 for 1,536 bytes", 0x04, 1024},
    {"len_page 2^31 + 512", 0x04, ((uint32_t)1 << 31) + 512},
    {"no tables", 0x08, 0},
    {"31 tables", 0x08, 31},
    {"2^32 - 1 tables", 0x08, UINT32_MAX},
    {"two pointers of one type", LAST_POINTER - 16, SARVOLTIG_TABLE_GENRES},
};

static void run_broken(void)
{
    size_t i;

    for (i = 0; i < sizeof broken / sizeof broken[0]; i++) {
        make_pointers();
        put32(broken[i].at, broken[i].number);
        take_in_header();
        refused(broken[i].what, layout(), SARVOLTIG_REFUSED_FILE_HEADER, 0, 0);
        refused(broken[i].what, bounds(SARVOLTIG_TABLE_GENRES), SARVOLTIG_REFUSED_FILE_HEADER, 0, 0);
        refused(broken[i].what, bounds(SARVOLTIG_TABLE_TRACKS), SARVOLTIG_REFUSED_FILE_HEADER, 0, 0);
    }
}

/* The links of the genres, and the code of their bounds. */
static const struct {
    uint32_t first;
    uint32_t last;
    uint32_t code;
} links[] = {
    {1, 2, SARVOLTIG_CODE_DONE},
    {2, 1, SARVOLTIG_CODE_DONE},
    {2, 2, SARVOLTIG_CODE_DONE},
    {0, 2, SARVOLTIG_REFUSED_PAGE_LINK},
    {3, 2, SARVOLTIG_REFUSED_PAGE_LINK},
    {1, 0, SARVOLTIG_REFUSED_PAGE_LINK},
    {1, 3, SARVOLTIG_REFUSED_PAGE_LINK},
    {((uint32_t)1 << 16) + 1, 2, SARVOLTIG_REFUSED_PAGE_LINK},
    {1, UINT32_MAX, SARVOLTIG_REFUSED_PAGE_LINK},
};

static void run_links(void)
{
    size_t i;

    for (i = 0; i < sizeof links / sizeof links[0]; i++) {
        make_pointers();
        put32(LAST_POINTER + 8, links[i].first);
        put32(LAST_POINTER + 12, links[i].last);
        take_in_header();
        answers("layout with any links", layout(), SARVOLTIG_CODE_DONE, 2, 512, 3, 0);
        if (links[i].code == SARVOLTIG_CODE_DONE) {
            answers("bounds", bounds(SARVOLTIG_TABLE_GENRES), SARVOLTIG_CODE_DONE, 2, links[i].first, links[i].last, 0);
        } else {
            refused("bounds that name no page", bounds(SARVOLTIG_TABLE_GENRES), links[i].code, 0, 0);
        }
        refused("bounds of a table with no pointer", bounds(SARVOLTIG_TABLE_KEYS), SARVOLTIG_REFUSED_NO_POINTER, 0, 0);
    }
}

/* Into results of every length, and with nothing written but the result. */
static void run_rooms(void)
{
    const uint32_t table = SARVOLTIG_TABLE_GENRES;
    size_t room;

    make_pointers();
    take_in_header();
    for (room = 0; room <= 3; room++) {
        size_t taken = room < 2 ? room : 2;

        answers("layout", sarvoltig_layout(LEN, image, LEN, map, 1, clear(), room), SARVOLTIG_CODE_DONE, taken, 512, 3,
                0);
        answers("bounds", sarvoltig_bounds(LEN, image, LEN, map, 1, table, clear(), room), SARVOLTIG_CODE_DONE, taken,
                1, 2, 0);
        answers("refused layout", sarvoltig_layout(0, image, LEN, map, 1, clear(), room), SARVOLTIG_REFUSED_LENGTH,
                taken, 0, 0, 0);
        answers("refused bounds", sarvoltig_bounds(LEN, image, LEN, map, 1, 9, clear(), room),
                SARVOLTIG_REFUSED_TABLE_TYPE, taken, 0, 0, 0);
    }
    expect(map[0] == 1 && memcmp(image, file, 512) == 0 && image[512] == 0xa5 && image[LEN - 1] == 0xa5,
           "layout and bounds leave image and map");
    layout();
    expect(result[SARVOLTIG_AT_LAYOUT_LEN_PAGE] == 512 && result[SARVOLTIG_AT_LAYOUT_PAGES] == 3,
           "the places of the layout's numbers");
    bounds(table);
    expect(result[SARVOLTIG_AT_BOUNDS_FIRST_PAGE] == 1 && result[SARVOLTIG_AT_BOUNDS_LAST_PAGE] == 2,
           "the places of the bounds");
}

/* Waiting, into results of every length. */
static void run_waits(void)
{
    size_t room;

    open_intake();
    for (room = 0; room <= 4; room++) {
        size_t taken = room < 3 ? room : 3;

        answers("layout that waits", sarvoltig_layout(LEN, image, LEN, map, 1, clear(), room), SARVOLTIG_CODE_WAITING,
                taken, 0, 0, 0);
        answers("bounds that wait", sarvoltig_bounds(LEN, image, LEN, map, 1, 0, clear(), room), SARVOLTIG_CODE_WAITING,
                taken, 0, 0, 0);
    }
}

/* One page for the whole file: no link can name a page. */
static void run_one_page(void)
{
    make_pointers();
    put32(0x04, LEN);
    take_in_header();
    answers("layout of one page", layout(), SARVOLTIG_CODE_DONE, 2, LEN, 1, 0);
    refused("bounds in one page", bounds(SARVOLTIG_TABLE_GENRES), SARVOLTIG_REFUSED_PAGE_LINK, 0, 0);
}

/* The longest page, and one that is longer. */
static void run_long_pages(void)
{
    static uint8_t large[3 * 32768];
    const uint32_t table = SARVOLTIG_TABLE_GENRES;

    make_pointers();
    memset(words, 0, sizeof words);
    words[0] = 1;
    put32(0x04, 32768);
    memcpy(large, file, 512);
    answers("pages of 32,768 bytes", sarvoltig_layout(sizeof large, large, sizeof large, words, WORDS, clear(), N),
            SARVOLTIG_CODE_DONE, 2, 32768, 3, 0);
    answers("bounds", sarvoltig_bounds(sizeof large, large, sizeof large, words, WORDS, table, clear(), N),
            SARVOLTIG_CODE_DONE, 2, 1, 2, 0);
    put32(0x04, 49152);
    memcpy(large, file, 512);
    refused("pages of 49,152 bytes", sarvoltig_layout(sizeof large, large, sizeof large, words, WORDS, clear(), N),
            SARVOLTIG_REFUSED_FILE_HEADER, 0, 0);
}

void check_fetching(void)
{
    run_maps();
    run_refusals();
    run_broken();
    run_links();
    run_rooms();
    run_waits();
    run_one_page();
    run_long_pages();
}
