/* Case D (rule 9.11), block by block, and the same with other row counts and page headers. */
#include "check.h"

static void run_intake(void)
{
    refused("delivery before any opening", sarvoltig_deliver(0, image, LEN, map, 1, 0, file, 512, clear(), N),
            SARVOLTIG_REFUSED_LENGTH, 0, 0);
    refused("opening of no file", sarvoltig_open(0, image, LEN, map, 1, clear(), N), SARVOLTIG_REFUSED_LENGTH, 0, 0);
    refused("opening with a short image", sarvoltig_open(LEN, image, LEN - 1, map, 1, clear(), N),
            SARVOLTIG_REFUSED_IMAGE_SHORT, 0, 0);
    refused("opening with no map", sarvoltig_open(LEN, image, LEN, map, 0, clear(), N), SARVOLTIG_REFUSED_MAP_SHORT, 0,
            0);
    expect(map[0] == FILLED, "a refused opening leaves the map");
    answers("opening", open_intake(), SARVOLTIG_CODE_DONE, 1, 3, 0, 0);
    expect(map[0] == 0, "an opening clears the map");
    answers("rows before any block", rows(SARVOLTIG_TABLE_GENRES, ROWS), SARVOLTIG_CODE_WAITING, 3, 0, 0, 0);
    answers("block 2", deliver(2, file + 1024, 512), SARVOLTIG_CODE_DONE, 1, 1, 0, 0);
    answers("block 0", deliver(0, file, 512), SARVOLTIG_CODE_DONE, 1, 2, 0, 0);
    answers("rows with page 1 missing", rows(SARVOLTIG_TABLE_GENRES, ROWS), SARVOLTIG_CODE_WAITING, 3, 0, 0, 1);
    answers("record with page 1 missing", record(SARVOLTIG_TABLE_GENRES, 0), SARVOLTIG_CODE_WAITING, 3, 0, 0, 1);
    answers("text with page 1 missing", text(SARVOLTIG_TABLE_GENRES, 0, 0), SARVOLTIG_CODE_WAITING, 3, 0, 0, 1);
    answers("block 0 again", deliver(0, file, 512), SARVOLTIG_CODE_SAME, 1, 2, 0, 0);
    refused("block 0 with other bytes", deliver(0, file + 512, 512), SARVOLTIG_REFUSED_BLOCK_DIFFERS, 0, 0);
    refused("block 3", deliver(3, file, 512), SARVOLTIG_REFUSED_BLOCK_NUMBER, 0, 0);
    refused("block 2^40", deliver((uint64_t)1 << 40, file, 512), SARVOLTIG_REFUSED_BLOCK_NUMBER, 0, 0);
    refused("a short piece", deliver(1, file, 511), SARVOLTIG_REFUSED_PIECE_SIZE, 0, 0);
    expect(map[0] == 5, "the map has blocks 0 and 2");
    answers("block 1", deliver(1, file + 512, 512), SARVOLTIG_CODE_DONE, 1, 3, 0, 0);
    expect(map[0] == 7 && memcmp(image, file, LEN) == 0, "the image is the file");
}

static void run_questions(void)
{
    refused("rows for no list", rows(SARVOLTIG_TABLE_GENRES, 0), SARVOLTIG_REFUSED_LIST_SHORT, 1, 0);
    expect(list[0] == 0xa5a5a5a5u, "a refusal leaves the list");
    answers("rows", rows(SARVOLTIG_TABLE_GENRES, ROWS), SARVOLTIG_CODE_DONE, 2, 1, 2, 0);
    expect(list[0] == 1080 && list[1] == 0xa5a5a5a5u, "the list has the row's place, and no other");
    refused("rows of an unknown table", rows(9, ROWS), SARVOLTIG_REFUSED_TABLE_TYPE, 0, 0);
    refused("rows of table 2^32 - 1", rows(UINT32_MAX, ROWS), SARVOLTIG_REFUSED_TABLE_TYPE, 0, 0);
    refused("rows of a table with no pointer", rows(SARVOLTIG_TABLE_TRACKS, ROWS), SARVOLTIG_REFUSED_NO_POINTER, 0, 0);
    answers("record 0", record(SARVOLTIG_TABLE_GENRES, 0), SARVOLTIG_CODE_DONE, 3, 2, 1, 7);
    refused("record 1", record(SARVOLTIG_TABLE_GENRES, 1), SARVOLTIG_REFUSED_NO_ROW, 0, 0);
    refused("record 2^32", record(SARVOLTIG_TABLE_GENRES, (uint64_t)1 << 32), SARVOLTIG_REFUSED_NO_ROW, 0, 0);
    answers("text", text(SARVOLTIG_TABLE_GENRES, 0, 0), SARVOLTIG_CODE_DONE, 3, 1085, 4, SARVOLTIG_ENCODING_ASCII);
    expect(memcmp(image + 1085, "Funk", 4) == 0, "the text is Funk");
    refused("text of slot 1", text(SARVOLTIG_TABLE_GENRES, 0, 1), SARVOLTIG_REFUSED_NO_SLOT, 0, 0);
    refused("text of slot 2^32", text(SARVOLTIG_TABLE_GENRES, 0, (uint64_t)1 << 32), SARVOLTIG_REFUSED_NO_SLOT, 0, 0);
    answers("text with a result of two",
            sarvoltig_text(LEN, image, LEN, map, 1, SARVOLTIG_TABLE_GENRES, 0, 0, clear(), 2), SARVOLTIG_CODE_DONE, 2,
            1085, 4, 0);
    answers("text with no result", sarvoltig_text(LEN, image, LEN, map, 1, SARVOLTIG_TABLE_GENRES, 0, 0, clear(), 0),
            SARVOLTIG_CODE_DONE, 0, 0, 0, 0);
    expect(map[0] == 7 && memcmp(image, file, LEN) == 0, "a question leaves image and map");
}

/* The list has the row's place, then elements that the question for all rows left as they were. */
static void run_lists(void)
{
    answers("record in the list", record_in(SARVOLTIG_TABLE_GENRES, ROWS, 0), SARVOLTIG_CODE_DONE, 3, 2, 1, 7);
    answers("text in the list", text_in(SARVOLTIG_TABLE_GENRES, ROWS, 0, 0), SARVOLTIG_CODE_DONE, 3, 1085, 4,
            SARVOLTIG_ENCODING_ASCII);
    answers("record in a list of one", record_in(SARVOLTIG_TABLE_GENRES, 1, 0), SARVOLTIG_CODE_DONE, 3, 2, 1, 7);
    refused("record in no list", record_in(SARVOLTIG_TABLE_GENRES, 0, 0), SARVOLTIG_REFUSED_NO_ROW, 0, 0);
    refused("record past the list", record_in(SARVOLTIG_TABLE_GENRES, 1, 1), SARVOLTIG_REFUSED_NO_ROW, 0, 0);
    refused("text past the list", text_in(SARVOLTIG_TABLE_GENRES, 1, 1, 0), SARVOLTIG_REFUSED_NO_ROW, 0, 0);
    refused("record in the list, 2^32", record_in(SARVOLTIG_TABLE_GENRES, ROWS, (uint64_t)1 << 32),
            SARVOLTIG_REFUSED_NO_ROW, 0, 0);
    refused("text in the list, 2^64 - 1", text_in(SARVOLTIG_TABLE_GENRES, ROWS, UINT64_MAX, 0),
            SARVOLTIG_REFUSED_NO_ROW, 0, 0);
    refused("text in the list of slot 1", text_in(SARVOLTIG_TABLE_GENRES, ROWS, 0, 1), SARVOLTIG_REFUSED_NO_SLOT, 0, 0);
    refused("text in the list of slot 2^32", text_in(SARVOLTIG_TABLE_GENRES, ROWS, 0, (uint64_t)1 << 32),
            SARVOLTIG_REFUSED_NO_SLOT, 0, 0);
    refused("text past the list of slot 1", text_in(SARVOLTIG_TABLE_GENRES, 1, 1, 1), SARVOLTIG_REFUSED_NO_SLOT, 0, 0);
    refused("record in the list of an unknown table", record_in(9, ROWS, 0), SARVOLTIG_REFUSED_TABLE_TYPE, 0, 0);
    refused("text in the list of table 2^32 - 1", text_in(UINT32_MAX, ROWS, 0, 1), SARVOLTIG_REFUSED_TABLE_TYPE, 0, 0);
    refused("record in the list of another table", record_in(SARVOLTIG_TABLE_KEYS, ROWS, 0),
            SARVOLTIG_REFUSED_PAGE_TYPE, 2, 0);
    refused("text in the list of another table", text_in(SARVOLTIG_TABLE_KEYS, ROWS, 0, 0), SARVOLTIG_REFUSED_PAGE_TYPE,
            2, 0);
    refused("record in a list, with no file",
            sarvoltig_record_in(0, image, LEN, map, 1, SARVOLTIG_TABLE_GENRES, list, ROWS, 0, clear(), N),
            SARVOLTIG_REFUSED_LENGTH, 0, 0);
    refused("text in a list, with no map",
            sarvoltig_text_in(LEN, image, LEN, map, 0, SARVOLTIG_TABLE_GENRES, list, ROWS, 0, 0, clear(), N),
            SARVOLTIG_REFUSED_MAP_SHORT, 0, 0);
}

static void run_list_results(void)
{
    answers("record in the list with no result",
            sarvoltig_record_in(LEN, image, LEN, map, 1, SARVOLTIG_TABLE_GENRES, list, ROWS, 0, clear(), 0),
            SARVOLTIG_CODE_DONE, 0, 0, 0, 0);
    answers("text in the list with a result of two",
            sarvoltig_text_in(LEN, image, LEN, map, 1, SARVOLTIG_TABLE_GENRES, list, ROWS, 0, 0, clear(), 2),
            SARVOLTIG_CODE_DONE, 2, 1085, 4, 0);
    answers("text in the list with no result",
            sarvoltig_text_in(LEN, image, LEN, map, 1, SARVOLTIG_TABLE_GENRES, list, ROWS, 0, 0, clear(), 0),
            SARVOLTIG_CODE_DONE, 0, 0, 0, 0);
    expect(map[0] == 7 && memcmp(image, file, LEN) == 0, "reading from a list leaves image and map");
    expect(list[0] == 1080 && list[1] == 0xa5a5a5a5u, "reading from a list leaves the list");
}

/* Lists that no question wrote. */
static void run_wrong_lists(void)
{
    static const uint32_t wrong[] = {1064, 1079, 1081, 0, 511, 552, 1535, 1536, UINT32_MAX};
    size_t i;

    for (i = 0; i < sizeof wrong / sizeof wrong[0]; i++) {
        list[0] = wrong[i];
        refused("record at a wrong place", record_in(SARVOLTIG_TABLE_GENRES, ROWS, 0), SARVOLTIG_REFUSED_NO_ROW, 0, 0);
        refused("text at a wrong place", text_in(SARVOLTIG_TABLE_GENRES, ROWS, 0, 0), SARVOLTIG_REFUSED_NO_ROW, 0, 0);
        expect(list[0] == wrong[i], "a refusal leaves the list that it reads");
    }
    list[1] = 1080;
    answers("record behind a place on another page", record_in(SARVOLTIG_TABLE_GENRES, ROWS, 1), SARVOLTIG_CODE_DONE, 3,
            2, 1, 7);
    list[0] = 1080;
    refused("record at a repeated place", record_in(SARVOLTIG_TABLE_GENRES, ROWS, 1), SARVOLTIG_REFUSED_NO_ROW, 0, 0);
    refused("text at a repeated place", text_in(SARVOLTIG_TABLE_GENRES, ROWS, 1, 0), SARVOLTIG_REFUSED_NO_ROW, 0, 0);
    expect(list[0] == 1080 && list[1] == 1080 && list[2] == 0xa5a5a5a5u, "reading from a list leaves the list");
}

/* A new intake over the same buffers: the image has the file, but its blocks are not held. */
static void run_list_waits(void)
{
    answers("opening again", open_intake(), SARVOLTIG_CODE_DONE, 1, 3, 0, 0);
    answers("record in a list before any block", record_in(SARVOLTIG_TABLE_GENRES, ROWS, 0), SARVOLTIG_CODE_WAITING, 3,
            0, 0, 0);
    answers("text past a list before any block", text_in(SARVOLTIG_TABLE_GENRES, 1, 1, 0), SARVOLTIG_CODE_WAITING, 3, 0,
            0, 0);
    answers("block 0", deliver(0, file, 512), SARVOLTIG_CODE_DONE, 1, 1, 0, 0);
    answers("record in a list with page 2 missing", record_in(SARVOLTIG_TABLE_GENRES, ROWS, 0), SARVOLTIG_CODE_WAITING,
            3, 0, 0, 2);
    answers("text in a list with page 2 missing", text_in(SARVOLTIG_TABLE_GENRES, ROWS, 0, 0), SARVOLTIG_CODE_WAITING,
            3, 0, 0, 2);
    refused("text past a list with page 2 missing", text_in(SARVOLTIG_TABLE_GENRES, 1, 1, 0), SARVOLTIG_REFUSED_NO_ROW,
            0, 0);
    answers("block 2", deliver(2, file + 1024, 512), SARVOLTIG_CODE_DONE, 1, 2, 0, 0);
    answers("record in a list with page 1 missing", record_in(SARVOLTIG_TABLE_GENRES, ROWS, 0), SARVOLTIG_CODE_DONE, 3,
            2, 1, 7);
    answers("text in a list with page 1 missing", text_in(SARVOLTIG_TABLE_GENRES, ROWS, 0, 0), SARVOLTIG_CODE_DONE, 3,
            1085, 4, SARVOLTIG_ENCODING_ASCII);
    expect(map[0] == 5 && list[0] == 1080, "reading from a list leaves map and list, also when it waits");
}

/* The row counts of page 2: its second entry is present, and no other. */
static const struct {
    const char *what;
    uint8_t bytes[3];
    uint32_t code;
} counts[] = {
    {"two entries, one row", {0x02, 0x20, 0x00}, SARVOLTIG_CODE_DONE},
    {"16 entries, one row", {0x10, 0x20, 0x00}, SARVOLTIG_CODE_DONE},
    {"17 entries, one row", {0x11, 0x20, 0x00}, SARVOLTIG_CODE_DONE},
    {"two entries, no row", {0x02, 0x00, 0x00}, SARVOLTIG_REFUSED_ROW_INDEX},
    {"two entries, two rows", {0x02, 0x40, 0x00}, SARVOLTIG_REFUSED_ROW_INDEX},
    {"two entries, 1,025 rows", {0x02, 0x20, 0x80}, SARVOLTIG_REFUSED_ROW_INDEX},
    {"one entry, one row", {0x01, 0x20, 0x00}, SARVOLTIG_REFUSED_ROW_INDEX},
    {"8,191 entries, one row", {0xff, 0x3f, 0x00}, SARVOLTIG_REFUSED_ROW_INDEX},
};

/* Each by the questions and from a list. Bytes 22 and 23 of a page mean nothing. */
static void run_counts(void)
{
    size_t i;

    for (i = 0; i < sizeof counts / sizeof counts[0]; i++) {
        const char *what = counts[i].what;

        make_file();
        memcpy(&file[1024 + 0x18], counts[i].bytes, 3);
        memset(&file[1024 + 0x22], (int)i, 2);
        take_in_file();
        if (counts[i].code == SARVOLTIG_CODE_DONE) {
            list[0] = 0;
            answers(what, rows(SARVOLTIG_TABLE_GENRES, ROWS), SARVOLTIG_CODE_DONE, 2, 1, 2, 0);
            expect(list[0] == 1080, "the list has the row's place");
            answers(what, record(SARVOLTIG_TABLE_GENRES, 0), SARVOLTIG_CODE_DONE, 3, 2, 1, 7);
            answers(what, record_in(SARVOLTIG_TABLE_GENRES, ROWS, 0), SARVOLTIG_CODE_DONE, 3, 2, 1, 7);
        } else {
            list[0] = 1080;
            refused(what, rows(SARVOLTIG_TABLE_GENRES, ROWS), counts[i].code, 2, 0);
            refused(what, record(SARVOLTIG_TABLE_GENRES, 0), counts[i].code, 2, 0);
            refused(what, record_in(SARVOLTIG_TABLE_GENRES, ROWS, 0), counts[i].code, 2, 0);
        }
    }
}

/* Wrong fields of a page's header: what is added to page_index, the type, and page_flags. */
static const struct {
    const char *what;
    uint32_t more;
    uint32_t type;
    uint8_t page_flags;
    uint32_t code;
} headers[] = {
    {"another page", 1, SARVOLTIG_TABLE_GENRES, 0x24, SARVOLTIG_REFUSED_PAGE_NUMBER},
    {"a page 2^24 behind", 1u << 24, SARVOLTIG_TABLE_GENRES, 0x24, SARVOLTIG_REFUSED_PAGE_NUMBER},
    {"another table", 0, SARVOLTIG_TABLE_KEYS, 0x24, SARVOLTIG_REFUSED_PAGE_TYPE},
    {"no table", 0, SARVOLTIG_TABLE_GENRES + (1u << 24), 0x24, SARVOLTIG_REFUSED_PAGE_TYPE},
    {"another page of another table", 1, SARVOLTIG_TABLE_KEYS, 0x24, SARVOLTIG_REFUSED_PAGE_NUMBER},
    {"another page with no rows", 1, SARVOLTIG_TABLE_GENRES, 0x64, SARVOLTIG_REFUSED_PAGE_NUMBER},
    {"a page with no rows of another table", 0, SARVOLTIG_TABLE_KEYS, 0x64, SARVOLTIG_REFUSED_PAGE_TYPE},
    {"another page with no rows of another table", 1, SARVOLTIG_TABLE_KEYS, 0x64, SARVOLTIG_REFUSED_PAGE_NUMBER},
};

/* Case D with such a header, and row counts that are wrong too. */
static void take_in_header(size_t i, uint32_t page)
{
    size_t at = 512 * page;

    make_file();
    put32(at + 0x04, page + headers[i].more);
    put32(at + 0x08, headers[i].type);
    put32(at + 0x18, 2 + (3 << 13));
    file[at + 0x1b] = headers[i].page_flags;
    take_in_file();
    list[0] = 1080;
}

/* On page 1, which has no rows, and on page 2, which is the only one that reading from the list looks at. */
static void run_headers(void)
{
    size_t i;

    for (i = 0; i < sizeof headers / sizeof headers[0]; i++) {
        const char *what = headers[i].what;
        uint32_t page;

        for (page = 1; page <= 2; page++) {
            take_in_header(i, page);
            refused(what, rows(SARVOLTIG_TABLE_GENRES, ROWS), headers[i].code, page, 0);
            refused(what, record(SARVOLTIG_TABLE_GENRES, 0), headers[i].code, page, 0);
            refused(what, text(SARVOLTIG_TABLE_GENRES, 0, 0), headers[i].code, page, 0);
            if (page == 1) {
                answers(what, record_in(SARVOLTIG_TABLE_GENRES, 1, 0), SARVOLTIG_CODE_DONE, 3, 2, 1, 7);
                answers(what, text_in(SARVOLTIG_TABLE_GENRES, 1, 0, 0), SARVOLTIG_CODE_DONE, 3, 1085, 4,
                        SARVOLTIG_ENCODING_ASCII);
            } else {
                refused(what, record_in(SARVOLTIG_TABLE_GENRES, 1, 0), headers[i].code, 2, 0);
                refused(what, text_in(SARVOLTIG_TABLE_GENRES, 1, 0, 0), headers[i].code, 2, 0);
            }
        }
    }
}

void check_case_d(void)
{
    run_intake();
    run_questions();
    run_lists();
    run_list_results();
    run_wrong_lists();
    run_list_waits();
    run_counts();
    run_headers();
}
