/* Rows of several tables, with absent entries and two for one row. */
#include "check.h"

/* A number of a row: its place in the result, 0 where a record does not have it; its offset in the row; and itself. */
typedef struct {
    size_t place;
    size_t offset;
    uint32_t number;
} Number;

/* Rows of one table, and their numbers, by offset. */
typedef struct {
    const char *what;
    uint32_t table;
    size_t empty; /* the offset of an empty string */
    size_t count;
    Number numbers[N];
} Record;

/* The name of the artist is that empty string, by its offset at 09. */
static const Record records[] = {
    {"a genre", SARVOLTIG_TABLE_GENRES, 0x04, 1, {{SARVOLTIG_AT_GENRE_ID, 0x00, 0xf1020304}}},
    {"an artist", SARVOLTIG_TABLE_ARTISTS, 0x08, 3,
     {{0, 0x00, 0x60}, {SARVOLTIG_AT_ARTIST_ID, 0x04, 0xf1000004}, {0, 0x09, 0x08}}},
    {"an album", SARVOLTIG_TABLE_ALBUMS, 0x00, 2,
     {{SARVOLTIG_AT_ALBUM_ARTIST_ID, 0x08, 0xf1000008}, {SARVOLTIG_AT_ALBUM_ID, 0x0c, 0xf100000c}}},
    {"a label", SARVOLTIG_TABLE_LABELS, 0x04, 1, {{SARVOLTIG_AT_LABEL_ID, 0x00, 0xf1000000}}},
    {"a key", SARVOLTIG_TABLE_KEYS, 0x08, 1, {{SARVOLTIG_AT_KEY_ID, 0x00, 0xf1000000}}},
    {"a color", SARVOLTIG_TABLE_COLORS, 0x08, 1, {{SARVOLTIG_AT_COLOR_ID, 0x05, 0xf105}}},
    {"a playlist", SARVOLTIG_TABLE_PLAYLIST_TREE, 0x14, 4,
     {{SARVOLTIG_AT_PLAYLIST_NODE_PARENT_ID, 0x00, 0xf1000000},
      {SARVOLTIG_AT_PLAYLIST_NODE_SORT_ORDER, 0x08, 0xf1000008},
      {SARVOLTIG_AT_PLAYLIST_NODE_ID, 0x0c, 0xf100000c},
      {SARVOLTIG_AT_PLAYLIST_NODE_RAW_IS_FOLDER, 0x10, 0xf1000010}}},
    {"an entry of a playlist", SARVOLTIG_TABLE_PLAYLIST_ENTRIES, 0x0c, 3,
     {{SARVOLTIG_AT_PLAYLIST_ENTRY_INDEX, 0x00, 0xf1000000},
      {SARVOLTIG_AT_PLAYLIST_ENTRY_TRACK_ID, 0x04, 0xf1000004},
      {SARVOLTIG_AT_PLAYLIST_ENTRY_PLAYLIST_ID, 0x08, 0xf1000008}}},
    {"an artwork", SARVOLTIG_TABLE_ARTWORK, 0x04, 1, {{SARVOLTIG_AT_ARTWORK_ID, 0x00, 0xf1000000}}},
    {"a track", SARVOLTIG_TABLE_TRACKS, 0x00, 22,
     {{SARVOLTIG_AT_TRACK_SAMPLE_RATE, 0x08, 0xf1000008}, {SARVOLTIG_AT_TRACK_COMPOSER_ID, 0x0c, 0xf100000c},
      {SARVOLTIG_AT_TRACK_FILE_SIZE, 0x10, 0xf1000010},   {SARVOLTIG_AT_TRACK_ARTWORK_ID, 0x1c, 0xf100001c},
      {SARVOLTIG_AT_TRACK_KEY_ID, 0x20, 0xf1000020},      {SARVOLTIG_AT_TRACK_ORIGINAL_ARTIST_ID, 0x24, 0xf1000024},
      {SARVOLTIG_AT_TRACK_LABEL_ID, 0x28, 0xf1000028},    {SARVOLTIG_AT_TRACK_REMIXER_ID, 0x2c, 0xf100002c},
      {SARVOLTIG_AT_TRACK_BITRATE, 0x30, 0xf1000030},     {SARVOLTIG_AT_TRACK_TRACK_NUMBER, 0x34, 0xf1000034},
      {SARVOLTIG_AT_TRACK_TEMPO, 0x38, 0xf1000038},       {SARVOLTIG_AT_TRACK_GENRE_ID, 0x3c, 0xf100003c},
      {SARVOLTIG_AT_TRACK_ALBUM_ID, 0x40, 0xf1000040},    {SARVOLTIG_AT_TRACK_ARTIST_ID, 0x44, 0xf1000044},
      {SARVOLTIG_AT_TRACK_ID, 0x48, 0xf1000048},          {SARVOLTIG_AT_TRACK_DISC_NUMBER, 0x4c, 0xf14c},
      {SARVOLTIG_AT_TRACK_PLAY_COUNT, 0x4e, 0xf14e},      {SARVOLTIG_AT_TRACK_YEAR, 0x50, 0xf150},
      {SARVOLTIG_AT_TRACK_SAMPLE_DEPTH, 0x52, 0xf152},    {SARVOLTIG_AT_TRACK_DURATION, 0x54, 0xf154},
      {SARVOLTIG_AT_TRACK_COLOR_ID, 0x58, 0x58},          {SARVOLTIG_AT_TRACK_RATING, 0x59, 0xf1}}},
};

/* Page and index entry of the rows of an export of one table. */
static const uint64_t named[3][2] = {{1, 0}, {2, 1}, {2, 17}};

/* Where these rows start, and where the offsets of the last two stand. */
enum { FIRST = 512 + 0x28, SECOND = 1024 + 0x28, OFFSET_1 = 1536 - 8, OFFSET_17 = 1536 - 36 - 8 };

/* An export of one table: page 1 has one index entry, page 2 has 18, of which 1 and 17 are present and name one row. */
static void make_rows(const Record *r)
{
    size_t i;

    memset(file, 0, sizeof file);
    put32(0x04, 512);
    put32(0x08, 1);
    put32(0x1c, r->table);
    put32(0x24, 1);
    put32(0x28, 2);
    put32(512 + 0x04, 1);
    put32(512 + 0x08, r->table);
    put32(512 + 0x0c, 2);
    put32(512 + 0x18, 1 + (1 << 13));
    file[1024 - 4] = 0x01;
    put32(1024 + 0x04, 2);
    put32(1024 + 0x08, r->table);
    put32(1024 + 0x18, 18 + (2 << 13));
    file[1536 - 4] = 0x02;
    file[1536 - 36 - 4] = 0x02;
    for (i = 0; i < r->count; i++) {
        put32(FIRST + r->numbers[i].offset, r->numbers[i].number);
        put32(SECOND + r->numbers[i].offset, r->numbers[i].number);
    }
    file[FIRST + r->empty] = 0x03;
    file[SECOND + r->empty] = 0x03;
}

/* Record k by the question and from the list, into results of every length. */
static void has_record(const Record *r, uint64_t k)
{
    uint64_t values[N] = {named[k][0], named[k][1]};
    size_t count = 2;
    size_t i;

    for (i = 0; i < r->count; i++) {
        if (r->numbers[i].place > 0) {
            values[r->numbers[i].place] = r->numbers[i].number;
            count++;
        }
    }
    for (i = 0; i <= N; i++) {
        size_t taken = i < count ? i : count;

        has_values(r->what, sarvoltig_record(LEN, image, LEN, map, 1, r->table, k, clear(), i), SARVOLTIG_CODE_DONE,
                   taken, values);
        has_values(r->what, sarvoltig_record_in(LEN, image, LEN, map, 1, r->table, list, ROWS, k, clear(), i),
                   SARVOLTIG_CODE_DONE, taken, values);
    }
}

/* A row that two entries name is found twice, each time with its own entry. */
static void run_records(void)
{
    size_t i;
    uint64_t k;

    for (i = 0; i < sizeof records / sizeof records[0]; i++) {
        const Record *r = &records[i];

        make_rows(r);
        take_in_file();
        answers(r->what, rows(r->table, ROWS), SARVOLTIG_CODE_DONE, 2, 3, 2, 0);
        expect(list[0] == FIRST && list[1] == SECOND && list[2] == SECOND, "two entries name one row");
        for (k = 0; k < 3; k++) {
            has_record(r, k);
        }
        refused(r->what, record(r->table, 3), SARVOLTIG_REFUSED_NO_ROW, 0, 0);
    }
}

/* A list that is too short is refused also where a page is missing; a record that no table has tells which one. */
static void run_short_lists(void)
{
    const uint32_t table = records[0].table;

    make_rows(&records[0]);
    open_intake();
    deliver(0, file, 512);
    deliver(1, file + 512, 512);
    refused("a short list, page 2 missing", rows(table, 0), SARVOLTIG_REFUSED_LIST_SHORT, 1, 0);
    answers("the page waited for", record(table, UINT64_MAX), SARVOLTIG_CODE_WAITING, 3, 1, 1, 2);
    answers("a list of that length", rows(table, 1), SARVOLTIG_CODE_WAITING, 3, 1, 1, 2);
    deliver(2, file + 1024, 512);
    refused("a short list, all pages there", rows(table, 2), SARVOLTIG_REFUSED_LIST_SHORT, 3, 0);
    refused("no page waited for", record(table, UINT64_MAX), SARVOLTIG_REFUSED_NO_ROW, 0, 0);
    answers("a list of the new length", rows(table, 3), SARVOLTIG_CODE_DONE, 2, 3, 2, 0);
}

/*
 * Genres with other offsets for entries 1 and 17 of page 2, and the code of each. At 0 is a row, at 16 one whose string
 * is malformed; at 424 the row fits before the index and its string does not; from 425 on no row fits.
 */
static const struct {
    const char *what;
    uint32_t offsets[2];
    uint32_t codes[2];
} row_faults[] = {
    {"entry 1 does not fit", {425, 0}, {SARVOLTIG_REFUSED_ROW_SHORT, SARVOLTIG_CODE_DONE}},
    {"entry 17 does not fit", {0, 425}, {SARVOLTIG_CODE_DONE, SARVOLTIG_REFUSED_ROW_SHORT}},
    {"a malformed string of entry 1", {16, 0}, {SARVOLTIG_REFUSED_TEXT_FAULT, SARVOLTIG_CODE_DONE}},
    {"a malformed string of entry 17", {0, 16}, {SARVOLTIG_CODE_DONE, SARVOLTIG_REFUSED_TEXT_FAULT}},
    {"a string of entry 17 outside", {0, 424}, {SARVOLTIG_CODE_DONE, SARVOLTIG_REFUSED_TEXT_FAULT}},
    {"neither fits", {425, 470}, {SARVOLTIG_REFUSED_ROW_SHORT, SARVOLTIG_REFUSED_ROW_SHORT}},
    {"a malformed string, then a row that does not fit",
     {16, 425},
     {SARVOLTIG_REFUSED_TEXT_FAULT, SARVOLTIG_REFUSED_ROW_SHORT}},
    {"a row that does not fit, then a malformed string",
     {425, 16},
     {SARVOLTIG_REFUSED_ROW_SHORT, SARVOLTIG_REFUSED_TEXT_FAULT}},
};

static void take_in_row_fault(size_t i)
{
    make_rows(&records[0]);
    put16(OFFSET_1, row_faults[i].offsets[0]);
    put16(OFFSET_17, row_faults[i].offsets[1]);
    take_in_file();
    list[0] = FIRST;
    list[1] = SECOND + row_faults[i].offsets[0];
    list[2] = SECOND + row_faults[i].offsets[1];
}

/* The questions meet the first fault, also where the row asked for is right. From the list each row has its own. */
static void run_row_faults(void)
{
    size_t i;
    size_t row;

    for (i = 0; i < sizeof row_faults / sizeof row_faults[0]; i++) {
        const char *what = row_faults[i].what;
        const uint32_t *code = row_faults[i].codes;
        size_t first = code[0] != SARVOLTIG_CODE_DONE ? 0 : 1;

        take_in_row_fault(i);
        refused(what, rows(SARVOLTIG_TABLE_GENRES, ROWS), code[first], 2, named[1 + first][1]);
        refused(what, record(SARVOLTIG_TABLE_GENRES, 0), code[first], 2, named[1 + first][1]);
        refused(what, text(SARVOLTIG_TABLE_GENRES, 0, 0), code[first], 2, named[1 + first][1]);
        answers(what, record_in(SARVOLTIG_TABLE_GENRES, 3, 0), SARVOLTIG_CODE_DONE, 3, 1, 0, 0xf1020304);
        for (row = 0; row < 2; row++) {
            uint64_t entry = named[1 + row][1];

            if (code[row] == SARVOLTIG_CODE_DONE) {
                answers(what, record_in(SARVOLTIG_TABLE_GENRES, 3, 1 + row), SARVOLTIG_CODE_DONE, 3, 2, entry,
                        0xf1020304);
            } else {
                refused(what, record_in(SARVOLTIG_TABLE_GENRES, 3, 1 + row), code[row], 2, entry);
                refused(what, text_in(SARVOLTIG_TABLE_GENRES, 3, 1 + row, 0), code[row], 2, entry);
            }
        }
    }
}

/* A refusal into results of every length. */
static void run_short_refusals(void)
{
    static const uint64_t values[2] = {2, 17};
    const uint32_t table = SARVOLTIG_TABLE_GENRES;
    size_t i;

    take_in_row_fault(1);
    for (i = 0; i <= N; i++) {
        size_t taken = i < 2 ? i : 2;

        has_values("refused rows", sarvoltig_rows(LEN, image, LEN, map, 1, table, list, ROWS, clear(), i),
                   SARVOLTIG_REFUSED_ROW_SHORT, taken, values);
        has_values("refused record", sarvoltig_record(LEN, image, LEN, map, 1, table, 0, clear(), i),
                   SARVOLTIG_REFUSED_ROW_SHORT, taken, values);
        has_values("refused text", sarvoltig_text(LEN, image, LEN, map, 1, table, 0, 0, clear(), i),
                   SARVOLTIG_REFUSED_ROW_SHORT, taken, values);
        has_values("refused record in a list",
                   sarvoltig_record_in(LEN, image, LEN, map, 1, table, list, ROWS, 2, clear(), i),
                   SARVOLTIG_REFUSED_ROW_SHORT, taken, values);
        has_values("refused text in a list",
                   sarvoltig_text_in(LEN, image, LEN, map, 1, table, list, ROWS, 2, 0, clear(), i),
                   SARVOLTIG_REFUSED_ROW_SHORT, taken, values);
    }
}

void check_rows(void)
{
    run_records();
    run_short_lists();
    run_row_faults();
    run_short_refusals();
}
