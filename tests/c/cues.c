/* A small ANLZ file with cues and waveforms. */
#include "check.h"

/*
 * An ANLZ file of cues and waveforms, the places of its sections, and the length of a cue: hot cues, a point and a
 * loop, a waveform of each sort, a memory loop, and a list of no cues.
 */
enum { HOT = 0x0c, DETAIL = 0x94, MEMORY = 0xae, COLOR = 0xfe, EMPTY = 0x11a, PREVIEW = 0x132, MARKED_LEN = 0x1d6a };
enum { CUE = 0x38, PREVIEW_ENTRIES = 1200 };

static uint8_t marked[MARKED_LEN];

static void put32_be(size_t at, uint32_t n)
{
    size_t i;

    for (i = 0; i < 4; i++) {
        marked[at + i] = (uint8_t)(n >> (24 - 8 * i));
    }
}

/* A section, and the two numbers behind its envelope. */
static void put_section(size_t at, const char *code, uint32_t len_header, uint32_t len, uint32_t a, uint32_t b)
{
    memcpy(&marked[at], code, 4);
    put32_be(at + 0x04, len_header);
    put32_be(at + 0x08, len);
    put32_be(at + 0x0c, a);
    put32_be(at + 0x10, b);
}

/* An entry of a cue list. Its status, at 10, is 0 for a loop. */
static void put_cue(size_t at, uint32_t hot_cue, uint8_t kind, uint32_t time, uint32_t loop_time)
{
    put_section(at, "PCPT", 0x1c, CUE, hot_cue, kind == SARVOLTIG_CUE_KIND_POINT);
    marked[at + 0x1c] = kind;
    put32_be(at + 0x20, time);
    put32_be(at + 0x24, loop_time);
}

static void make_marked(void)
{
    memset(marked, 0xee, sizeof marked);
    put_section(0, "PMAI", HOT, MARKED_LEN, 0, 0);
    put_section(HOT, "PCOB", 24, 0x18 + 2 * CUE, SARVOLTIG_CUE_LIST_TYPE_HOT, 2);
    put_cue(HOT + 0x18, 1, SARVOLTIG_CUE_KIND_POINT, 505, UINT32_MAX);
    put_cue(HOT + 0x18 + CUE, 2, SARVOLTIG_CUE_KIND_LOOP, 1000, 3000);
    put_section(DETAIL, "PWV3", 24, MEMORY - DETAIL, 1, 2);
    put_section(MEMORY, "PCOB", 12, 0x18 + CUE, SARVOLTIG_CUE_LIST_TYPE_MEMORY, 1);
    put_cue(MEMORY + 0x18, UINT32_MAX, SARVOLTIG_CUE_KIND_LOOP, UINT32_MAX - 1, 0);
    put_section(COLOR, "PWV5", 12, EMPTY - COLOR, 2, 2);
    put_section(EMPTY, "PCOB", 24, PREVIEW - EMPTY, SARVOLTIG_CUE_LIST_TYPE_HOT, 0);
    put_section(PREVIEW, "PWV4", 24, MARKED_LEN - PREVIEW, 6, PREVIEW_ENTRIES);
}

static uint32_t cue(size_t length, uint64_t k)
{
    return sarvoltig_cue(marked, length, k, clear(), N);
}

static uint32_t wave(size_t length, uint64_t sort, uint64_t k)
{
    return sarvoltig_wave(marked, length, sort, k, clear(), N);
}

/* Cue 1, a loop, and cue 0, a point, into results of up to five numbers. */
static void run_cue_results(void)
{
    static const uint64_t loop[5] = {SARVOLTIG_CUE_LIST_TYPE_HOT, 2, SARVOLTIG_CUE_KIND_LOOP, 1000, 3000};
    static const uint64_t point[4] = {SARVOLTIG_CUE_LIST_TYPE_HOT, 1, SARVOLTIG_CUE_KIND_POINT, 505};
    static const uint64_t nothing[2] = {0, 0};
    size_t room;

    for (room = 0; room <= 5; room++) {
        has_values("a loop", sarvoltig_cue(marked, MARKED_LEN, 1, clear(), room), SARVOLTIG_CODE_DONE, room, loop);
        has_values("a point", sarvoltig_cue(marked, MARKED_LEN, 0, clear(), room), SARVOLTIG_CODE_DONE,
                   room < 4 ? room : 4, point);
        has_values("no cue", sarvoltig_cue(marked, MARKED_LEN, 3, clear(), room), SARVOLTIG_REFUSED_NO_ROW,
                   room < 2 ? room : 2, nothing);
    }
}

static void run_cues(void)
{
    static const uint64_t memory[5] = {SARVOLTIG_CUE_LIST_TYPE_MEMORY, UINT32_MAX, SARVOLTIG_CUE_KIND_LOOP,
                                       UINT32_MAX - 1, 0};
    static uint8_t before[MARKED_LEN];

    make_marked();
    memcpy(before, marked, MARKED_LEN);
    run_cue_results();
    has_values("cue 2", cue(MARKED_LEN, 2), SARVOLTIG_CODE_DONE, 5, memory);
    cue(MARKED_LEN, 1);
    expect(result[SARVOLTIG_AT_CUE_LIST_TYPE] == 1 && result[SARVOLTIG_AT_CUE_HOT_CUE] == 2 &&
               result[SARVOLTIG_AT_CUE_KIND] == 2 && result[SARVOLTIG_AT_CUE_TIME] == 1000 &&
               result[SARVOLTIG_AT_CUE_LOOP_TIME] == 3000,
           "the places of a cue's numbers");
    refused("cue 3", cue(MARKED_LEN, 3), SARVOLTIG_REFUSED_NO_ROW, 0, 0);
    refused("cue 2^16", cue(MARKED_LEN, 1 << 16), SARVOLTIG_REFUSED_NO_ROW, 0, 0);
    refused("cue 2^32", cue(MARKED_LEN, (uint64_t)1 << 32), SARVOLTIG_REFUSED_NO_ROW, 0, 0);
    refused("cue 2^32 + 1", cue(MARKED_LEN, ((uint64_t)1 << 32) + 1), SARVOLTIG_REFUSED_NO_ROW, 0, 0);
    refused("cue 2^64 - 1", cue(MARKED_LEN, UINT64_MAX), SARVOLTIG_REFUSED_NO_ROW, 0, 0);
    expect(memcmp(marked, before, MARKED_LEN) == 0, "a question for a cue leaves the ANLZ file");
}

/* The first and the last entry of a sort, and those past it. */
static void run_sort(uint64_t sort, uint64_t place, uint64_t width, uint64_t count)
{
    size_t room;

    answers("entry 0", wave(MARKED_LEN, sort, 0), SARVOLTIG_CODE_DONE, 2, place, width, 0);
    answers("last entry", wave(MARKED_LEN, sort, count - 1), SARVOLTIG_CODE_DONE, 2, place + width * (count - 1), width,
            0);
    expect(result[SARVOLTIG_AT_WAVE_PLACE] == place + width * (count - 1) && result[SARVOLTIG_AT_WAVE_WIDTH] == width,
           "the places of an entry's numbers");
    for (room = 0; room <= 2; room++) {
        answers("entry 1", sarvoltig_wave(marked, MARKED_LEN, sort, 1, clear(), room), SARVOLTIG_CODE_DONE, room,
                place + width, width, 0);
        answers("no entry", sarvoltig_wave(marked, MARKED_LEN, sort, count, clear(), room), SARVOLTIG_REFUSED_NO_ROW,
                room, 0, 0, 0);
    }
    refused("entry 2^32", wave(MARKED_LEN, sort, (uint64_t)1 << 32), SARVOLTIG_REFUSED_NO_ROW, 0, 0);
    refused("entry 2^63", wave(MARKED_LEN, sort, (uint64_t)1 << 63), SARVOLTIG_REFUSED_NO_ROW, 0, 0);
    refused("entry 2^64 - 1", wave(MARKED_LEN, sort, UINT64_MAX), SARVOLTIG_REFUSED_NO_ROW, 0, 0);
    refused("sort + 2^32", wave(MARKED_LEN, sort + ((uint64_t)1 << 32), 0), SARVOLTIG_REFUSED_NO_ROW, 0, 0);
    refused("sort + 2^8", wave(MARKED_LEN, sort + 256, 0), SARVOLTIG_REFUSED_NO_ROW, 0, 0);
}

static void run_waves(void)
{
    static uint8_t before[MARKED_LEN];

    make_marked();
    memcpy(before, marked, MARKED_LEN);
    run_sort(SARVOLTIG_WAVE_SORT_DETAIL, DETAIL + 0x18, 1, 2);
    run_sort(SARVOLTIG_WAVE_SORT_COLOR_PREVIEW, PREVIEW + 0x18, 6, PREVIEW_ENTRIES);
    run_sort(SARVOLTIG_WAVE_SORT_COLOR_DETAIL, COLOR + 0x18, 2, 2);
    refused("sort 0", wave(MARKED_LEN, 0, 0), SARVOLTIG_REFUSED_NO_ROW, 0, 0);
    refused("sort 2", wave(MARKED_LEN, 2, 0), SARVOLTIG_REFUSED_NO_ROW, 0, 0);
    refused("sort 6", wave(MARKED_LEN, 6, 0), SARVOLTIG_REFUSED_NO_ROW, 0, 0);
    refused("sort 2^64 - 1", wave(MARKED_LEN, UINT64_MAX, 0), SARVOLTIG_REFUSED_NO_ROW, 0, 0);
    expect(memcmp(marked, before, MARKED_LEN) == 0, "a question for an entry leaves the ANLZ file");
    put_section(0, "PMAI", HOT, HOT, 0, 0);
    refused("cue 0 of a header alone", cue(HOT, 0), SARVOLTIG_REFUSED_NO_ROW, 0, 0);
    refused("entry 0 of a header alone", wave(HOT, SARVOLTIG_WAVE_SORT_DETAIL, 0), SARVOLTIG_REFUSED_NO_ROW, 0, 0);
    refused("cue 0 of no file", cue(0, 0), SARVOLTIG_REFUSED_ANLZ_HEADER, 0, 0);
    refused("entry 0 of no file", wave(0, SARVOLTIG_WAVE_SORT_DETAIL, 0), SARVOLTIG_REFUSED_ANLZ_HEADER, 0, 0);
}

/*
 * One byte of this file that is written over, and the refusals of what is left, or SARVOLTIG_CODE_DONE: of cue 1 and of
 * entry 1 of a sort.
 */
static const struct {
    const char *what;
    size_t at;
    uint8_t byte;
    uint64_t sort;
    uint32_t cue;
    uint32_t entry;
} marked_damages[] = {
    {"another file code", 0x00, 'p', 3, SARVOLTIG_REFUSED_ANLZ_HEADER, SARVOLTIG_REFUSED_ANLZ_HEADER},
    {"a section one byte past the file", PREVIEW + 0x0b, 0x39, 3, SARVOLTIG_REFUSED_SECTION, SARVOLTIG_REFUSED_SECTION},
    {"another code for the detail", DETAIL + 0x03, '6', 3, SARVOLTIG_CODE_DONE, SARVOLTIG_REFUSED_NO_ROW},
    {"a list of type 2", HOT + 0x0f, 2, 3, SARVOLTIG_REFUSED_CUE_LIST, SARVOLTIG_CODE_DONE},
    {"a list of type 256 behind the cue", MEMORY + 0x0e, 1, 3, SARVOLTIG_REFUSED_CUE_LIST, SARVOLTIG_CODE_DONE},
    {"an empty list of type 2", EMPTY + 0x0f, 2, 4, SARVOLTIG_REFUSED_CUE_LIST, SARVOLTIG_CODE_DONE},
    {"a cue more", HOT + 0x13, 3, 3, SARVOLTIG_REFUSED_CUE_LIST, SARVOLTIG_CODE_DONE},
    {"another code of a cue", HOT + 0x18, 'p', 3, SARVOLTIG_REFUSED_CUE_LIST, SARVOLTIG_CODE_DONE},
    {"a cue of 57 bytes", MEMORY + 0x18 + 0x0b, 0x39, 3, SARVOLTIG_REFUSED_CUE_LIST, SARVOLTIG_CODE_DONE},
    {"kind 0", HOT + 0x18 + 0x1c, 0, 3, SARVOLTIG_REFUSED_CUE_LIST, SARVOLTIG_CODE_DONE},
    {"kind 3", MEMORY + 0x18 + 0x1c, 3, 3, SARVOLTIG_REFUSED_CUE_LIST, SARVOLTIG_CODE_DONE},
    {"width 2 of the detail", DETAIL + 0x0f, 2, 3, SARVOLTIG_CODE_DONE, SARVOLTIG_REFUSED_WAVEFORM},
    {"width 1 of the color detail", COLOR + 0x0f, 1, 5, SARVOLTIG_CODE_DONE, SARVOLTIG_REFUSED_WAVEFORM},
    {"an entry more", COLOR + 0x13, 3, 5, SARVOLTIG_CODE_DONE, SARVOLTIG_REFUSED_WAVEFORM},
    {"2^31 entries more", COLOR + 0x10, 0x80, 5, SARVOLTIG_CODE_DONE, SARVOLTIG_REFUSED_WAVEFORM},
    {"a preview of 1199 entries", PREVIEW + 0x13, 0xaf, 4, SARVOLTIG_CODE_DONE, SARVOLTIG_REFUSED_WAVEFORM},
    {"len_header of a cue", HOT + 0x18 + 0x07, 0, 3, SARVOLTIG_CODE_DONE, SARVOLTIG_CODE_DONE},
    {"status of a cue", HOT + 0x18 + 0x13, 4, 3, SARVOLTIG_CODE_DONE, SARVOLTIG_CODE_DONE},
    {"another sort's width", COLOR + 0x0f, 1, 3, SARVOLTIG_CODE_DONE, SARVOLTIG_CODE_DONE},
};

static void run_marked_damages(void)
{
    size_t i;

    for (i = 0; i < sizeof marked_damages / sizeof marked_damages[0]; i++) {
        const char *what = marked_damages[i].what;
        uint64_t sort = marked_damages[i].sort;

        make_marked();
        marked[marked_damages[i].at] = marked_damages[i].byte;
        equals(what, "code of cue", 1, cue(MARKED_LEN, 1), marked_damages[i].cue);
        equals(what, "code without room of cue", 1, sarvoltig_cue(marked, MARKED_LEN, 1, clear(), 0),
               marked_damages[i].cue);
        equals(what, "code of entry", 1, wave(MARKED_LEN, sort, 1), marked_damages[i].entry);
        equals(what, "code without room of entry", 1, sarvoltig_wave(marked, MARKED_LEN, sort, 1, clear(), 0),
               marked_damages[i].entry);
        if (marked_damages[i].cue != SARVOLTIG_CODE_DONE) {
            refused(what, cue(MARKED_LEN, UINT64_MAX), marked_damages[i].cue, 0, 0);
        }
        if (marked_damages[i].entry != SARVOLTIG_CODE_DONE) {
            refused(what, wave(MARKED_LEN, sort, UINT64_MAX), marked_damages[i].entry, 0, 0);
        }
    }
    make_marked();
    for (i = 0; i < MARKED_LEN; i++) {
        refused("a cue of a cut file", cue(i, 0), SARVOLTIG_REFUSED_ANLZ_HEADER, 0, 0);
        refused("an entry of a cut file", wave(i, SARVOLTIG_WAVE_SORT_DETAIL, 0), SARVOLTIG_REFUSED_ANLZ_HEADER, 0, 0);
    }
}

/* A bad section, a bad list and a bad waveform in one file: the first refusal that applies is answered. */
static void run_marked_order(void)
{
    make_marked();
    marked[EMPTY + 0x0f] = 2;
    marked[DETAIL + 0x0f] = 2;
    refused("a bad list", cue(MARKED_LEN, UINT64_MAX), SARVOLTIG_REFUSED_CUE_LIST, 0, 0);
    refused("a bad waveform", wave(MARKED_LEN, SARVOLTIG_WAVE_SORT_DETAIL, UINT64_MAX), SARVOLTIG_REFUSED_WAVEFORM, 0,
            0);
    refused("an absent sort", wave(MARKED_LEN, 7, 0), SARVOLTIG_REFUSED_NO_ROW, 0, 0);
    marked[PREVIEW + 0x07] = 11;
    refused("a cue behind a bad section", cue(MARKED_LEN, 0), SARVOLTIG_REFUSED_SECTION, 0, 0);
    refused("an entry behind a bad section", wave(MARKED_LEN, SARVOLTIG_WAVE_SORT_DETAIL, 0), SARVOLTIG_REFUSED_SECTION,
            0, 0);
    refused("an absent sort behind a bad section", wave(MARKED_LEN, 7, 0), SARVOLTIG_REFUSED_SECTION, 0, 0);
    marked[0x0b]++;
    refused("a cue of another length", cue(MARKED_LEN, 0), SARVOLTIG_REFUSED_ANLZ_HEADER, 0, 0);
    refused("an entry of another length", wave(MARKED_LEN, 7, 0), SARVOLTIG_REFUSED_ANLZ_HEADER, 0, 0);
}

void check_cues(void)
{
    run_cues();
    run_waves();
    run_marked_damages();
    run_marked_order();
}
