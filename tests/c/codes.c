/* A track with a recording code. */
#include "check.h"

/* The track of an export of one track: where its row starts, the offset of a string in it, and the string's place. */
enum { TRACK = 512 + 0x28, STRING = 0x88, STRING_PLACE = TRACK + STRING };

enum { ASCII = SARVOLTIG_ENCODING_ASCII, UTF16 = SARVOLTIG_ENCODING_UTF16LE };

/* What a slot answers: a refusal, or the text's offset in the string, its length and its encoding. */
typedef struct {
    uint32_t code;
    uint64_t offset;
    uint64_t length;
    uint64_t encoding;
} Text;

/* Strings of a track, each with the answers of slot 0 and slot 1. */
static const struct {
    const char *what;
    const char *string; /* zero bytes follow */
    size_t string_len;
    Text slot[2];
} strings[] = {
    {"a code of odd total length", "\x90\x09\0\0\x03" "AB1", 8, {{0, 5, 3, ASCII}, {15, 0, 0, 0}}},
    {"a code of even total length", "\x90\x0a\0\0\x03" "AB12", 9, {{0, 5, 4, ASCII}, {0, 4, 6, UTF16}}},
    {"a code of no length", "\x90\x06\0\0\x03", 5, {{0, 5, 0, ASCII}, {0, 4, 2, UTF16}}},
    {"a code with bytes behind its zero byte", "\x90\x09\0\0\x03" "A\0B1", 9, {{0, 5, 1, ASCII}, {15, 0, 0, 0}}},
    {"a code with bytes above 7f", "\x90\x09\0\0\x03\x80\x1b\xff", 8, {{0, 5, 3, ASCII}, {15, 0, 0, 0}}},
    {"a code without a zero byte, odd", "\x90\x09\0\0\x03" "AB12", 9, {{15, 0, 0, 0}, {15, 0, 0, 0}}},
    {"a code without a zero byte, even", "\x90\x08\0\0\x03" "AB1", 8, {{15, 0, 0, 0}, {0, 4, 4, UTF16}}},
    {"03 alone", "\x90\x05\0\0\x03", 5, {{15, 0, 0, 0}, {15, 0, 0, 0}}},
    {"an empty text before a 03", "\x90\x04\0\0\x03" "A", 6, {{0, 4, 0, UTF16}, {0, 4, 0, UTF16}}},
    {"another first byte", "\x90\x08\0\x03" "A\0\x03", 7, {{0, 4, 4, UTF16}, {0, 4, 4, UTF16}}},
};

/* An export of one track on page 1. Slots from first to last name string i, the others an empty one in byte 0 of it. */
static void make_track(size_t i, size_t first, size_t last)
{
    memset(file, 0, sizeof file);
    put32(0x04, 512);
    put32(0x08, 1);
    put32(0x1c, SARVOLTIG_TABLE_TRACKS);
    put32(0x24, 1);
    put32(0x28, 1);
    put32(512 + 0x04, 1);
    put32(512 + 0x08, SARVOLTIG_TABLE_TRACKS);
    file[512 + 0x18] = 1;
    file[512 + 0x19] = 0x20;
    file[1024 - 4] = 1;
    file[TRACK] = 0x03;
    for (; first <= last; first++) {
        file[TRACK + 0x5e + 2 * first] = STRING;
    }
    memcpy(&file[STRING_PLACE], strings[i].string, strings[i].string_len);
}

static void take_in_track(void)
{
    take_in_file();
    list[0] = TRACK;
}

/* What a slot answers, by the question and from the list; a refusal is about page 1 and its index entry 0. */
static void answers_text(const char *what, uint64_t slot, Text expected)
{
    const uint64_t values[3] = {STRING_PLACE + expected.offset, expected.length, expected.encoding};

    if (expected.code == SARVOLTIG_CODE_DONE) {
        has_values(what, text(SARVOLTIG_TABLE_TRACKS, 0, slot), SARVOLTIG_CODE_DONE, 3, values);
        has_values(what, text_in(SARVOLTIG_TABLE_TRACKS, 1, 0, slot), SARVOLTIG_CODE_DONE, 3, values);
    } else {
        refused(what, text(SARVOLTIG_TABLE_TRACKS, 0, slot), expected.code, 1, 0);
        refused(what, text_in(SARVOLTIG_TABLE_TRACKS, 1, 0, slot), expected.code, 1, 0);
    }
}

/* Each string in slot 0 alone, in slot 1 alone, and in all slots, where it has to be right in slot 0 and in others. */
static void run_codes(void)
{
    size_t i;

    for (i = 0; i < sizeof strings / sizeof strings[0]; i++) {
        const Text *slot = strings[i].slot;
        const Text *fault = slot[0].code != SARVOLTIG_CODE_DONE ? &slot[0] : &slot[1];
        int shared = fault->code == SARVOLTIG_CODE_DONE;

        make_track(i, SARVOLTIG_SLOT_ISRC, SARVOLTIG_SLOT_ISRC);
        take_in_track();
        answers_text(strings[i].what, SARVOLTIG_SLOT_ISRC, slot[0]);
        make_track(i, SARVOLTIG_SLOT_TEXTER, SARVOLTIG_SLOT_TEXTER);
        take_in_track();
        answers_text(strings[i].what, SARVOLTIG_SLOT_TEXTER, slot[1]);
        make_track(i, SARVOLTIG_SLOT_ISRC, SARVOLTIG_SLOT_FILE_PATH);
        take_in_track();
        answers_text(strings[i].what, SARVOLTIG_SLOT_ISRC, shared ? slot[0] : *fault);
        answers_text(strings[i].what, SARVOLTIG_SLOT_FILE_PATH, shared ? slot[1] : *fault);
    }
    expect(map[0] == 7 && memcmp(image, file, LEN) == 0, "questions about a code leave image and map");
}

void check_codes(void)
{
    run_codes();
}
