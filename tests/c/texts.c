/* The functions of sarvoltig_text.h: decoding, compared with iconv of the C library, and the texts of codes. */
#include "sarvoltig_text.h"

#include <iconv.h>

#include "check.h"

enum { TEXT = 4096, ROOM = SARVOLTIG_SIZE_UTF8(TEXT), ASCII = SARVOLTIG_ENCODING_ASCII };
enum { UTF16 = SARVOLTIG_ENCODING_UTF16LE, INTERESTING = 24 };

static iconv_t decoders[2];
static uint8_t encoded[TEXT];
static char decoded[ROOM + GUARD];
static char expected[ROOM];

/* 16-bit numbers around the ends of the lengths of UTF-8 and of the surrogates, byte order marks, and some others. */
static const uint32_t interesting[INTERESTING] = {0x0000, 0x0001, 0x001b, 0x0041, 0x007f, 0x0080, 0x00e9, 0x07ff,
                                                  0x0800, 0x20ac, 0xd7ff, 0xd800, 0xd801, 0xd83d, 0xdbff, 0xdc00,
                                                  0xdc01, 0xde00, 0xdfff, 0xe000, 0xfeff, 0xfffd, 0xfffe, 0xffff};

/* Decodes a text with iconv, which stops at what is no character: that becomes U+FFFD, and the next byte or two bytes
   are tried. Returns the bytes written. */
static size_t decode(size_t len, int encoding)
{
    char *from = (char *)encoded;
    char *to = expected;
    size_t left = len;
    size_t room = ROOM;

    while (left > 0 && iconv(decoders[encoding], &from, &left, &to, &room) == (size_t)-1) {
        size_t skipped = encoding == UTF16 && left > 1 ? 2 : 1;

        memcpy(to, "\xef\xbf\xbd", 3);
        to += 3;
        room -= 3;
        from += skipped;
        left -= skipped;
        iconv(decoders[encoding], NULL, NULL, NULL, NULL);
    }
    return ROOM - room;
}

/* The whole text, with a zero byte behind it and nothing behind that. */
static void run_text(const char *what, size_t len, int encoding)
{
    size_t count = decode(len, encoding);
    size_t total;

    memset(decoded, 0x5a, count + 2);
    total = sarvoltig_utf8(encoded, len, (uint64_t)encoding, decoded, SARVOLTIG_SIZE_UTF8(len));
    equals(what, "bytes for a first byte of", encoded[0], total, count);
    expect(total < SARVOLTIG_SIZE_UTF8(len), "the bound of a text in UTF-8");
    expect(memcmp(decoded, expected, count) == 0, what);
    expect(decoded[count] == '\0' && decoded[count + 1] == 0x5a, "a zero byte behind a text, and no other");
}

static void put_unit(size_t i, uint32_t unit)
{
    encoded[2 * i] = (uint8_t)unit;
    encoded[2 * i + 1] = (uint8_t)(unit >> 8);
}

/* Every byte and every pair of bytes. */
static void run_ascii(void)
{
    uint32_t unit;

    for (unit = 0; unit < 0x10000; unit++) {
        put_unit(0, unit);
        run_text("two bytes of ASCII", 2, ASCII);
    }
    for (unit = 0; unit < 0x100; unit++) {
        put_unit(0, unit);
        run_text("a byte of ASCII", 1, ASCII);
        run_text("a byte of UTF-16", 1, UTF16);
    }
}

/* Every 16-bit number, alone and before an odd byte, and every pair of surrogates. */
static void run_utf16(void)
{
    uint32_t unit, low;

    for (unit = 0; unit < 0x10000; unit++) {
        put_unit(0, unit);
        put_unit(1, unit);
        run_text("one unit", 2, UTF16);
        run_text("one unit and a byte", 3, UTF16);
        run_text("one unit twice", 4, UTF16);
    }
    for (unit = 0xd800; unit < 0xdc00; unit++) {
        for (low = 0; low < 0x400; low++) {
            put_unit(2 * low, unit);
            put_unit(2 * low + 1, 0xdc00 + low);
        }
        run_text("pairs of surrogates", TEXT, UTF16);
    }
}

/* Three of the interesting numbers, and an odd byte behind them. */
static void run_units(void)
{
    size_t i, j, k;

    for (i = 0; i < INTERESTING; i++) {
        for (j = 0; j < INTERESTING; j++) {
            for (k = 0; k < INTERESTING; k++) {
                put_unit(0, interesting[i]);
                put_unit(1, interesting[j]);
                put_unit(2, interesting[k]);
                put_unit(3, interesting[k]);
                run_text("three units", 6, UTF16);
                run_text("three units and a byte", 7, UTF16);
                run_text("three units as ASCII", 6, ASCII);
            }
        }
    }
}

/* Whether a byte of UTF-8 is the first of a character, or the end of the text. */
static int is_start(size_t at, size_t count)
{
    return at == count || ((unsigned char)expected[at] & 0xc0) != 0x80;
}

/* A text of all lengths of characters into every length of out. */
static void run_rooms(size_t len, int encoding)
{
    size_t count = decode(len, encoding);
    size_t room, written;

    for (room = 0; room <= count + 2; room++) {
        memset(decoded, 0x5a, count + 4);
        equals("cut text", "room", room, sarvoltig_utf8(encoded, len, (uint64_t)encoding, decoded, room), count);
        written = room > count ? count : room > 0 ? room - 1 : 0;
        while (!is_start(written, count)) {
            written--;
        }
        expect(memcmp(decoded, expected, written) == 0, "a cut text is the front of the whole");
        if (room > 0) {
            expect(decoded[written] == '\0', "a zero byte behind a cut text");
            written++;
        }
        for (; written < count + 4; written++) {
            expect(decoded[written] == 0x5a, "nothing behind a cut text");
        }
    }
}

static void run_cuts(void)
{
    static const uint32_t units[] = {0x41, 0xd83d, 0xde00, 0xe9, 0x20ac, 0, 0xdc00, 0xd83d, 0xde00, 0x42, 0x43, 0xd800};
    size_t i;

    for (i = 0; i < sizeof units / sizeof units[0]; i++) {
        put_unit(i, units[i]);
    }
    for (i = 0; i <= sizeof units / sizeof units[0] * 2; i++) {
        run_rooms(i, UTF16);
        run_rooms(i, ASCII);
    }
}

/* Texts that iconv is not asked for: none, none to nowhere, of an unknown encoding, and the longest in UTF-8. */
static void run_others(void)
{
    char one[1] = {0x5a};

    equals("no text", "bytes", 0, sarvoltig_utf8(NULL, 0, ASCII, decoded, ROOM), 0);
    expect(decoded[0] == '\0', "no text is an empty one");
    equals("no text, no room", "bytes", 0, sarvoltig_utf8(NULL, 0, UTF16, NULL, 0), 0);
    memset(encoded, 0xff, TEXT);
    equals("a text to nowhere", "bytes", 0, sarvoltig_utf8(encoded, TEXT, ASCII, NULL, 0), 3 * TEXT);
    equals("an encoding 2", "bytes", 0, sarvoltig_utf8(encoded, 2, 2, NULL, 0), 6);
    equals("an encoding 2^32 + 1", "bytes", 0, sarvoltig_utf8(encoded, 2, ((uint64_t)1 << 32) + 1, NULL, 0), 6);
    equals("U+FFFF", "bytes", 0, sarvoltig_utf8(encoded, 2, UTF16, NULL, 0), 3);
    equals("the bound", "bytes", 0, sarvoltig_utf8(encoded, TEXT, ASCII, decoded, ROOM) + 1, ROOM);
    equals("room for a zero byte", "bytes", 0, sarvoltig_utf8(encoded, TEXT, ASCII, one, 1), 3 * TEXT);
    expect(one[0] == '\0', "a room of one byte takes the zero byte");
}

/* Words that the text of each refusal has, by its number. */
static const char *const words[] = {
    "done",
    "length",
    "image",
    "map is too short",
    "behind the last block",
    "no such block",
    "512 bytes",
    "other bytes",
    "one of the ten",
    "file header",
    "no such table",
    "a link",
    "another page",
    "row index",
    "a row does",
    "a string",
    "a second time",
    "list is too short",
    "no such row",
    "slot",
    "ANLZ file is",
    "a section",
    "no beat grid",
    "beats do not fill",
    "bar position",
    "another table",
    "cue list",
    "waveform of",
};

/* A text for every code up to 300 and for the greatest. Each code that is known has a text of its own. */
static void run_codes(void)
{
    const char *unknown_refusal = sarvoltig_refusal_text(SARVOLTIG_CODE_REFUSED_MAX);
    const char *unknown_answer = sarvoltig_refusal_text(UINT32_MAX);
    uint32_t code, other;

    expect(strcmp(unknown_refusal, "refused for a reason of another version") == 0, "the text of an unknown refusal");
    expect(strcmp(unknown_answer, "an answer of another version") == 0, "the text of an unknown answer");
    for (code = 0; code <= 300; code++) {
        const char *text_of = sarvoltig_refusal_text(code);
        int is_known = code <= SARVOLTIG_REFUSED_WAVEFORM || (code >= 64 && code <= 66);

        if (code < sizeof words / sizeof words[0]) {
            expect(strstr(text_of, words[code]) != NULL, words[code]);
        }
        if (!is_known) {
            expect(strcmp(text_of, code < 64 ? unknown_refusal : unknown_answer) == 0, "the text of an unknown code");
        }
        for (other = 0; is_known && other <= 300; other++) {
            expect((strcmp(text_of, sarvoltig_refusal_text(other)) == 0) == (code == other), "two codes with one text");
        }
    }
    expect(sizeof words / sizeof words[0] == SARVOLTIG_REFUSED_WAVEFORM + 1, "words for every refusal");
    expect(strstr(sarvoltig_refusal_text(SARVOLTIG_CODE_SAME), "same bytes") != NULL, "the text of 64");
    expect(strstr(sarvoltig_refusal_text(SARVOLTIG_CODE_WAITING), "not wholly there") != NULL, "the text of 65");
    expect(strstr(sarvoltig_refusal_text(SARVOLTIG_CODE_NONE), "no block is missing") != NULL, "the text of 66");
}

void check_texts(void)
{
    decoders[ASCII] = iconv_open("UTF-8", "ASCII");
    decoders[UTF16] = iconv_open("UTF-8", "UTF-16LE");
    if (decoders[ASCII] == (iconv_t)-1 || decoders[UTF16] == (iconv_t)-1) {
        expect(0, "iconv knows ASCII and UTF-16LE");
        return;
    }
    run_ascii();
    run_utf16();
    run_units();
    run_cuts();
    run_others();
    run_codes();
    iconv_close(decoders[ASCII]);
    iconv_close(decoders[UTF16]);
}
