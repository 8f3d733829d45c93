/*
 * Texts for a display: sarvoltig_utf8 decodes a text of the image, sarvoltig_refusal_text has a text for each code.
 *
 * The functions of this header are static: the caller's compiler makes them, and they are no part of the library. They
 * allocate nothing and keep no state. They are tested and not proved.
 */
#ifndef SARVOLTIG_TEXT_H
#define SARVOLTIG_TEXT_H

#include "sarvoltig.h"

/* The text of a code that is no refusal, for sarvoltig_refusal_text. */
static inline const char *sarvoltig_answer_text(uint32_t code)
{
    switch (code) {
    case SARVOLTIG_CODE_DONE:
        return "done";
    case SARVOLTIG_CODE_SAME:
        return "the block was held with the same bytes";
    case SARVOLTIG_CODE_WAITING:
        return "a page is not wholly there yet";
    case SARVOLTIG_CODE_NONE:
        return "no block is missing";
    default:
        return "an answer of another version";
    }
}

/*
 * A short text for a code, in English, of one line and without a full stop; never NULL. It does not have the value and
 * the entry of a refusal: what they are is said at SARVOLTIG_REFUSED_..
 *
 *     0, 1 to 27, 64 to 66         a text of its own
 *     28 to 63                     "refused for a reason of another version"
 *     any other                    "an answer of another version"
 */
static inline const char *sarvoltig_refusal_text(uint32_t code)
{
    static const char *const texts[] = {
        /*  1 */ "the file's length is not a multiple of 512 from 512 to 268435456",
        /*  2 */ "the image is shorter than the file",
        /*  3 */ "the map is too short",
        /*  4 */ "the map has a bit behind the last block",
        /*  5 */ "the file has no such block",
        /*  6 */ "there are not 512 bytes for each block",
        /*  7 */ "the block is held with other bytes",
        /*  8 */ "the table is not one of the ten",
        /*  9 */ "the file header is broken",
        /* 10 */ "the file has no such table",
        /* 11 */ "a link names no page",
        /* 12 */ "a page has another page's number",
        /* 13 */ "a row index does not fit or has not as many rows as counted",
        /* 14 */ "a row does not fit",
        /* 15 */ "a string is malformed or outside its page",
        /* 16 */ "a page of the table comes a second time before its last page",
        /* 17 */ "the list is too short",
        /* 18 */ "there is no such row, beat, cue, waveform or entry",
        /* 19 */ "the table has no such string slot",
        /* 20 */ "the header of the ANLZ file is broken",
        /* 21 */ "a section of the ANLZ file is malformed",
        /* 22 */ "the ANLZ file has no beat grid",
        /* 23 */ "the beats do not fill the beat grid",
        /* 24 */ "the bar position of a beat is not 1 to 4",
        /* 25 */ "a page is of another table",
        /* 26 */ "a cue list of the ANLZ file is malformed",
        /* 27 */ "the waveform of the ANLZ file is malformed"};

    if (code == SARVOLTIG_CODE_DONE || code > SARVOLTIG_CODE_REFUSED_MAX) {
        return sarvoltig_answer_text(code);
    }
    return code <= sizeof texts / sizeof texts[0] ? texts[code - 1] : "refused for a reason of another version";
}

/*
 * Bytes that take every text of text_len bytes in UTF-8, with the closing zero byte. A byte of ASCII becomes one byte,
 * or above 7f the three of U+FFFD; two bytes of UTF-16 become at most three, the four of a pair of surrogates become
 * four, and an odd last byte three. So it is reached by ASCII that has only bytes above 7f.
 */
#define SARVOLTIG_SIZE_UTF8(text_len) (3 * (size_t)(text_len) + 1)

/* The 16-bit number at the front of a text of at least two bytes, for sarvoltig_utf8. */
static inline uint32_t sarvoltig_utf16_unit(const uint8_t *text)
{
    return text[0] | (uint32_t)text[1] << 8;
}

/* Reads the first character of a text of at least one byte, and returns the bytes that it takes; for sarvoltig_utf8. */
static inline size_t sarvoltig_character(const uint8_t *text, size_t text_len, uint64_t encoding, uint32_t *character)
{
    uint32_t high, low;

    *character = 0xfffd;
    if (encoding != SARVOLTIG_ENCODING_UTF16LE) {
        if (text[0] < 0x80) {
            *character = text[0];
        }
        return 1;
    }
    if (text_len < 2) {
        return 1;
    }
    high = sarvoltig_utf16_unit(text);
    if (high < 0xd800 || high > 0xdfff) {
        *character = high;
    } else if (high < 0xdc00 && text_len >= 4) {
        low = sarvoltig_utf16_unit(text + 2);
        if (low >= 0xdc00 && low <= 0xdfff) {
            *character = 0x10000 + ((high - 0xd800) << 10) + (low - 0xdc00);
            return 4;
        }
    }
    return 2;
}

/* Writes a character in UTF-8, and returns the bytes that it takes, 1 to 4; for sarvoltig_utf8. */
static inline size_t sarvoltig_utf8_bytes(uint32_t character, uint8_t bytes[4])
{
    static const uint8_t first[] = {0x00, 0xc0, 0xe0, 0xf0};
    size_t more = character < 0x80 ? 0 : character < 0x800 ? 1 : character < 0x10000 ? 2 : 3;
    size_t i;

    for (i = more; i > 0; i--) {
        bytes[i] = (uint8_t)(0x80 | (character & 0x3f));
        character >>= 6;
    }
    bytes[0] = (uint8_t)(first[more] | character);
    return more + 1;
}

/*
 * Decodes a text of the image, which a call answered with its place, length and encoding, to UTF-8. Writes whole
 * characters, as many as out_len takes, and a zero byte behind them; nothing where out_len is 0. Returns the bytes of
 * the whole text without the zero byte: where that is not below out_len, the text was cut.
 *
 *     char name[200];
 *     size_t len = sarvoltig_utf8(image + result[SARVOLTIG_AT_TEXT_PLACE], result[SARVOLTIG_AT_TEXT_LENGTH],
 *                                 result[SARVOLTIG_AT_TEXT_ENCODING], name, sizeof name);
 *
 * What is no character becomes U+FFFD: a byte above 7f of ASCII, and of UTF-16 a surrogate without its other half and
 * an odd last byte. Any encoding but SARVOLTIG_ENCODING_UTF16LE is read as ASCII. Characters that are not printed are
 * written as they are, U+0000 as a zero byte. Text and out do not overlap; each may be NULL where its length is 0.
 */
static inline size_t sarvoltig_utf8(const uint8_t *text, size_t text_len, uint64_t encoding, char *out, size_t out_len)
{
    uint8_t bytes[4];
    uint32_t character;
    size_t at = 0, total = 0, written = 0, count, i;

    while (at < text_len) {
        at += sarvoltig_character(text + at, text_len - at, encoding, &character);
        count = sarvoltig_utf8_bytes(character, bytes);
        if (total < out_len && count < out_len - total) {
            for (i = 0; i < count; i++) {
                out[written++] = (char)bytes[i];
            }
        }
        total += count;
    }
    if (out_len > 0) {
        out[written] = '\0';
    }
    return total;
}

#endif
