/* The sizes of maps and texts for lengths of every type, the version, and the numbers of the slots. */
#include "sarvoltig_text.h"

#include "check.h"

/* In declarations of arrays: of an expression, and of narrow and wide types. */
typedef uint8_t one[SARVOLTIG_SIZE_MAP(512)];
typedef uint8_t two[SARVOLTIG_SIZE_MAP(64 * 512 + 512)];
typedef uint8_t narrow[SARVOLTIG_SIZE_MAP((uint16_t)0xfe00)];
typedef uint8_t wide[SARVOLTIG_SIZE_MAP((uint64_t)SARVOLTIG_SIZE_FILE_MAX)];
typedef uint8_t greatest[SARVOLTIG_SIZE_MAP(UINT32_MAX)];
typedef uint8_t chosen[SARVOLTIG_SIZE_MAP(sizeof(one) == 1 ? 65u * 512u : 1u)];
typedef uint8_t longest[SARVOLTIG_SIZE_UTF8((uint8_t)255)];

/* The words by counting: whole words of 64 blocks, and one for a rest. */
static uint64_t words_of(uint64_t len)
{
    uint64_t blocks = len >> 9;

    return (blocks >> 6) + ((blocks & 63) != 0);
}

/* A length in each type that can have it. */
static void run_length(uint64_t len)
{
    const uint64_t words = words_of(len);

    equals("uint64_t", "words", 0, SARVOLTIG_SIZE_MAP(len), words);
    equals("unsigned long long", "words", 0, SARVOLTIG_SIZE_MAP((unsigned long long)len), words);
    equals("size_t", "words", 0, SARVOLTIG_SIZE_MAP((size_t)len), words);
    if (len <= INT64_MAX) {
        equals("int64_t", "words", 0, SARVOLTIG_SIZE_MAP((int64_t)len), words);
    }
    if (len <= UINT32_MAX) {
        equals("uint32_t", "words", 0, SARVOLTIG_SIZE_MAP((uint32_t)len), words);
    }
    if (len <= INT32_MAX) {
        equals("int", "words", 0, SARVOLTIG_SIZE_MAP((int)len), words);
    }
    if (len <= UINT16_MAX) {
        equals("uint16_t", "words", 0, SARVOLTIG_SIZE_MAP((uint16_t)len), words);
    }
    if (len <= UINT8_MAX) {
        equals("uint8_t", "words", 0, SARVOLTIG_SIZE_MAP((uint8_t)len), words);
    }
}

/* Lengths around each multiple of the bytes of a word, and around each power of two. */
static void run_lengths(void)
{
    uint64_t len, i;

    for (len = 0; len <= UINT16_MAX + 1; len++) {
        run_length(len);
    }
    for (i = 0; i < 64; i++) {
        for (len = 0; len <= 1024; len++) {
            run_length(((uint64_t)1 << i) + len - 512);
        }
    }
    run_length(UINT32_MAX);
    run_length(UINT64_MAX);
#ifdef __SIZEOF_INT128__
    __extension__ typedef unsigned __int128 wider;
    equals("2^70 in 128 bits", "words", 0, SARVOLTIG_SIZE_MAP((wider)1 << 70), (uint64_t)1 << 55);
#endif
}

static void run_declarations(void)
{
    equals("512", "words", 0, sizeof(one), 1);
    equals("65 blocks", "words", 0, sizeof(two), 2);
    equals("127 blocks", "words", 0, sizeof(narrow), 2);
    equals("the longest export", "words", 0, sizeof(wide), 8192);
    equals("2^32 - 1", "words", 0, sizeof(greatest), 131072);
    equals("a choice", "words", 0, sizeof(chosen), 2);
    equals("255 bytes", "bytes in UTF-8", 0, sizeof(longest), 766);
    equals("2^32 - 1 bytes", "bytes in UTF-8", 0, SARVOLTIG_SIZE_UTF8(UINT32_MAX), 12884901886u);
    equals("a narrow length", "bytes of the type", 0, sizeof(SARVOLTIG_SIZE_MAP((uint8_t)1)), sizeof(size_t));
}

static void run_version(void)
{
#if SARVOLTIG_VERSION >= 512 && SARVOLTIG_VERSION < 768
    const uint64_t minor = 2;
#else
    const uint64_t minor = 0;
#endif

    equals("version", "of the header", 0, SARVOLTIG_VERSION, 512);
    equals("version", "of the library", 0, sarvoltig_version(), SARVOLTIG_VERSION);
    equals("version", "minor", 0, SARVOLTIG_VERSION_MINOR, minor);
    equals("version", "major and patch", 0, SARVOLTIG_VERSION_MAJOR + SARVOLTIG_VERSION_PATCH, 0);
}

/* The slots of a track in the order of document 003. */
static void run_slots(void)
{
    static const uint64_t slots[] = {
        SARVOLTIG_SLOT_ISRC,
        SARVOLTIG_SLOT_TEXTER,
        SARVOLTIG_SLOT_UNKNOWN_STRING_2,
        SARVOLTIG_SLOT_UNKNOWN_STRING_3,
        SARVOLTIG_SLOT_UNKNOWN_STRING_4,
        SARVOLTIG_SLOT_MESSAGE,
        SARVOLTIG_SLOT_KUVO_PUBLIC,
        SARVOLTIG_SLOT_AUTOLOAD_HOTCUES,
        SARVOLTIG_SLOT_UNKNOWN_STRING_5,
        SARVOLTIG_SLOT_UNKNOWN_STRING_6,
        SARVOLTIG_SLOT_DATE_ADDED,
        SARVOLTIG_SLOT_RELEASE_DATE,
        SARVOLTIG_SLOT_MIX_NAME,
        SARVOLTIG_SLOT_UNKNOWN_STRING_7,
        SARVOLTIG_SLOT_ANALYZE_PATH,
        SARVOLTIG_SLOT_ANALYZE_DATE,
        SARVOLTIG_SLOT_COMMENT,
        SARVOLTIG_SLOT_TITLE,
        SARVOLTIG_SLOT_UNKNOWN_STRING_8,
        SARVOLTIG_SLOT_FILENAME,
        SARVOLTIG_SLOT_FILE_PATH,
    };
    size_t i;

    equals("slots", "of a track", 0, sizeof slots / sizeof slots[0], 21);
    for (i = 0; i < sizeof slots / sizeof slots[0]; i++) {
        equals("slots", "slot", i, slots[i], i);
    }
}

void check_sizes(void)
{
    run_lengths();
    run_declarations();
    run_version();
    run_slots();
}
