/* Case D in packets. */
#include "check.h"

/* The most blocks of a packet, and its bytes, with one more that a packet may be wrong by. */
enum { PACKET = 8, PACKET_BYTES = PACKET * SARVOLTIG_SIZE_BLOCK + 1 };

static uint32_t codes[PACKET + GUARD];

/* A packet: the numbers of its blocks, and the block of the file whose bytes each brings. */
typedef struct {
    size_t count;
    uint64_t blocks[PACKET];
    size_t brings[PACKET];
} Packet;

/* The pieces of a packet, end to end. */
static const uint8_t *pieces_of(const Packet *p)
{
    static uint8_t pieces[PACKET_BYTES];
    size_t i;

    for (i = 0; i < p->count; i++) {
        memcpy(pieces + 512 * i, file + 512 * p->brings[i], 512);
    }
    return pieces;
}

/* Delivers a packet of so many bytes, with a slice of so many codes. */
static uint32_t packet(const Packet *p, size_t pieces_len, size_t codes_len)
{
    memset(codes, 0xa5, sizeof codes);
    return sarvoltig_packet(LEN, image, LEN, map, 1, p->blocks, p->count, pieces_of(p), pieces_len, codes, codes_len,
                            clear(), N);
}

/* The codes of a packet's blocks; what stands behind them is as before the call. */
static void has_codes(const char *what, size_t count, const uint32_t *expected)
{
    size_t i;

    for (i = 0; i < sizeof codes / sizeof codes[0]; i++) {
        equals(what, "result", i, codes[i], i < count ? expected[i] : (uint32_t)FILLED);
    }
}

/* A packet that is refused whole: image, map and codes are as before. */
static void refused_whole(const char *what, uint32_t code, uint32_t expected, uint64_t value, uint64_t word)
{
    size_t i;

    refused(what, code, expected, value, 0);
    has_codes(what, 0, NULL);
    expect(map[0] == word, "a refused packet leaves the map");
    for (i = 0; i < sizeof image; i++) {
        expect(image[i] == 0xa5, "a refused packet leaves the image");
    }
}

/* In the order of the refusals; those behind the expected one apply too. */
static void run_refused_packets(void)
{
    static const Packet none = {0, {0}, {0}};
    static const Packet two = {2, {0, 2}, {0, 2}};
    static const size_t wrong[] = {0, 1, 512, 1023, 1025, 1536, 2048};
    const uint8_t *pieces = pieces_of(&two);
    size_t i;

    memset(codes, 0xa5, sizeof codes);
    refused_whole("packet before any opening",
                  sarvoltig_packet(0, image, 0, map, 0, two.blocks, 2, pieces, 1, codes, 0, clear(), N),
                  SARVOLTIG_REFUSED_LENGTH, 0, FILLED);
    refused_whole("packet with a short image",
                  sarvoltig_packet(LEN, image, LEN - 1, map, 0, two.blocks, 2, pieces, 1, codes, 0, clear(), N),
                  SARVOLTIG_REFUSED_IMAGE_SHORT, 0, FILLED);
    refused_whole("packet with no map",
                  sarvoltig_packet(LEN, image, LEN, map, 0, two.blocks, 2, pieces, 1, codes, 0, clear(), N),
                  SARVOLTIG_REFUSED_MAP_SHORT, 0, FILLED);
    map[0] = 8;
    refused_whole("packet with a bit behind the last block", packet(&two, 1, 0), SARVOLTIG_REFUSED_MAP_SPARE, 0, 8);
    refused_whole("no packet with a bit behind the last block", packet(&none, 0, 0), SARVOLTIG_REFUSED_MAP_SPARE, 0, 8);
    map[0] = 0;
    for (i = 0; i < sizeof wrong / sizeof wrong[0]; i++) {
        refused_whole("packet of a wrong size", packet(&two, wrong[i], PACKET), SARVOLTIG_REFUSED_PIECE_SIZE, 0, 0);
        refused_whole("packet of a wrong size with no codes", packet(&two, wrong[i], 0), SARVOLTIG_REFUSED_PIECE_SIZE,
                      0, 0);
    }
    refused_whole("bytes with no block", packet(&none, 1, PACKET), SARVOLTIG_REFUSED_PIECE_SIZE, 0, 0);
    refused_whole("a piece with no block", packet(&none, 512, 0), SARVOLTIG_REFUSED_PIECE_SIZE, 0, 0);
    refused_whole("packet with one code", packet(&two, 1024, 1), SARVOLTIG_REFUSED_LIST_SHORT, 2, 0);
    refused_whole("packet with no codes", packet(&two, 1024, 0), SARVOLTIG_REFUSED_LIST_SHORT, 2, 0);
}

/* Every code of a block, also for a number that comes again in the packet. */
static void run_packets(void)
{
    static const Packet none = {0, {0}, {0}};
    static const Packet mixed = {8, {2, 0, 2, 0, 3, (uint64_t)1 << 40, UINT64_MAX, 0}, {2, 0, 2, 1, 1, 2, 0, 0}};
    static const uint32_t mixed_codes[] = {SARVOLTIG_CODE_DONE,
                                           SARVOLTIG_CODE_DONE,
                                           SARVOLTIG_CODE_SAME,
                                           SARVOLTIG_REFUSED_BLOCK_DIFFERS,
                                           SARVOLTIG_REFUSED_BLOCK_NUMBER,
                                           SARVOLTIG_REFUSED_BLOCK_NUMBER,
                                           SARVOLTIG_REFUSED_BLOCK_NUMBER,
                                           SARVOLTIG_CODE_SAME};
    static const Packet last = {1, {1}, {1}};
    static const uint32_t done = SARVOLTIG_CODE_DONE;
    static const uint32_t same = SARVOLTIG_CODE_SAME;

    answers("no packet", packet(&none, 0, 0), SARVOLTIG_CODE_DONE, 1, 0, 0, 0);
    answers("a packet", packet(&mixed, 8 * 512, PACKET), SARVOLTIG_CODE_DONE, 1, 2, 0, 0);
    has_codes("a packet", 8, mixed_codes);
    expect(map[0] == 5 && image[512] == 0xa5 && image[1023] == 0xa5, "a packet brings its blocks and no other");
    expect(memcmp(image, file, 512) == 0 && memcmp(image + 1024, file + 1024, 512) == 0, "the first of a number stays");
    answers("no packet with codes", packet(&none, 0, PACKET), SARVOLTIG_CODE_DONE, 1, 2, 0, 0);
    has_codes("no packet with codes", 0, NULL);
    answers("the last block", packet(&last, 512, 1), SARVOLTIG_CODE_DONE, 1, 3, 0, 0);
    has_codes("the last block", 1, &done);
    answers("packet with no result",
            sarvoltig_packet(LEN, image, LEN, map, 1, last.blocks, 1, pieces_of(&last), 512, codes, PACKET, clear(), 0),
            SARVOLTIG_CODE_DONE, 0, 0, 0, 0);
    has_codes("packet with no result", 1, &same);
    answers("refused packet with no result",
            sarvoltig_packet(LEN, image, LEN, map, 1, last.blocks, 1, pieces_of(&last), 512, codes, 0, clear(), 0),
            SARVOLTIG_REFUSED_LIST_SHORT, 0, 0, 0, 0);
    answers("refused packet with a result of one",
            sarvoltig_packet(LEN, image, LEN, map, 1, last.blocks, 1, pieces_of(&last), 512, codes, 0, clear(), 1),
            SARVOLTIG_REFUSED_LIST_SHORT, 1, 1, 0, 0);
    has_codes("refused packet with no result", 1, &same);
    expect(map[0] == 7 && memcmp(image, file, LEN) == 0, "the image is the file, in packets");
    answers("rows of a file from packets", rows(SARVOLTIG_TABLE_GENRES, ROWS), SARVOLTIG_CODE_DONE, 2, 1, 2, 0);
}

void check_packets(void)
{
    run_refused_packets();
    run_packets();
}
