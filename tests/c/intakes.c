/* The calls of sarvoltig_intake.h, on case D: each has the code and the values of the function that it calls. */
#include "sarvoltig_intake.h"

#include "check.h"

static struct sarvoltig_intake intake;
static uint32_t places[ROWS];

/* Sets the struct anew, with its values filled. */
static void set_intake(uint64_t len)
{
    const struct sarvoltig_intake fresh = {len, image, LEN, map, 1, {0}};

    intake = fresh;
    memset(intake.result, 0xa5, sizeof intake.result);
}

/* The code and the values of a call, and those of the plain call behind it; the rest of the struct is as before. */
static void agrees(const char *what, uint32_t code, uint32_t plain, uint64_t len)
{
    size_t i;

    equals(what, "code", 0, code, plain);
    for (i = 0; i < N; i++) {
        equals(what, "value", i, intake.result[i], result[i]);
    }
    expect(intake.len == len && intake.image == image && intake.image_len == LEN && intake.map == map &&
               intake.map_len == 1,
           what);
    set_intake(len);
}

/* A refused opening leaves len, and an opening sets it. */
static void run_openings(void)
{
    set_intake(0);
    agrees("refused opening", sarvoltig_intake_open(&intake, 511), sarvoltig_open(511, image, LEN, map, 1, clear(), N),
           0);
    agrees("delivery before any opening", sarvoltig_intake_deliver(&intake, 0, file, 512),
           sarvoltig_deliver(0, image, LEN, map, 1, 0, file, 512, clear(), N), 0);
    equals("missing before any opening", "code", 0, sarvoltig_intake_missing(&intake, 0), SARVOLTIG_CODE_NONE);
    answers("missing of 511 bytes", sarvoltig_missing(511, map, 1, 0, clear(), N), SARVOLTIG_CODE_NONE, 0, 0, 0, 0);
    expect(map[0] == FILLED, "refused calls leave the map");
    agrees("opening", sarvoltig_intake_open(&intake, LEN), open_intake(), LEN);
    expect(map[0] == 0, "an opening clears the map");
    agrees("refused opening of an open intake", sarvoltig_intake_open(&intake, LEN + 512),
           sarvoltig_open(LEN + 512, image, LEN, map, 1, clear(), N), LEN);
    agrees("opening for a shorter file", sarvoltig_intake_open(&intake, 512),
           sarvoltig_open(512, image, LEN, map, 1, clear(), N), 512);
}

/* A delivery by each of the two, in turn: the second of a block is answered with SARVOLTIG_CODE_SAME. */
static void run_deliveries(void)
{
    open_intake();
    set_intake(LEN);
    equals("delivery", "code", 0, sarvoltig_intake_deliver(&intake, 2, file + 1024, 512), SARVOLTIG_CODE_DONE);
    equals("delivery", "blocks held", 0, intake.result[SARVOLTIG_AT_DELIVER_HELD], 1);
    expect(map[0] == 4 && memcmp(image + 1024, file + 1024, 512) == 0, "a delivery brings its block");
    set_intake(LEN);
    agrees("same block", sarvoltig_intake_deliver(&intake, 2, file + 1024, 512), deliver(2, file + 1024, 512), LEN);
    agrees("other bytes", sarvoltig_intake_deliver(&intake, 2, file, 512), deliver(2, file, 512), LEN);
    agrees("no such block", sarvoltig_intake_deliver(&intake, 3, file, 512), deliver(3, file, 512), LEN);
    agrees("short piece", sarvoltig_intake_deliver(&intake, 0, file, 511), deliver(0, file, 511), LEN);
}

static void run_packet(void)
{
    static const uint64_t numbers[3] = {0, 3, 2};
    uint32_t codes[4] = {99, 99, 99, 99};
    struct sarvoltig_blocks packet = {numbers, 3, file, LEN, codes, 4};

    equals("packet", "code", 0, sarvoltig_intake_packet(&intake, &packet), SARVOLTIG_CODE_DONE);
    equals("packet", "blocks held", 0, intake.result[SARVOLTIG_AT_PACKET_HELD], 2);
    expect(codes[0] == SARVOLTIG_CODE_DONE && codes[1] == SARVOLTIG_REFUSED_BLOCK_NUMBER &&
               codes[2] == SARVOLTIG_CODE_SAME && codes[3] == 99,
           "the codes of a packet");
    packet.codes_len = 2;
    equals("packet with two codes", "code", 0, sarvoltig_intake_packet(&intake, &packet), SARVOLTIG_REFUSED_LIST_SHORT);
    equals("packet with two codes", "value", 0, intake.result[SARVOLTIG_AT_REFUSAL_VALUE], 3);
    packet.pieces_len = LEN - 1;
    equals("cut packet", "code", 0, sarvoltig_intake_packet(&intake, &packet), SARVOLTIG_REFUSED_PIECE_SIZE);
    expect(map[0] == 5 && memcmp(image, file, 512) == 0, "a packet brings its blocks");
    set_intake(LEN);
}

/* Blocks 0 and 2 are held. */
static void run_missing(void)
{
    uint64_t block;

    for (block = 0; block <= 4; block++) {
        equals("holds", "block", (size_t)block, sarvoltig_intake_holds(&intake, block),
               sarvoltig_holds(LEN, map, 1, block));
        agrees("missing", sarvoltig_intake_missing(&intake, block), sarvoltig_missing(LEN, map, 1, block, clear(), N),
               LEN);
    }
    equals("missing", "code", 0, sarvoltig_intake_missing(&intake, 0), SARVOLTIG_CODE_DONE);
    equals("missing", "block", 0, intake.result[SARVOLTIG_AT_MISSING_BLOCK], 1);
    set_intake(LEN);
    agrees("layout", sarvoltig_intake_layout(&intake), sarvoltig_layout(LEN, image, LEN, map, 1, clear(), N), LEN);
    agrees("bounds", sarvoltig_intake_bounds(&intake, SARVOLTIG_TABLE_GENRES),
           sarvoltig_bounds(LEN, image, LEN, map, 1, SARVOLTIG_TABLE_GENRES, clear(), N), LEN);
    agrees("bounds of no table", sarvoltig_intake_bounds(&intake, 9),
           sarvoltig_bounds(LEN, image, LEN, map, 1, 9, clear(), N), LEN);
}

/* What is refused leaves the list's count; what waits and what is done sets it. */
static void run_lists(void)
{
    struct sarvoltig_list genres = {SARVOLTIG_TABLE_GENRES, places, ROWS, 3};

    agrees("rows that wait", sarvoltig_intake_rows(&intake, &genres), rows(SARVOLTIG_TABLE_GENRES, ROWS), LEN);
    equals("rows that wait", "count", 0, genres.count, 0);
    deliver(1, file + 512, 512);
    genres.place_len = 0;
    genres.count = 3;
    agrees("rows for no list", sarvoltig_intake_rows(&intake, &genres), rows(SARVOLTIG_TABLE_GENRES, 0), LEN);
    equals("rows for no list", "count", 0, genres.count, 3);
    genres.place_len = ROWS;
    agrees("rows", sarvoltig_intake_rows(&intake, &genres), rows(SARVOLTIG_TABLE_GENRES, ROWS), LEN);
    equals("rows", "count", 0, genres.count, 1);
    expect(places[0] == list[0] && genres.table == SARVOLTIG_TABLE_GENRES && genres.place == places &&
               genres.place_len == ROWS,
           "rows fill the list and leave the rest");
    agrees("record in the list", sarvoltig_intake_record_in(&intake, &genres, 0),
           record_in(SARVOLTIG_TABLE_GENRES, 1, 0), LEN);
    agrees("text in the list", sarvoltig_intake_text_in(&intake, &genres, 0, 0),
           text_in(SARVOLTIG_TABLE_GENRES, 1, 0, 0), LEN);
    agrees("slot 1", sarvoltig_intake_text_in(&intake, &genres, 0, 1), text_in(SARVOLTIG_TABLE_GENRES, 1, 0, 1), LEN);
    genres.count = 0;
    agrees("record past the count", sarvoltig_intake_record_in(&intake, &genres, 0),
           record_in(SARVOLTIG_TABLE_GENRES, 0, 0), LEN);
    agrees("text past the count", sarvoltig_intake_text_in(&intake, &genres, 0, 0),
           text_in(SARVOLTIG_TABLE_GENRES, 0, 0, 0), LEN);
}

static void run_questions(void)
{
    agrees("record 0", sarvoltig_intake_record(&intake, SARVOLTIG_TABLE_GENRES, 0), record(SARVOLTIG_TABLE_GENRES, 0),
           LEN);
    agrees("record 1", sarvoltig_intake_record(&intake, SARVOLTIG_TABLE_GENRES, 1), record(SARVOLTIG_TABLE_GENRES, 1),
           LEN);
    agrees("no such table", sarvoltig_intake_record(&intake, SARVOLTIG_TABLE_KEYS, 0), record(SARVOLTIG_TABLE_KEYS, 0),
           LEN);
    agrees("text", sarvoltig_intake_text(&intake, SARVOLTIG_TABLE_GENRES, 0, SARVOLTIG_SLOT_NAME),
           text(SARVOLTIG_TABLE_GENRES, 0, 0), LEN);
    agrees("slot 1", sarvoltig_intake_text(&intake, SARVOLTIG_TABLE_GENRES, 0, 1), text(SARVOLTIG_TABLE_GENRES, 0, 1),
           LEN);
}

void check_intakes(void)
{
    run_openings();
    run_deliveries();
    run_packet();
    run_missing();
    run_lists();
    run_questions();
}
