/*
 * Fetches an export for a screen that lists the playlists, over a bad network that is simulated from a file:
 *
 *     fetch [SEED] < EXPORT
 *
 * At each step one block is requested, and what arrives is taken in: pieces are lost, cut, misnumbered, repeated or
 * late, as the seed says. The program requests the page that the screen waits for, then the last page of that table,
 * then any block that is missing. A piece with the number of another block is taken for that block: where the playlists
 * are refused for it, the file is fetched again, at most three times. It prints the requests until the playlists were
 * there and until the file was, those that both take in the order of the file, and the names in the playlist tree.
 */
#include <inttypes.h>
#include <stdio.h>
#include <stdlib.h>

#include "sarvoltig_intake.h"
#include "sarvoltig_text.h"

enum { ROOM = 1 << 22, ROWS = 1 << 16, BLOCK = SARVOLTIG_SIZE_BLOCK, PATIENCE = 8, LATEST = 24, RETRIES = 3 };

/* A piece on its way: the step at which it arrives, its number, and the block and the length that it really has. */
struct piece {
    uint64_t step, number, block, len;
};

static uint8_t file[ROOM + 1], image[ROOM]; /* a longer file is refused for its length */
static uint64_t map[SARVOLTIG_SIZE_MAP(ROOM)];
static uint64_t again[ROOM / BLOCK]; /* the step from which on each block may be requested again */
static uint32_t places[2][ROWS];
static struct sarvoltig_intake intake = {0, image, ROOM, map, SARVOLTIG_SIZE_MAP(ROOM), {0}};
static struct sarvoltig_list screen[] = {{SARVOLTIG_TABLE_PLAYLIST_TREE, places[0], ROWS, 0},
                                         {SARVOLTIG_TABLE_PLAYLIST_ENTRIES, places[1], ROWS, 0}};
static struct piece way[2 * (LATEST + 1)];
static size_t on_way;
static uint64_t blocks, step, requests, state;
static uint64_t differing; /* the pieces of blocks that were held with other bytes: one of the two was misnumbered */
static uint32_t fault; /* the refusal of a fault of the file, or 0 */

static void fail(uint32_t code, const char *when)
{
    fprintf(stderr, "fetch: refused %" PRIu32 ", %s%s\n", code, sarvoltig_refusal_text(code), when);
    exit(EXIT_FAILURE);
}

/* Keeps the code of a fault of the file. Any other refusal ends the program. */
static uint32_t checked(uint32_t code)
{
    if ((code >= SARVOLTIG_REFUSED_FILE_HEADER && code <= SARVOLTIG_REFUSED_CHAIN_LOOP) ||
        code == SARVOLTIG_REFUSED_PAGE_TYPE) {
        fault = code;
    } else if (code != SARVOLTIG_CODE_DONE && code <= SARVOLTIG_CODE_REFUSED_MAX) {
        fail(code, "");
    }
    return code;
}

static uint64_t random_below(uint64_t limit)
{
    state = state * 6364136223846793005u + 1442695040888963407u;
    return (state >> 33) % limit;
}

/* Requests a block, where there is one to request, and decides what the network does with it. */
static void request(uint64_t block)
{
    struct piece piece = {step, block, block, BLOCK};
    uint64_t luck = random_below(100);

    if (block == blocks) {
        return;
    }
    requests++;
    again[block] = step + PATIENCE;
    if (luck < 10) {
        return; /* lost */
    } else if (luck < 15) {
        piece.len = random_below(BLOCK); /* cut */
    } else if (luck < 20) {
        /* misnumbered: rarely as another block, mostly as one that the file has not */
        piece.number = random_below(8) == 0 ? random_below(blocks) : block + blocks;
    } else if (luck < 29) {
        way[on_way++] = piece; /* repeated */
    }
    piece.step += luck < 60 ? random_below(LATEST) : 0; /* late */
    way[on_way++] = piece;
}

/* Takes in what arrives at this step. A piece that is refused changes nothing; its block is requested again. */
static void receive(void)
{
    for (size_t i = on_way; i-- > 0;) {
        if (way[i].step <= step) {
            const uint8_t *bytes = file + way[i].block * BLOCK;
            uint32_t code = sarvoltig_intake_deliver(&intake, way[i].number, bytes, way[i].len);

            differing += code == SARVOLTIG_REFUSED_BLOCK_DIFFERS;
            way[i] = way[--on_way];
        }
    }
}

/* The first block in a range that is not held and may be requested; blocks where there is none. */
static uint64_t next(uint64_t from, uint64_t end)
{
    while (sarvoltig_intake_missing(&intake, from) == SARVOLTIG_CODE_DONE) {
        from = intake.result[SARVOLTIG_AT_MISSING_BLOCK];
        if (from >= end || again[from] <= step) {
            return from < end ? from : blocks;
        }
        from++;
    }
    return blocks;
}

/* The same in a page, and in block 0 until it is held. */
static uint64_t next_of_page(uint64_t page)
{
    uint64_t count;

    if (checked(sarvoltig_intake_layout(&intake)) == SARVOLTIG_CODE_WAITING) {
        return next(0, 1);
    }
    count = intake.result[SARVOLTIG_AT_LAYOUT_LEN_PAGE] / BLOCK;
    return next(page * count, (page + 1) * count);
}

/* The same for the screen: of each table the page that is waited for, then its last page; then any block. */
static uint64_t next_for_screen(void)
{
    uint64_t block = blocks;

    for (size_t t = 0; t < 2 && block == blocks; t++) {
        if (checked(sarvoltig_intake_rows(&intake, &screen[t])) == SARVOLTIG_CODE_WAITING) {
            block = next_of_page(intake.result[SARVOLTIG_AT_WAITING_PAGE]);
            if (block == blocks && sarvoltig_intake_bounds(&intake, screen[t].table) == SARVOLTIG_CODE_DONE) {
                block = next_of_page(intake.result[SARVOLTIG_AT_BOUNDS_LAST_PAGE]);
            }
        }
    }
    return block < blocks ? block : next(0, blocks);
}

/* Fetches the file until it is there or has a fault. Returns the requests until the playlists were there. */
static uint64_t fetch_once(int for_screen, uint64_t len)
{
    uint64_t listed = 0;

    checked(sarvoltig_intake_open(&intake, len));
    blocks = intake.result[SARVOLTIG_AT_OPEN_BLOCKS];
    screen[0].count = screen[1].count = fault = 0;
    for (; fault == 0 && sarvoltig_intake_missing(&intake, 0) == SARVOLTIG_CODE_DONE; step++) {
        request(for_screen ? next_for_screen() : next(0, blocks));
        receive();
        if (listed == 0 && checked(sarvoltig_intake_rows(&intake, &screen[0])) == SARVOLTIG_CODE_DONE &&
            checked(sarvoltig_intake_rows(&intake, &screen[1])) == SARVOLTIG_CODE_DONE) {
            listed = requests;
        }
    }
    step += PATIENCE; /* every block may be requested again */
    return listed;
}

static void fetch(const char *order, int for_screen, uint64_t seed, uint64_t len)
{
    uint64_t listed;
    int retries = 0;

    state = seed;
    requests = differing = on_way = 0;
    while (listed = fetch_once(for_screen, len), fault != 0) {
        if (retries++ == RETRIES) {
            fail(fault, ", also when fetched again");
        }
    }
    printf("%s: playlists after %" PRIu64 " requests, file after %" PRIu64, order, listed, requests);
    printf("; fetched again: %d, pieces with other bytes: %" PRIu64 "\n", retries, differing);
}

static void print_names(void)
{
    const uint64_t *text = intake.result;
    char name[200];

    for (size_t i = 0; i < screen[0].count; i++) {
        checked(sarvoltig_intake_text_in(&intake, &screen[0], i, SARVOLTIG_SLOT_NAME));
        sarvoltig_utf8(image + text[SARVOLTIG_AT_TEXT_PLACE], text[SARVOLTIG_AT_TEXT_LENGTH],
                       text[SARVOLTIG_AT_TEXT_ENCODING], name, sizeof name);
        puts(name);
    }
}

int main(int argc, char **argv)
{
    size_t len = fread(file, 1, sizeof file, stdin);
    uint64_t seed = argc > 1 ? strtoull(argv[1], NULL, 10) : 1;

    fetch("as the screen waits", 1, seed, len);
    fetch("in the file's order", 0, seed, len);
    print_names();
    return 0;
}
