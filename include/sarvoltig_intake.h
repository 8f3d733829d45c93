/*
 * The functions about an export with their memory in a struct, so that a call names what it is about and nothing else:
 *
 *     static uint8_t image[LEN];
 *     static uint64_t map[SARVOLTIG_SIZE_MAP(LEN)];
 *     static uint32_t places[1000];
 *     struct sarvoltig_intake intake = {0, image, LEN, map, SARVOLTIG_SIZE_MAP(LEN), {0}};
 *     struct sarvoltig_list tracks = {SARVOLTIG_TABLE_TRACKS, places, 1000, 0};
 *
 *     code = sarvoltig_intake_open(&intake, LEN);
 *     code = sarvoltig_intake_deliver(&intake, block, piece, sizeof piece);
 *     code = sarvoltig_intake_rows(&intake, &tracks);
 *     code = sarvoltig_intake_text_in(&intake, &tracks, 0, SARVOLTIG_SLOT_TITLE);
 *
 * Each makes one call of the function of the same name in sarvoltig.h, where its answer is described, and returns its
 * code; the values are in intake.result. What the caller has to keep there holds here too: no pointer in a struct is
 * NULL. Two threads may not share one struct sarvoltig_intake, as the result is in it: each takes a copy of its own.
 *
 * The functions of this header are static: the caller's compiler makes them, and they are no part of the library. They
 * are tested and not proved.
 */
#ifndef SARVOLTIG_INTAKE_H
#define SARVOLTIG_INTAKE_H

#include "sarvoltig.h"

/* An intake: the caller sets image and map, and len to 0 for one that is not open. */
struct sarvoltig_intake {
    uint64_t len; /* the file's length, set by sarvoltig_intake_open */
    uint8_t *image;
    size_t image_len;
    uint64_t *map;
    size_t map_len;
    uint64_t result[SARVOLTIG_SIZE_RESULT]; /* the values of the last answer */
};

/*
 * A list of the rows of a table: the caller sets table and place, and count to 0 for one that is not filled. An opening
 * ends every list made before: set count to 0.
 */
struct sarvoltig_list {
    uint32_t table;
    uint32_t *place;
    size_t place_len; /* the places that it has room for */
    size_t count;     /* the places that it has, set by sarvoltig_intake_rows */
};

/* Blocks that arrive together, for sarvoltig_intake_packet. */
struct sarvoltig_blocks {
    const uint64_t *blocks;
    size_t blocks_len;
    const uint8_t *pieces;
    size_t pieces_len;
    uint32_t *codes;
    size_t codes_len;
};

/*
 * A refused opening leaves the intake as it was, also one that is open. Any other ends all lists made before it: set
 * their count to 0.
 */
static inline uint32_t sarvoltig_intake_open(struct sarvoltig_intake *intake, uint64_t len)
{
    uint32_t code = sarvoltig_open(len, intake->image, intake->image_len, intake->map, intake->map_len, intake->result,
                                   SARVOLTIG_SIZE_RESULT);

    if (code == SARVOLTIG_CODE_DONE) {
        intake->len = len;
    }
    return code;
}

static inline uint32_t sarvoltig_intake_deliver(struct sarvoltig_intake *intake, uint64_t block, const uint8_t *piece,
                                                size_t piece_len)
{
    return sarvoltig_deliver(intake->len, intake->image, intake->image_len, intake->map, intake->map_len, block, piece,
                             piece_len, intake->result, SARVOLTIG_SIZE_RESULT);
}

static inline uint32_t sarvoltig_intake_packet(struct sarvoltig_intake *intake, const struct sarvoltig_blocks *packet)
{
    return sarvoltig_packet(intake->len, intake->image, intake->image_len, intake->map, intake->map_len, packet->blocks,
                            packet->blocks_len, packet->pieces, packet->pieces_len, packet->codes, packet->codes_len,
                            intake->result, SARVOLTIG_SIZE_RESULT);
}

static inline uint32_t sarvoltig_intake_holds(const struct sarvoltig_intake *intake, uint64_t block)
{
    return sarvoltig_holds(intake->len, intake->map, intake->map_len, block);
}

static inline uint32_t sarvoltig_intake_missing(struct sarvoltig_intake *intake, uint64_t from)
{
    return sarvoltig_missing(intake->len, intake->map, intake->map_len, from, intake->result, SARVOLTIG_SIZE_RESULT);
}

static inline uint32_t sarvoltig_intake_layout(struct sarvoltig_intake *intake)
{
    return sarvoltig_layout(intake->len, intake->image, intake->image_len, intake->map, intake->map_len, intake->result,
                            SARVOLTIG_SIZE_RESULT);
}

static inline uint32_t sarvoltig_intake_bounds(struct sarvoltig_intake *intake, uint32_t table)
{
    return sarvoltig_bounds(intake->len, intake->image, intake->image_len, intake->map, intake->map_len, table,
                            intake->result, SARVOLTIG_SIZE_RESULT);
}

/* Also sets the list's count, to the rows found. A refused call leaves the list as it was. */
static inline uint32_t sarvoltig_intake_rows(struct sarvoltig_intake *intake, struct sarvoltig_list *list)
{
    uint32_t code = sarvoltig_rows(intake->len, intake->image, intake->image_len, intake->map, intake->map_len,
                                   list->table, list->place, list->place_len, intake->result, SARVOLTIG_SIZE_RESULT);

    if (code == SARVOLTIG_CODE_DONE || code == SARVOLTIG_CODE_WAITING) {
        list->count = (size_t)intake->result[SARVOLTIG_AT_WALK_ROWS];
    }
    return code;
}

static inline uint32_t sarvoltig_intake_record(struct sarvoltig_intake *intake, uint32_t table, uint64_t k)
{
    return sarvoltig_record(intake->len, intake->image, intake->image_len, intake->map, intake->map_len, table, k,
                            intake->result, SARVOLTIG_SIZE_RESULT);
}

static inline uint32_t sarvoltig_intake_text(struct sarvoltig_intake *intake, uint32_t table, uint64_t k, uint64_t slot)
{
    return sarvoltig_text(intake->len, intake->image, intake->image_len, intake->map, intake->map_len, table, k, slot,
                          intake->result, SARVOLTIG_SIZE_RESULT);
}

/* Passes the places that the list has, its first count, and so is refused with 18 for an i from count on. */
static inline uint32_t sarvoltig_intake_record_in(struct sarvoltig_intake *intake, const struct sarvoltig_list *list,
                                                  uint64_t i)
{
    return sarvoltig_record_in(intake->len, intake->image, intake->image_len, intake->map, intake->map_len, list->table,
                               list->place, list->count, i, intake->result, SARVOLTIG_SIZE_RESULT);
}

/* Passes the list as sarvoltig_intake_record_in does. */
static inline uint32_t sarvoltig_intake_text_in(struct sarvoltig_intake *intake, const struct sarvoltig_list *list,
                                                uint64_t i, uint64_t slot)
{
    return sarvoltig_text_in(intake->len, intake->image, intake->image_len, intake->map, intake->map_len, list->table,
                             list->place, list->count, i, slot, intake->result, SARVOLTIG_SIZE_RESULT);
}

#endif
