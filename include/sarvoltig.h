/*
 * Sarvoltig: a proved reader of rekordbox files: of export.pdb files that arrive in blocks of 512 bytes, and of the
 * beat grid, the cues and the waveforms of whole ANLZ files.
 *
 * The caller owns all memory: for an export the image (the file's bytes) and the map (one bit for each block), for an
 * ANLZ file the file's bytes, and the result (numbers). The functions keep no state, allocate nothing and call nothing
 * but memcpy and memset. Each answers every input. sarvoltig_version and sarvoltig_holds return a number; every other
 * one returns a code and writes the answer's values to the front of the result, as many as the result takes; the rest
 * of it stays. A result of SARVOLTIG_SIZE_RESULT numbers takes every answer.
 *
 *     code        answer                                           values
 *     0           SARVOLTIG_CODE_DONE                              those of the function, below
 *     1 to 63     refused, SARVOLTIG_REFUSED_..                    value and entry, SARVOLTIG_AT_REFUSAL_..
 *     64          SARVOLTIG_CODE_SAME (deliveries, codes)          those of the function
 *     65          SARVOLTIG_CODE_WAITING (questions, lists)        rows found, pages walked, page that is waited for
 *     66          SARVOLTIG_CODE_NONE (sarvoltig_missing)          none
 *
 * A later version may have more of both. Every code from 1 to 63 is a refusal: a program treats a number that it does
 * not know as it treats the others, and does not interpret its value and entry. Codes from 64 on are answers: one that
 * a program does not know it treats as no answer, and does not read the result.
 *
 * Blocks that arrive together go in by one call, sarvoltig_packet, which writes a code for each of them to a slice,
 * codes.
 *
 * The map: block b, the 512 bytes of the file from b * 512 on, is held where bit b % 64 of word b / 64 is 1. Bit 0 is
 * the lowest.
 *
 * A refused call changes no memory but the result. sarvoltig_rows, sarvoltig_record and sarvoltig_text walk the table's
 * pages from the first, so their time grows with the table. To read many rows, call sarvoltig_rows once and read them
 * from its list with sarvoltig_record_in and sarvoltig_text_in, which look at one page.
 *
 * What to fetch next: an answer that waits names a page. Page 0 stands for block 0; the blocks of any other page are
 * the len_page / 512 from page * len_page / 512 on, where sarvoltig_layout answers len_page. sarvoltig_bounds answers
 * the first and the last page of a table, sarvoltig_missing the next block that is not held, and sarvoltig_holds
 * whether one is.
 *
 * The rows of a page are named by the index entries at its end. An index entry is counted from 0 on its page, and the
 * absent ones, whose rows are skipped, are counted too. Two entries may name one row: it is then found twice, and each
 * of the two records has its own entry.
 *
 * An ANLZ file is asked with sarvoltig_beats, sarvoltig_beat, sarvoltig_cue and sarvoltig_wave as soon as all of it is
 * there: it needs no opening, no image and no map, the file is only read, and no answer waits. Each call goes through
 * all sections, one about beats also through all beats and one about cues through all cues, so n of them one by one
 * take time that grows with the square of n: read them once and keep them. A call about one of them does not judge the
 * others: where the cues are refused, the beats may be answered.
 *
 * A slice is a pointer and the number of elements that it points to. What the caller has to keep:
 *   - a pointer is aligned for its type and not NULL, also where the number is 0;
 *   - the slices of one call do not overlap, but for two that the call only reads;
 *   - nothing else writes to the slices during the call.
 *
 * So calls about one export may run at the same time where none of them writes image or map, which sarvoltig_open,
 * sarvoltig_deliver and sarvoltig_packet do: each with a result, and each sarvoltig_rows with a list, of its own.
 *
 * Beside this header stand sarvoltig_intake.h, which keeps the arguments about an export in a struct, and
 * sarvoltig_text.h, which decodes texts to UTF-8 and has a text for each code. The caller's compiler makes code of
 * them; it is tested and not proved.
 *
 * The library is for x86-64 with the System V calling convention. Its code uses the 128 bytes below the stack pointer
 * (the red zone) and the XMM registers (SSE2): an interrupt handler on the same stack has to leave both as they were.
 */
#ifndef SARVOLTIG_H
#define SARVOLTIG_H

#include <stddef.h>
#include <stdint.h>

#ifdef __cplusplus
extern "C" {
#endif

/* The version of this header. sarvoltig_version answers that of the library, as SARVOLTIG_VERSION has it. */
#define SARVOLTIG_VERSION_MAJOR 0
#define SARVOLTIG_VERSION_MINOR 2
#define SARVOLTIG_VERSION_PATCH 0
#define SARVOLTIG_VERSION (65536 * SARVOLTIG_VERSION_MAJOR + 256 * SARVOLTIG_VERSION_MINOR + SARVOLTIG_VERSION_PATCH)

/* Sizes. */
enum {
    SARVOLTIG_SIZE_BLOCK = 512,          /* bytes in a block */
    SARVOLTIG_SIZE_FILE_MAX = 268435456, /* bytes in the longest export */
    SARVOLTIG_SIZE_RESULT = 24           /* numbers in the longest answer, a track's record */
};

/*
 * The words of the map that a file of len bytes uses, as a size_t, for a len of any integer type. A longer map is
 * allowed; its other words stay.
 */
#define SARVOLTIG_SIZE_MAP(len) ((size_t)(((len) / SARVOLTIG_SIZE_BLOCK + 63) / 64))

/* Codes. */
enum {
    SARVOLTIG_CODE_DONE = 0,         /* open, new, a packet taken, all pages walked, found, counted, or answered */
    SARVOLTIG_CODE_REFUSED_MAX = 63, /* the greatest number that a refusal may have, in later versions too */
    SARVOLTIG_CODE_SAME = 64,        /* the block was held with the same bytes */
    SARVOLTIG_CODE_WAITING = 65,
    SARVOLTIG_CODE_NONE = 66         /* no block is missing */
};

/*
 * Refusals. What value and entry are is said behind a colon, the value first; they are 0 where nothing is said.
 *
 * Of a page's header 12 is tested, then 25. 12: a page with another number stands there, which hints at a fetch fault.
 * 25: a page of another table stands there, which hints at a bad medium.
 */
enum {
    SARVOLTIG_REFUSED_LENGTH = 1,        /* the file's length is not a multiple of 512 from 512 to 268,435,456 */
    SARVOLTIG_REFUSED_IMAGE_SHORT = 2,   /* the image is shorter than the file */
    SARVOLTIG_REFUSED_MAP_SHORT = 3,     /* the map has fewer than SARVOLTIG_SIZE_MAP(len) words */
    SARVOLTIG_REFUSED_MAP_SPARE = 4,     /* a bit behind the last block is set in a word in use */
    SARVOLTIG_REFUSED_BLOCK_NUMBER = 5,  /* the file has no such block */
    SARVOLTIG_REFUSED_PIECE_SIZE = 6,    /* the piece has not 512 bytes, or those of a packet not 512 for each block */
    SARVOLTIG_REFUSED_BLOCK_DIFFERS = 7, /* the block is held with other bytes, which stay */
    SARVOLTIG_REFUSED_TABLE_TYPE = 8,    /* the table is not one of the ten */
    SARVOLTIG_REFUSED_FILE_HEADER = 9,   /* the file header is broken */
    SARVOLTIG_REFUSED_NO_POINTER = 10,   /* the file has no such table */
    SARVOLTIG_REFUSED_PAGE_LINK = 11,    /* a link names no page: the page that holds it, 0 for the file header */
    SARVOLTIG_REFUSED_PAGE_NUMBER = 12,  /* a page's header names another page: the page */
    SARVOLTIG_REFUSED_ROW_INDEX = 13,    /* a row index does not fit, or has not as many rows as counted: the page */
    SARVOLTIG_REFUSED_ROW_SHORT = 14,    /* a row does not fit, or an artist has no known subtype: page, index entry */
    SARVOLTIG_REFUSED_TEXT_FAULT = 15,   /* a string or code is malformed or outside its page: page, index entry */
    SARVOLTIG_REFUSED_CHAIN_LOOP = 16,   /* a page of the table comes a second time before its last page */
    SARVOLTIG_REFUSED_LIST_SHORT = 17,   /* list too short: the rows found so far; or codes: the packet's blocks */
    SARVOLTIG_REFUSED_NO_ROW = 18,       /* no such record, row of the list, beat, cue, waveform or entry of it */
    SARVOLTIG_REFUSED_NO_SLOT = 19,      /* the table's records have no such string slot */
    SARVOLTIG_REFUSED_ANLZ_HEADER = 20,  /* the header of an ANLZ file is broken, or len_file is not its length */
    SARVOLTIG_REFUSED_SECTION = 21,      /* a section is malformed or ends past the file, or bytes are left over */
    SARVOLTIG_REFUSED_NO_GRID = 22,      /* no section is a beat grid, PQTZ */
    SARVOLTIG_REFUSED_GRID_LENGTH = 23,  /* the beats do not fill the grid's section exactly */
    SARVOLTIG_REFUSED_BAR_POSITION = 24, /* the bar position of a beat, whichever it is, is not 1 to 4 */
    SARVOLTIG_REFUSED_PAGE_TYPE = 25,    /* a page's header names another table type: the page */
    SARVOLTIG_REFUSED_CUE_LIST = 26,     /* a cue list, whichever it is, or a cue in it is malformed */
    SARVOLTIG_REFUSED_WAVEFORM = 27      /* the waveform is not filled by its entries, or has another width or count */
};

/* SARVOLTIG_AT_.. is where a number stands in the result. */

/* A refusal. Every one writes both. */
enum {
    SARVOLTIG_AT_REFUSAL_VALUE,
    SARVOLTIG_AT_REFUSAL_ENTRY /* the index entry, 0 but for 14 and 15 */
};

/* Answers of one number. */
enum {
    SARVOLTIG_AT_OPEN_BLOCKS = 0,   /* the blocks of the file */
    SARVOLTIG_AT_DELIVER_HELD = 0,  /* the blocks held */
    SARVOLTIG_AT_PACKET_HELD = 0,   /* the blocks held */
    SARVOLTIG_AT_MISSING_BLOCK = 0, /* the block */
    SARVOLTIG_AT_BEATS_COUNT = 0    /* the beats of the grid */
};

/* All rows, and SARVOLTIG_CODE_WAITING, which has the page too. */
enum {
    SARVOLTIG_AT_WALK_ROWS,
    SARVOLTIG_AT_WALK_PAGES,
    SARVOLTIG_AT_WAITING_PAGE
};

/* The layout of a file, and the bounds of a table. */
enum {
    SARVOLTIG_AT_LAYOUT_LEN_PAGE, /* bytes in a page */
    SARVOLTIG_AT_LAYOUT_PAGES     /* the pages of the file */
};
enum {
    SARVOLTIG_AT_BOUNDS_FIRST_PAGE,
    SARVOLTIG_AT_BOUNDS_LAST_PAGE
};

/*
 * Tables, with their records' own numbers, which stand in the result from SARVOLTIG_AT_ROW_NUMBERS on. Every table but
 * the playlist entries has strings: tracks 21 slots, the others one, SARVOLTIG_SLOT_NAME.
 */
enum {
    SARVOLTIG_TABLE_TRACKS = 0,           /* SARVOLTIG_AT_TRACK_.. */
    SARVOLTIG_TABLE_GENRES = 1,           /* SARVOLTIG_AT_GENRE_ID */
    SARVOLTIG_TABLE_ARTISTS = 2,          /* SARVOLTIG_AT_ARTIST_ID */
    SARVOLTIG_TABLE_ALBUMS = 3,           /* SARVOLTIG_AT_ALBUM_.. */
    SARVOLTIG_TABLE_LABELS = 4,           /* SARVOLTIG_AT_LABEL_ID */
    SARVOLTIG_TABLE_KEYS = 5,             /* SARVOLTIG_AT_KEY_ID */
    SARVOLTIG_TABLE_COLORS = 6,           /* SARVOLTIG_AT_COLOR_ID */
    SARVOLTIG_TABLE_PLAYLIST_TREE = 7,    /* SARVOLTIG_AT_PLAYLIST_NODE_.. */
    SARVOLTIG_TABLE_PLAYLIST_ENTRIES = 8, /* SARVOLTIG_AT_PLAYLIST_ENTRY_.. */
    SARVOLTIG_TABLE_ARTWORK = 13          /* SARVOLTIG_AT_ARTWORK_ID */
};

/* A record: for every table its row's page and index entry, then its own numbers. */
enum {
    SARVOLTIG_AT_ROW_PAGE,
    SARVOLTIG_AT_ROW_ENTRY,
    SARVOLTIG_AT_ROW_NUMBERS /* the first of its own */
};

/* A track. */
enum {
    SARVOLTIG_AT_TRACK_SAMPLE_RATE = SARVOLTIG_AT_ROW_NUMBERS,
    SARVOLTIG_AT_TRACK_COMPOSER_ID,
    SARVOLTIG_AT_TRACK_FILE_SIZE,
    SARVOLTIG_AT_TRACK_ARTWORK_ID,
    SARVOLTIG_AT_TRACK_KEY_ID,
    SARVOLTIG_AT_TRACK_ORIGINAL_ARTIST_ID,
    SARVOLTIG_AT_TRACK_LABEL_ID,
    SARVOLTIG_AT_TRACK_REMIXER_ID,
    SARVOLTIG_AT_TRACK_BITRATE,
    SARVOLTIG_AT_TRACK_TRACK_NUMBER,
    SARVOLTIG_AT_TRACK_TEMPO, /* beats per minute, times 100 */
    SARVOLTIG_AT_TRACK_GENRE_ID,
    SARVOLTIG_AT_TRACK_ALBUM_ID,
    SARVOLTIG_AT_TRACK_ARTIST_ID,
    SARVOLTIG_AT_TRACK_ID,
    SARVOLTIG_AT_TRACK_DISC_NUMBER,
    SARVOLTIG_AT_TRACK_PLAY_COUNT,
    SARVOLTIG_AT_TRACK_YEAR,
    SARVOLTIG_AT_TRACK_SAMPLE_DEPTH,
    SARVOLTIG_AT_TRACK_DURATION, /* in seconds */
    SARVOLTIG_AT_TRACK_COLOR_ID,
    SARVOLTIG_AT_TRACK_RATING
};

/* An album, and the tables whose records have their id alone. */
enum {
    SARVOLTIG_AT_ALBUM_ARTIST_ID = SARVOLTIG_AT_ROW_NUMBERS,
    SARVOLTIG_AT_ALBUM_ID
};
enum {
    SARVOLTIG_AT_GENRE_ID = SARVOLTIG_AT_ROW_NUMBERS,
    SARVOLTIG_AT_ARTIST_ID = SARVOLTIG_AT_ROW_NUMBERS,
    SARVOLTIG_AT_LABEL_ID = SARVOLTIG_AT_ROW_NUMBERS,
    SARVOLTIG_AT_KEY_ID = SARVOLTIG_AT_ROW_NUMBERS,
    SARVOLTIG_AT_COLOR_ID = SARVOLTIG_AT_ROW_NUMBERS,
    SARVOLTIG_AT_ARTWORK_ID = SARVOLTIG_AT_ROW_NUMBERS
};

/* A row of the playlist tree, and an entry of a playlist. */
enum {
    SARVOLTIG_AT_PLAYLIST_NODE_PARENT_ID = SARVOLTIG_AT_ROW_NUMBERS,
    SARVOLTIG_AT_PLAYLIST_NODE_SORT_ORDER,
    SARVOLTIG_AT_PLAYLIST_NODE_ID,
    SARVOLTIG_AT_PLAYLIST_NODE_RAW_IS_FOLDER /* other than 0 for a folder */
};
enum {
    SARVOLTIG_AT_PLAYLIST_ENTRY_INDEX = SARVOLTIG_AT_ROW_NUMBERS, /* its position in the playlist, and no index entry */
    SARVOLTIG_AT_PLAYLIST_ENTRY_TRACK_ID,
    SARVOLTIG_AT_PLAYLIST_ENTRY_PLAYLIST_ID
};

/* A string. */
enum {
    SARVOLTIG_AT_TEXT_PLACE,   /* where its text starts in the image */
    SARVOLTIG_AT_TEXT_LENGTH,  /* its length in bytes */
    SARVOLTIG_AT_TEXT_ENCODING /* SARVOLTIG_ENCODING_.. */
};
enum {
    SARVOLTIG_ENCODING_ASCII = 0,
    SARVOLTIG_ENCODING_UTF16LE = 1
};

/* String slots of a track. */
enum {
    SARVOLTIG_SLOT_ISRC = 0, /* the recording code, see sarvoltig_text */
    SARVOLTIG_SLOT_TEXTER = 1,
    SARVOLTIG_SLOT_UNKNOWN_STRING_2 = 2,
    SARVOLTIG_SLOT_UNKNOWN_STRING_3 = 3,
    SARVOLTIG_SLOT_UNKNOWN_STRING_4 = 4,
    SARVOLTIG_SLOT_MESSAGE = 5,
    SARVOLTIG_SLOT_KUVO_PUBLIC = 6,
    SARVOLTIG_SLOT_AUTOLOAD_HOTCUES = 7,
    SARVOLTIG_SLOT_UNKNOWN_STRING_5 = 8,
    SARVOLTIG_SLOT_UNKNOWN_STRING_6 = 9,
    SARVOLTIG_SLOT_DATE_ADDED = 10,
    SARVOLTIG_SLOT_RELEASE_DATE = 11,
    SARVOLTIG_SLOT_MIX_NAME = 12,
    SARVOLTIG_SLOT_UNKNOWN_STRING_7 = 13,
    SARVOLTIG_SLOT_ANALYZE_PATH = 14,
    SARVOLTIG_SLOT_ANALYZE_DATE = 15,
    SARVOLTIG_SLOT_COMMENT = 16,
    SARVOLTIG_SLOT_TITLE = 17,
    SARVOLTIG_SLOT_UNKNOWN_STRING_8 = 18,
    SARVOLTIG_SLOT_FILENAME = 19,
    SARVOLTIG_SLOT_FILE_PATH = 20
};

/* The one string slot of the other tables: the name, of an artwork the path. */
enum {
    SARVOLTIG_SLOT_NAME = 0
};

/* A beat. */
enum {
    SARVOLTIG_AT_BEAT_BAR_POSITION, /* its position in the bar, 1 to 4 */
    SARVOLTIG_AT_BEAT_TEMPO,        /* beats per minute, times 100 */
    SARVOLTIG_AT_BEAT_TIME          /* milliseconds from the track's start, at its normal speed */
};

/* A cue. Times are in milliseconds, as those of beats. */
enum {
    SARVOLTIG_AT_CUE_LIST_TYPE, /* SARVOLTIG_CUE_LIST_TYPE_.. */
    SARVOLTIG_AT_CUE_HOT_CUE,   /* the hot cue number */
    SARVOLTIG_AT_CUE_KIND,      /* SARVOLTIG_CUE_KIND_.. */
    SARVOLTIG_AT_CUE_TIME,      /* of the point, or where the loop starts */
    SARVOLTIG_AT_CUE_LOOP_TIME  /* of a loop alone: where it goes back to its start */
};
enum {
    SARVOLTIG_CUE_LIST_TYPE_MEMORY = 0,
    SARVOLTIG_CUE_LIST_TYPE_HOT = 1
};
enum {
    SARVOLTIG_CUE_KIND_POINT = 1,
    SARVOLTIG_CUE_KIND_LOOP = 2
};

/* An entry of a waveform. */
enum {
    SARVOLTIG_AT_WAVE_PLACE, /* where it starts in the file */
    SARVOLTIG_AT_WAVE_WIDTH  /* its length in bytes */
};

/* The sorts of waveforms, with the bytes of an entry. */
enum {
    SARVOLTIG_WAVE_SORT_DETAIL = 3,        /* PWV3: 1 */
    SARVOLTIG_WAVE_SORT_COLOR_PREVIEW = 4, /* PWV4: 6, always 1,200 entries */
    SARVOLTIG_WAVE_SORT_COLOR_DETAIL = 5   /* PWV5: 2 */
};

/*
 * The version of the library: 65536 * major + 256 * minor + patch. Where it is not SARVOLTIG_VERSION, this header is of
 * another version than the library.
 */
uint32_t sarvoltig_version(void);

/*
 * Opens an intake for a file of len bytes: clears the map's words in use. The image is neither read nor written.
 *
 *     0           the file's number of blocks
 *     1 to 3      refused
 *
 * Every later call takes the same len, image and map. Before any opening len is 0, which they refuse with 1.
 */
uint32_t sarvoltig_open(uint64_t len,
                        const uint8_t *image, size_t image_len,
                        uint64_t *map, size_t map_len,
                        uint64_t *result, size_t result_len);

/*
 * Delivers a block, the 512 bytes of the file from block * 512 on. A block that is not held is copied to the image and
 * its bit is set in the map; otherwise both stay.
 *
 *     0           new: the number of blocks held, with this one
 *     64          the block was held with the same bytes: the number of blocks held
 *     1 to 7      refused
 */
uint32_t sarvoltig_deliver(uint64_t len,
                           uint8_t *image, size_t image_len,
                           uint64_t *map, size_t map_len,
                           uint64_t block,
                           const uint8_t *piece, size_t piece_len,
                           uint64_t *result, size_t result_len);

/*
 * Delivers a packet, any number of blocks in one call: block blocks[i] with the 512 bytes of pieces from i * 512 on.
 * Image and map become what sarvoltig_deliver makes of them for one block after the other, and codes[i] the code that
 * it gives.
 *
 *     0           the number of blocks held after the packet
 *     1 to 4      refused
 *     6           refused: pieces_len is not blocks_len * 512
 *     17          refused: codes_len is below blocks_len, which is the value
 *
 * A refused packet brings no block, and codes stays. Otherwise each block has its code, and codes behind them stays:
 *
 *     0           new
 *     64          the block was held with the same bytes, be it from earlier in the packet
 *     5, 7        this block is refused, and none of the others for it
 *
 * The blocks held are counted once for the whole packet, not for each block. For a fetcher that gets up to 64 blocks:
 *
 *     uint64_t blocks[64];
 *     uint8_t pieces[64 * SARVOLTIG_SIZE_BLOCK];
 *     uint32_t codes[64];
 *     size_t count = fetch(blocks, pieces);
 *     uint32_t code = sarvoltig_packet(len, image, image_len, map, map_len, blocks, count,
 *                                      pieces, count * SARVOLTIG_SIZE_BLOCK, codes, 64, result, SARVOLTIG_SIZE_RESULT);
 *
 *     for (size_t i = 0; code == SARVOLTIG_CODE_DONE && i < count; i++)
 *         if (codes[i] != SARVOLTIG_CODE_DONE && codes[i] != SARVOLTIG_CODE_SAME)
 *             report(blocks[i], codes[i]);
 */
uint32_t sarvoltig_packet(uint64_t len,
                          uint8_t *image, size_t image_len,
                          uint64_t *map, size_t map_len,
                          const uint64_t *blocks, size_t blocks_len,
                          const uint8_t *pieces, size_t pieces_len,
                          uint32_t *codes, size_t codes_len,
                          uint64_t *result, size_t result_len);

/*
 * Tells whether a block is held: 1 where the file has the block and its bit is set in the map, otherwise 0. Any len and
 * any map are answered; a word that the map has not counts as 0.
 */
uint32_t sarvoltig_holds(uint64_t len,
                         const uint64_t *map, size_t map_len,
                         uint64_t block);

/*
 * Asks for the first block from number from on that is not held. Any len, map and from are answered, as by
 * sarvoltig_holds.
 *
 *     0           the block
 *     66          none is missing from there on; no value
 *
 * 66 is also answered for a len below 512, so before an opening, and tells nothing of image or map: it means that the
 * file is complete only where the opening answered 0.
 *
 * The blocks that are still to be fetched:
 *
 *     uint64_t from = 0;
 *
 *     while (sarvoltig_missing(len, map, map_len, from, result, SARVOLTIG_SIZE_RESULT) == SARVOLTIG_CODE_DONE) {
 *         request(result[SARVOLTIG_AT_MISSING_BLOCK]);
 *         from = result[SARVOLTIG_AT_MISSING_BLOCK] + 1;
 *     }
 */
uint32_t sarvoltig_missing(uint64_t len,
                           const uint64_t *map, size_t map_len,
                           uint64_t from,
                           uint64_t *result, size_t result_len);

/*
 * Asks for the layout of the file, from its header.
 *
 *     0           the bytes in a page, and the pages of the file: SARVOLTIG_AT_LAYOUT_..
 *     65          0 rows, 0 pages and page 0, where block 0 is not held
 *     1 to 4, 9   refused
 */
uint32_t sarvoltig_layout(uint64_t len,
                          const uint8_t *image, size_t image_len,
                          const uint64_t *map, size_t map_len,
                          uint64_t *result, size_t result_len);

/*
 * Asks for the first and the last page of a table, as the directory has them. Of the file it looks at block 0
 * alone.
 *
 *     0           first page and last page: SARVOLTIG_AT_BOUNDS_..
 *     65          0 rows, 0 pages and page 0, where block 0 is not held
 *     1 to 4, 8 to 11              refused
 */
uint32_t sarvoltig_bounds(uint64_t len,
                          const uint8_t *image, size_t image_len,
                          const uint64_t *map, size_t map_len,
                          uint32_t table,
                          uint64_t *result, size_t result_len);

/*
 * Asks for all rows of a table. A row's place is the byte offset in the image where it starts. The places are written
 * to the list from its first element on; elements behind them stay.
 *
 *     0           all rows: how many, and the pages walked
 *     65          the rows so far: how many, the pages walked, and the first page that is not wholly held
 *     1 to 4, 8 to 17, 25          refused; the list stays
 *
 * The value of 17 is the number of rows found so far, which the list has to hold; it can grow while pages are missing.
 * Where the list is too short, sarvoltig_record with k = UINT64_MAX answers 65 with the page that is waited for, or 18
 * where all pages are there.
 */
uint32_t sarvoltig_rows(uint64_t len,
                        const uint8_t *image, size_t image_len,
                        const uint64_t *map, size_t map_len,
                        uint32_t table,
                        uint32_t *list, size_t list_len,
                        uint64_t *result, size_t result_len);

/*
 * Asks for record k of a table, from 0, in the order of its rows.
 *
 *     0           the row's page and index entry, and the record's own numbers: SARVOLTIG_AT_ROW_..
 *     65          not found so far: rows, pages and page, as above
 *     1 to 4, 8 to 16, 18, 25      refused
 */
uint32_t sarvoltig_record(uint64_t len,
                          const uint8_t *image, size_t image_len,
                          const uint64_t *map, size_t map_len,
                          uint32_t table, uint64_t k,
                          uint64_t *result, size_t result_len);

/*
 * Asks for a string slot of record k of a table.
 *
 *     0           the text's place in the image, its length in bytes and its encoding. The text is not decoded
 *     65          not found so far: rows, pages and page, as above
 *     1 to 4, 8 to 16, 18, 19, 25  refused
 *
 * Slot 0 of a track, SARVOLTIG_SLOT_ISRC, and no other slot or table, may hold a recording code: a string of kind 90
 * with a total length of 5 or more and the byte 03 behind its four head bytes. Its text is what stands between the 03
 * and the first zero byte behind it, with the encoding SARVOLTIG_ENCODING_ASCII. The total length may be odd, and bytes
 * behind the zero byte belong to the string and not to the text. Without a zero byte inside the total length it is
 * refused with 15. As in every text of that encoding, bytes are not tested for ASCII: some may be above 7f. A string
 * that slot 0 shares with another slot is read in both ways, and is refused with 15 unless it is right in both.
 */
uint32_t sarvoltig_text(uint64_t len,
                        const uint8_t *image, size_t image_len,
                        const uint64_t *map, size_t map_len,
                        uint32_t table, uint64_t k, uint64_t slot,
                        uint64_t *result, size_t result_len);

/*
 * Reads the record of a row from a list of places that sarvoltig_rows wrote: the row of element i, from 0. Of the file
 * it looks at block 0 and at the row's page alone, and it writes nothing but the result. Any list and any i are
 * answered.
 *
 *     0           page, index entry and numbers, as sarvoltig_record gives them
 *     65          0 rows, 0 pages, and the row's page, which is not wholly held; page 0 where block 0 is not held
 *     1 to 4, 8, 9, 12 to 15, 18, 25       refused, 14 and 15 for this row alone. 18: the list has no element i, or
 *                                          the element is not the place of a row
 *
 * For the list as sarvoltig_rows left it and i below the rows found, the answer is that of sarvoltig_record for k = i,
 * and it stays as more blocks arrive. The elements before i tell which of the page's rows is meant, as two may start at
 * one place: pass the list from its first element on.
 */
uint32_t sarvoltig_record_in(uint64_t len,
                             const uint8_t *image, size_t image_len,
                             const uint64_t *map, size_t map_len,
                             uint32_t table,
                             const uint32_t *list, size_t list_len,
                             uint64_t i,
                             uint64_t *result, size_t result_len);

/*
 * Reads a string slot of a row from a list, as sarvoltig_record_in reads its record.
 *
 *     0           place, length and encoding, as sarvoltig_text gives them, also of a recording code
 *     65          0 rows, 0 pages and the page, as above
 *     1 to 4, 8, 9, 12 to 15, 18, 19, 25   refused, as above; 19 for a slot that the table has not
 */
uint32_t sarvoltig_text_in(uint64_t len,
                           const uint8_t *image, size_t image_len,
                           const uint64_t *map, size_t map_len,
                           uint32_t table,
                           const uint32_t *list, size_t list_len,
                           uint64_t i, uint64_t slot,
                           uint64_t *result, size_t result_len);

/*
 * Asks for the number of beats in the beat grid of an ANLZ file, its first section PQTZ.
 *
 *     0           the number of beats
 *     20 to 24    refused, by the first that applies. Each section and each beat of the grid is judged
 */
uint32_t sarvoltig_beats(const uint8_t *file, size_t file_len,
                         uint64_t *result, size_t result_len);

/*
 * Asks for beat k of the beat grid of an ANLZ file, from 0. The whole file is judged, as by sarvoltig_beats.
 *
 *     0           the beat's position in its bar, tempo and time: SARVOLTIG_AT_BEAT_..
 *     20 to 24    refused, as by sarvoltig_beats
 *     18          refused: k is not below the number of beats
 */
uint32_t sarvoltig_beat(const uint8_t *file, size_t file_len,
                        uint64_t k,
                        uint64_t *result, size_t result_len);

/*
 * Asks for cue k of an ANLZ file, from 0, counted through all its cue lists, the sections PCOB, in their order. Each
 * section and each cue of each list is judged.
 *
 *     0           list type, hot cue number, kind and time, and for a loop its loop time: SARVOLTIG_AT_CUE_..
 *     20, 21, 26  refused, by the first that applies
 *     18          refused: k is not below the number of cues, which is 0 where there is no list
 */
uint32_t sarvoltig_cue(const uint8_t *file, size_t file_len,
                       uint64_t k,
                       uint64_t *result, size_t result_len);

/*
 * Asks for entry k, from 0, of a waveform of an ANLZ file: of the first section of its sort. Each section is judged,
 * and of the waveform all but its entries' bytes, which are not read.
 *
 *     0           the entry's place in the file and its width: SARVOLTIG_AT_WAVE_..
 *     20, 21      refused, by the first that applies
 *     18          refused: sort is not 3, 4 or 5, or the file has no such section
 *     27          refused: the waveform is not filled by its entries, or has another width or count
 *     18          refused: k is not below the number of entries
 */
uint32_t sarvoltig_wave(const uint8_t *file, size_t file_len,
                        uint64_t sort, uint64_t k,
                        uint64_t *result, size_t result_len);

/*
 * The names of version 0.1, for programs that were written with it. They mean the same.
 */
enum {
    SARVOLTIG_BLOCK = SARVOLTIG_SIZE_BLOCK,
    SARVOLTIG_LONGEST = SARVOLTIG_SIZE_FILE_MAX,
    SARVOLTIG_RESULT = SARVOLTIG_SIZE_RESULT
};
enum {
    SARVOLTIG_DONE = SARVOLTIG_CODE_DONE,
    SARVOLTIG_SAME = SARVOLTIG_CODE_SAME,
    SARVOLTIG_WAITING = SARVOLTIG_CODE_WAITING
};
enum {
    SARVOLTIG_LENGTH = SARVOLTIG_REFUSED_LENGTH,
    SARVOLTIG_IMAGE_SHORT = SARVOLTIG_REFUSED_IMAGE_SHORT,
    SARVOLTIG_MAP_SHORT = SARVOLTIG_REFUSED_MAP_SHORT,
    SARVOLTIG_MAP_SPARE = SARVOLTIG_REFUSED_MAP_SPARE,
    SARVOLTIG_BLOCK_NUMBER = SARVOLTIG_REFUSED_BLOCK_NUMBER,
    SARVOLTIG_PIECE_SIZE = SARVOLTIG_REFUSED_PIECE_SIZE,
    SARVOLTIG_BLOCK_DIFFERS = SARVOLTIG_REFUSED_BLOCK_DIFFERS,
    SARVOLTIG_TABLE_TYPE = SARVOLTIG_REFUSED_TABLE_TYPE,
    SARVOLTIG_FILE_HEADER = SARVOLTIG_REFUSED_FILE_HEADER,
    SARVOLTIG_NO_POINTER = SARVOLTIG_REFUSED_NO_POINTER,
    SARVOLTIG_PAGE_LINK = SARVOLTIG_REFUSED_PAGE_LINK,
    SARVOLTIG_PAGE_NUMBER = SARVOLTIG_REFUSED_PAGE_NUMBER,
    SARVOLTIG_ROW_INDEX = SARVOLTIG_REFUSED_ROW_INDEX,
    SARVOLTIG_ROW_SHORT = SARVOLTIG_REFUSED_ROW_SHORT,
    SARVOLTIG_TEXT_FAULT = SARVOLTIG_REFUSED_TEXT_FAULT,
    SARVOLTIG_CHAIN_LOOP = SARVOLTIG_REFUSED_CHAIN_LOOP,
    SARVOLTIG_LIST_SHORT = SARVOLTIG_REFUSED_LIST_SHORT,
    SARVOLTIG_NO_ROW = SARVOLTIG_REFUSED_NO_ROW,
    SARVOLTIG_NO_SLOT = SARVOLTIG_REFUSED_NO_SLOT,
    SARVOLTIG_ANLZ_HEADER = SARVOLTIG_REFUSED_ANLZ_HEADER,
    SARVOLTIG_SECTION = SARVOLTIG_REFUSED_SECTION,
    SARVOLTIG_NO_GRID = SARVOLTIG_REFUSED_NO_GRID,
    SARVOLTIG_GRID_LENGTH = SARVOLTIG_REFUSED_GRID_LENGTH,
    SARVOLTIG_BAR_POSITION = SARVOLTIG_REFUSED_BAR_POSITION,
    SARVOLTIG_PAGE_TYPE = SARVOLTIG_REFUSED_PAGE_TYPE,
    SARVOLTIG_CUE_LIST = SARVOLTIG_REFUSED_CUE_LIST,
    SARVOLTIG_WAVEFORM = SARVOLTIG_REFUSED_WAVEFORM
};
enum {
    SARVOLTIG_REFUSAL_VALUE = SARVOLTIG_AT_REFUSAL_VALUE,
    SARVOLTIG_REFUSAL_ENTRY = SARVOLTIG_AT_REFUSAL_ENTRY
};
enum {
    SARVOLTIG_TRACKS = SARVOLTIG_TABLE_TRACKS,
    SARVOLTIG_GENRES = SARVOLTIG_TABLE_GENRES,
    SARVOLTIG_ARTISTS = SARVOLTIG_TABLE_ARTISTS,
    SARVOLTIG_ALBUMS = SARVOLTIG_TABLE_ALBUMS,
    SARVOLTIG_LABELS = SARVOLTIG_TABLE_LABELS,
    SARVOLTIG_KEYS = SARVOLTIG_TABLE_KEYS,
    SARVOLTIG_COLORS = SARVOLTIG_TABLE_COLORS,
    SARVOLTIG_PLAYLIST_TREE = SARVOLTIG_TABLE_PLAYLIST_TREE,
    SARVOLTIG_PLAYLIST_ENTRIES = SARVOLTIG_TABLE_PLAYLIST_ENTRIES,
    SARVOLTIG_ARTWORK = SARVOLTIG_TABLE_ARTWORK
};
enum {
    SARVOLTIG_ROW_PAGE = SARVOLTIG_AT_ROW_PAGE,
    SARVOLTIG_ROW_ENTRY = SARVOLTIG_AT_ROW_ENTRY,
    SARVOLTIG_ROW_NUMBERS = SARVOLTIG_AT_ROW_NUMBERS
};
enum {
    SARVOLTIG_TRACK_SAMPLE_RATE = SARVOLTIG_AT_TRACK_SAMPLE_RATE,
    SARVOLTIG_TRACK_COMPOSER_ID = SARVOLTIG_AT_TRACK_COMPOSER_ID,
    SARVOLTIG_TRACK_FILE_SIZE = SARVOLTIG_AT_TRACK_FILE_SIZE,
    SARVOLTIG_TRACK_ARTWORK_ID = SARVOLTIG_AT_TRACK_ARTWORK_ID,
    SARVOLTIG_TRACK_KEY_ID = SARVOLTIG_AT_TRACK_KEY_ID,
    SARVOLTIG_TRACK_ORIGINAL_ARTIST_ID = SARVOLTIG_AT_TRACK_ORIGINAL_ARTIST_ID,
    SARVOLTIG_TRACK_LABEL_ID = SARVOLTIG_AT_TRACK_LABEL_ID,
    SARVOLTIG_TRACK_REMIXER_ID = SARVOLTIG_AT_TRACK_REMIXER_ID,
    SARVOLTIG_TRACK_BITRATE = SARVOLTIG_AT_TRACK_BITRATE,
    SARVOLTIG_TRACK_TRACK_NUMBER = SARVOLTIG_AT_TRACK_TRACK_NUMBER,
    SARVOLTIG_TRACK_TEMPO = SARVOLTIG_AT_TRACK_TEMPO,
    SARVOLTIG_TRACK_GENRE_ID = SARVOLTIG_AT_TRACK_GENRE_ID,
    SARVOLTIG_TRACK_ALBUM_ID = SARVOLTIG_AT_TRACK_ALBUM_ID,
    SARVOLTIG_TRACK_ARTIST_ID = SARVOLTIG_AT_TRACK_ARTIST_ID,
    SARVOLTIG_TRACK_ID = SARVOLTIG_AT_TRACK_ID,
    SARVOLTIG_TRACK_DISC_NUMBER = SARVOLTIG_AT_TRACK_DISC_NUMBER,
    SARVOLTIG_TRACK_PLAY_COUNT = SARVOLTIG_AT_TRACK_PLAY_COUNT,
    SARVOLTIG_TRACK_YEAR = SARVOLTIG_AT_TRACK_YEAR,
    SARVOLTIG_TRACK_SAMPLE_DEPTH = SARVOLTIG_AT_TRACK_SAMPLE_DEPTH,
    SARVOLTIG_TRACK_DURATION = SARVOLTIG_AT_TRACK_DURATION,
    SARVOLTIG_TRACK_COLOR_ID = SARVOLTIG_AT_TRACK_COLOR_ID,
    SARVOLTIG_TRACK_RATING = SARVOLTIG_AT_TRACK_RATING
};
enum {
    SARVOLTIG_NODE_PARENT_ID = SARVOLTIG_AT_PLAYLIST_NODE_PARENT_ID,
    SARVOLTIG_NODE_SORT_ORDER = SARVOLTIG_AT_PLAYLIST_NODE_SORT_ORDER,
    SARVOLTIG_NODE_ID = SARVOLTIG_AT_PLAYLIST_NODE_ID,
    SARVOLTIG_NODE_RAW_IS_FOLDER = SARVOLTIG_AT_PLAYLIST_NODE_RAW_IS_FOLDER
};
enum {
    SARVOLTIG_ENTRY_INDEX = SARVOLTIG_AT_PLAYLIST_ENTRY_INDEX,
    SARVOLTIG_ENTRY_TRACK_ID = SARVOLTIG_AT_PLAYLIST_ENTRY_TRACK_ID,
    SARVOLTIG_ENTRY_PLAYLIST_ID = SARVOLTIG_AT_PLAYLIST_ENTRY_PLAYLIST_ID
};
enum {
    SARVOLTIG_ROWS = SARVOLTIG_AT_WALK_ROWS,
    SARVOLTIG_PAGES = SARVOLTIG_AT_WALK_PAGES,
    SARVOLTIG_PAGE = SARVOLTIG_AT_WAITING_PAGE
};
enum {
    SARVOLTIG_TEXT_PLACE = SARVOLTIG_AT_TEXT_PLACE,
    SARVOLTIG_TEXT_LENGTH = SARVOLTIG_AT_TEXT_LENGTH,
    SARVOLTIG_TEXT_ENCODING = SARVOLTIG_AT_TEXT_ENCODING
};
enum {
    SARVOLTIG_ASCII = SARVOLTIG_ENCODING_ASCII,
    SARVOLTIG_UTF16LE = SARVOLTIG_ENCODING_UTF16LE
};
enum {
    SARVOLTIG_BEAT_BAR_POSITION = SARVOLTIG_AT_BEAT_BAR_POSITION,
    SARVOLTIG_BEAT_TEMPO = SARVOLTIG_AT_BEAT_TEMPO,
    SARVOLTIG_BEAT_TIME = SARVOLTIG_AT_BEAT_TIME
};
enum {
    SARVOLTIG_CUE_LIST_TYPE = SARVOLTIG_AT_CUE_LIST_TYPE,
    SARVOLTIG_CUE_HOT_CUE = SARVOLTIG_AT_CUE_HOT_CUE,
    SARVOLTIG_CUE_KIND = SARVOLTIG_AT_CUE_KIND,
    SARVOLTIG_CUE_TIME = SARVOLTIG_AT_CUE_TIME,
    SARVOLTIG_CUE_LOOP_TIME = SARVOLTIG_AT_CUE_LOOP_TIME
};
enum {
    SARVOLTIG_MEMORY = SARVOLTIG_CUE_LIST_TYPE_MEMORY,
    SARVOLTIG_HOT = SARVOLTIG_CUE_LIST_TYPE_HOT
};
enum {
    SARVOLTIG_POINT = SARVOLTIG_CUE_KIND_POINT,
    SARVOLTIG_LOOP = SARVOLTIG_CUE_KIND_LOOP
};
enum {
    SARVOLTIG_WAVE_PLACE = SARVOLTIG_AT_WAVE_PLACE,
    SARVOLTIG_WAVE_WIDTH = SARVOLTIG_AT_WAVE_WIDTH
};
enum {
    SARVOLTIG_WAVE_DETAIL = SARVOLTIG_WAVE_SORT_DETAIL,
    SARVOLTIG_WAVE_COLOR_PREVIEW = SARVOLTIG_WAVE_SORT_COLOR_PREVIEW,
    SARVOLTIG_WAVE_COLOR_DETAIL = SARVOLTIG_WAVE_SORT_COLOR_DETAIL
};

#define SARVOLTIG_MAP_WORDS(len) (((len) / SARVOLTIG_BLOCK + 63) / 64)

#ifdef __cplusplus
}
#endif

#endif
