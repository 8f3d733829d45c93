/*
 * Prints the playlists of a rekordbox export as a tree, with the titles of their tracks and, in brackets, their
 * recording codes where they have one.
 *
 *     playlists EXPORT
 *
 * The file's blocks are delivered in packets of up to 64, in a shuffled order, as they may come over a network. Each
 * table is walked for the list of its rows, and then every row is read from that list. What the library refuses ends
 * the program with a message and status 1.
 */
#include <errno.h>
#include <inttypes.h>
#include <stdarg.h>
#include <stdint.h>
#include <stdio.h>
#include <stdlib.h>
#include <string.h>

#include "sarvoltig_intake.h"
#include "sarvoltig_text.h"

enum { DEEPEST = 64, PACKET = 64, LONGEST_TEXT = 32768 }; /* a text is inside a page */

/* A row of the playlist tree, with its index in the list, and its page and index entry in the file. */
typedef struct {
    size_t i;
    uint64_t page;
    uint64_t index_entry;
    uint64_t parent;
    uint64_t order;
    uint64_t id;
    int is_folder;
    int is_printed;
} Node;

typedef struct {
    uint64_t playlist;
    uint64_t index;
    uint64_t track;
} Entry;

/* A track, with its index in the list. */
typedef struct {
    size_t i;
    uint64_t id;
} Track;

/* The lists of three tables, and what is kept of each of their rows. */
typedef struct {
    struct sarvoltig_list node_rows;
    Node *nodes;
    struct sarvoltig_list entry_rows;
    Entry *entries;
    struct sarvoltig_list track_rows;
    Track *tracks;
} Library;

static struct sarvoltig_intake intake;
static const uint64_t *const result = intake.result;

/* What is wrong, by the refusal's number. Those about ANLZ files are not met here. */
static const char *const reasons[] = {
    [SARVOLTIG_REFUSED_LENGTH] = "the file's length is not a multiple of 512 from 512 to 268435456",
    [SARVOLTIG_REFUSED_IMAGE_SHORT] = "the image is shorter than the file",
    [SARVOLTIG_REFUSED_MAP_SHORT] = "the map is too short",
    [SARVOLTIG_REFUSED_MAP_SPARE] = "the map has a bit behind the last block",
    [SARVOLTIG_REFUSED_BLOCK_NUMBER] = "there is no such block",
    [SARVOLTIG_REFUSED_PIECE_SIZE] = "there are not 512 bytes for each block",
    [SARVOLTIG_REFUSED_BLOCK_DIFFERS] = "the block is held with other bytes",
    [SARVOLTIG_REFUSED_TABLE_TYPE] = "there is no such table type",
    [SARVOLTIG_REFUSED_FILE_HEADER] = "the file header is broken",
    [SARVOLTIG_REFUSED_NO_POINTER] = "the file has no such table",
    [SARVOLTIG_REFUSED_PAGE_LINK] = "a link names no page; it stands on page",
    [SARVOLTIG_REFUSED_PAGE_NUMBER] = "another page's number stands on page",
    [SARVOLTIG_REFUSED_ROW_INDEX] = "the row index does not fit or has not as many rows as counted, of page",
    [SARVOLTIG_REFUSED_ROW_SHORT] = "a row does not fit, on page",
    [SARVOLTIG_REFUSED_TEXT_FAULT] = "a string is malformed or outside, on page",
    [SARVOLTIG_REFUSED_CHAIN_LOOP] = "the table's pages come back to one before the last",
    [SARVOLTIG_REFUSED_LIST_SHORT] = "the list is too short for the rows or blocks, which are",
    [SARVOLTIG_REFUSED_NO_ROW] = "there is no such record",
    [SARVOLTIG_REFUSED_NO_SLOT] = "there is no such string slot",
    [SARVOLTIG_REFUSED_PAGE_TYPE] = "another table's type stands on page",
};

static void fail(const char *format, ...)
{
    va_list args;

    fflush(stdout);
    fputs("playlists: ", stderr);
    va_start(args, format);
    vfprintf(stderr, format, args);
    va_end(args);
    fputc('\n', stderr);
    exit(EXIT_FAILURE);
}

/* Ends the program over an answer that is no answer to what was asked. */
static void refuse(const char *asked, uint32_t code)
{
    if (code == SARVOLTIG_CODE_WAITING) {
        fail("%s: page %" PRIu64 " is not there", asked, result[SARVOLTIG_AT_WAITING_PAGE]);
    }
    if (code >= sizeof reasons / sizeof reasons[0] || reasons[code] == NULL) {
        fail("%s: refused %" PRIu32, asked, code);
    }
    switch (code) {
    case SARVOLTIG_REFUSED_ROW_SHORT:
    case SARVOLTIG_REFUSED_TEXT_FAULT:
        fail("%s: refused %" PRIu32 ", %s %" PRIu64 ", index entry %" PRIu64, asked, code, reasons[code],
             result[SARVOLTIG_AT_REFUSAL_VALUE], result[SARVOLTIG_AT_REFUSAL_ENTRY]);
        break;
    case SARVOLTIG_REFUSED_PAGE_LINK:
    case SARVOLTIG_REFUSED_PAGE_NUMBER:
    case SARVOLTIG_REFUSED_PAGE_TYPE:
    case SARVOLTIG_REFUSED_ROW_INDEX:
    case SARVOLTIG_REFUSED_LIST_SHORT:
        fail("%s: refused %" PRIu32 ", %s %" PRIu64, asked, code, reasons[code], result[SARVOLTIG_AT_REFUSAL_VALUE]);
        break;
    default:
        fail("%s: refused %" PRIu32 ", %s", asked, code, reasons[code]);
    }
}

/* Ends the program unless a call was answered. */
static void expect_done(const char *asked, uint32_t code)
{
    if (code != SARVOLTIG_CODE_DONE) {
        refuse(asked, code);
    }
}

/* The same for a question about a table. */
static void expect_rows(const struct sarvoltig_list *rows, uint32_t code)
{
    expect_done(rows->table == SARVOLTIG_TABLE_TRACKS          ? "tracks"
                : rows->table == SARVOLTIG_TABLE_PLAYLIST_TREE ? "playlist tree"
                                                               : "playlist entries",
                code);
}

/* Memory for so many elements, at least one, so that it is not NULL. */
static void *reserve(size_t count, size_t size)
{
    void *memory = calloc(count > 0 ? count : 1, size);

    if (memory == NULL) {
        fail("no memory");
    }
    return memory;
}

/* The length of a file, read to its end or past the longest that an export may have. */
static uint64_t length_of(FILE *file, const char *path)
{
    uint8_t piece[SARVOLTIG_SIZE_BLOCK];
    uint64_t len = 0;
    size_t got;

    do {
        got = fread(piece, 1, sizeof piece, file);
        len += got;
    } while (got == sizeof piece && len <= SARVOLTIG_SIZE_FILE_MAX);
    if (ferror(file)) {
        fail("%s: %s", path, strerror(errno));
    }
    return len;
}

/* The numbers from 0 to count - 1 in a shuffled order, the same in each run. */
static uint64_t *shuffled(size_t count)
{
    uint64_t *order = (uint64_t *)reserve(count, sizeof *order);
    uint64_t state = 88172645463325252u;
    size_t i;

    for (i = 0; i < count; i++) {
        order[i] = i;
    }
    for (i = count; i > 1; i--) {
        size_t other;
        uint64_t last = order[i - 1];

        state ^= state << 13;
        state ^= state >> 7;
        state ^= state << 17;
        other = (size_t)(state % i);
        order[i - 1] = order[other];
        order[other] = last;
    }
    return order;
}

/* Fetches so many blocks and delivers them as a packet. It may be refused whole, and each of its blocks may be. */
static void take_packet(FILE *file, const char *path, const uint64_t *blocks, size_t count)
{
    static uint8_t pieces[PACKET * SARVOLTIG_SIZE_BLOCK];
    static uint32_t codes[PACKET];
    const struct sarvoltig_blocks packet = {blocks, count, pieces, count * SARVOLTIG_SIZE_BLOCK, codes, PACKET};
    size_t i;

    for (i = 0; i < count; i++) {
        if (fseek(file, (long)blocks[i] * SARVOLTIG_SIZE_BLOCK, SEEK_SET) != 0 ||
            fread(pieces + i * SARVOLTIG_SIZE_BLOCK, SARVOLTIG_SIZE_BLOCK, 1, file) != 1) {
            fail("%s: block %" PRIu64 " cannot be read", path, blocks[i]);
        }
    }
    expect_done(path, sarvoltig_intake_packet(&intake, &packet));
    for (i = 0; i < count; i++) {
        if (codes[i] != SARVOLTIG_CODE_DONE && codes[i] != SARVOLTIG_CODE_SAME) {
            refuse(path, codes[i]);
        }
    }
}

/* Takes in a file: opens the intake for its length, and delivers its blocks. */
static void take_in(FILE *file, const char *path)
{
    uint64_t len = length_of(file, path);
    uint64_t *order;
    size_t blocks;
    size_t i;

    intake.image_len = (size_t)len;
    intake.image = (uint8_t *)reserve(intake.image_len, 1);
    intake.map_len = SARVOLTIG_SIZE_MAP(len);
    intake.map = (uint64_t *)reserve(intake.map_len, sizeof *intake.map);
    expect_done(path, sarvoltig_intake_open(&intake, len));
    blocks = (size_t)result[SARVOLTIG_AT_OPEN_BLOCKS];
    order = shuffled(blocks);
    for (i = 0; i < blocks; i += PACKET) {
        take_packet(file, path, order + i, blocks - i < PACKET ? blocks - i : PACKET);
    }
    free(order);
}

/* The rows of a table. A list of no length is refused with the length that it needs, unless there are no rows. */
static struct sarvoltig_list read_rows(uint32_t table)
{
    uint32_t none[1];
    struct sarvoltig_list rows = {table, none, 0, 0};
    uint32_t code = sarvoltig_intake_rows(&intake, &rows);

    rows.place_len = code == SARVOLTIG_REFUSED_LIST_SHORT ? (size_t)result[SARVOLTIG_AT_REFUSAL_VALUE] : 0;
    rows.place = (uint32_t *)reserve(rows.place_len, sizeof *rows.place);
    expect_rows(&rows, sarvoltig_intake_rows(&intake, &rows));
    return rows;
}

static int compare(uint64_t a, uint64_t b)
{
    return (a > b) - (a < b);
}

static int compare_nodes(const void *a, const void *b)
{
    const Node *x = (const Node *)a;
    const Node *y = (const Node *)b;

    if (x->parent != y->parent) {
        return compare(x->parent, y->parent);
    }
    if (x->order != y->order) {
        return compare(x->order, y->order);
    }
    return compare(x->id, y->id);
}

static int compare_entries(const void *a, const void *b)
{
    const Entry *x = (const Entry *)a;
    const Entry *y = (const Entry *)b;

    if (x->playlist != y->playlist) {
        return compare(x->playlist, y->playlist);
    }
    return compare(x->index, y->index);
}

static int compare_tracks(const void *a, const void *b)
{
    return compare(((const Track *)a)->id, ((const Track *)b)->id);
}

/* The rows of the playlist tree, by parent. */
static void read_nodes(Library *library)
{
    const struct sarvoltig_list rows = read_rows(SARVOLTIG_TABLE_PLAYLIST_TREE);
    size_t i;

    library->node_rows = rows;
    library->nodes = (Node *)reserve(rows.count, sizeof *library->nodes);
    for (i = 0; i < rows.count; i++) {
        Node *node = &library->nodes[i];

        expect_rows(&rows, sarvoltig_intake_record_in(&intake, &rows, i));
        node->i = i;
        node->page = result[SARVOLTIG_AT_ROW_PAGE];
        node->index_entry = result[SARVOLTIG_AT_ROW_ENTRY];
        node->parent = result[SARVOLTIG_AT_PLAYLIST_NODE_PARENT_ID];
        node->order = result[SARVOLTIG_AT_PLAYLIST_NODE_SORT_ORDER];
        node->id = result[SARVOLTIG_AT_PLAYLIST_NODE_ID];
        node->is_folder = result[SARVOLTIG_AT_PLAYLIST_NODE_RAW_IS_FOLDER] != 0;
    }
    qsort(library->nodes, rows.count, sizeof *library->nodes, compare_nodes);
}

/* The entries of all playlists, by playlist. */
static void read_entries(Library *library)
{
    const struct sarvoltig_list rows = read_rows(SARVOLTIG_TABLE_PLAYLIST_ENTRIES);
    size_t i;

    library->entry_rows = rows;
    library->entries = (Entry *)reserve(rows.count, sizeof *library->entries);
    for (i = 0; i < rows.count; i++) {
        expect_rows(&rows, sarvoltig_intake_record_in(&intake, &rows, i));
        library->entries[i].playlist = result[SARVOLTIG_AT_PLAYLIST_ENTRY_PLAYLIST_ID];
        library->entries[i].index = result[SARVOLTIG_AT_PLAYLIST_ENTRY_INDEX];
        library->entries[i].track = result[SARVOLTIG_AT_PLAYLIST_ENTRY_TRACK_ID];
    }
    qsort(library->entries, rows.count, sizeof *library->entries, compare_entries);
}

/* The tracks, by id. */
static void read_tracks(Library *library)
{
    const struct sarvoltig_list rows = read_rows(SARVOLTIG_TABLE_TRACKS);
    size_t i;

    library->track_rows = rows;
    library->tracks = (Track *)reserve(rows.count, sizeof *library->tracks);
    for (i = 0; i < rows.count; i++) {
        expect_rows(&rows, sarvoltig_intake_record_in(&intake, &rows, i));
        library->tracks[i].i = i;
        library->tracks[i].id = result[SARVOLTIG_AT_TRACK_ID];
    }
    qsort(library->tracks, rows.count, sizeof *library->tracks, compare_tracks);
}

/*
 * Prints a string of row i. Characters that would control a terminal, below U+0020 and from U+007F to U+009F, become
 * U+FFFD.
 */
static void print_text(const struct sarvoltig_list *rows, size_t i, uint64_t slot)
{
    static char text[SARVOLTIG_SIZE_UTF8(LONGEST_TEXT)];
    size_t length;
    size_t at;

    expect_rows(rows, sarvoltig_intake_text_in(&intake, rows, i, slot));
    length = sarvoltig_utf8(intake.image + result[SARVOLTIG_AT_TEXT_PLACE], (size_t)result[SARVOLTIG_AT_TEXT_LENGTH],
                            result[SARVOLTIG_AT_TEXT_ENCODING], text, sizeof text);
    for (at = 0; at < length; at++) {
        unsigned char c = (unsigned char)text[at];
        size_t more = c == 0xc2 && (unsigned char)text[at + 1] < 0xa0;

        if (c < 0x20 || c == 0x7f || more > 0) {
            fputs("\xef\xbf\xbd", stdout);
            at += more;
        } else {
            putchar(c);
        }
    }
}

/* Prints the title of track i, and its recording code where it has one. */
static void print_track(const struct sarvoltig_list *rows, size_t i)
{
    print_text(rows, i, SARVOLTIG_SLOT_TITLE);
    expect_rows(rows, sarvoltig_intake_text_in(&intake, rows, i, SARVOLTIG_SLOT_ISRC));
    if (result[SARVOLTIG_AT_TEXT_LENGTH] > 0 && result[SARVOLTIG_AT_TEXT_ENCODING] == SARVOLTIG_ENCODING_ASCII) {
        fputs(" [", stdout);
        print_text(rows, i, SARVOLTIG_SLOT_ISRC);
        putchar(']');
    }
}

/* Prints a playlist's tracks, by their entries' indexes. */
static void print_tracks(const Library *library, uint64_t playlist, int level)
{
    size_t i;

    for (i = 0; i < library->entry_rows.count; i++) {
        const Entry *entry = &library->entries[i];
        const Track wanted = {0, entry->track};
        const Track *track;

        if (entry->playlist != playlist) {
            continue;
        }
        track = bsearch(&wanted, library->tracks, library->track_rows.count, sizeof wanted, compare_tracks);
        printf("%*s%" PRIu64 ". ", 2 * level, "", entry->index);
        if (track == NULL) {
            printf("(no track %" PRIu64 ")", entry->track);
        } else {
            print_track(&library->track_rows, track->i);
        }
        putchar('\n');
    }
}

/* Prints what stands under a parent, each row once: a folder with its own children, a playlist with its tracks. */
static void print_children(Library *library, uint64_t parent, int level)
{
    size_t i;

    if (level > DEEPEST) {
        fail("playlist tree: folders are nested deeper than %d", DEEPEST);
    }
    for (i = 0; i < library->node_rows.count; i++) {
        Node *node = &library->nodes[i];

        if (node->parent != parent || node->is_printed) {
            continue;
        }
        node->is_printed = 1;
        printf("%*s", 2 * level, "");
        print_text(&library->node_rows, node->i, SARVOLTIG_SLOT_NAME);
        puts(node->is_folder ? "/" : "");
        if (node->is_folder) {
            print_children(library, node->id, level + 1);
        } else {
            print_tracks(library, node->id, level + 1);
        }
    }
}

static void free_all(Library *library)
{
    free(library->tracks);
    free(library->track_rows.place);
    free(library->entries);
    free(library->entry_rows.place);
    free(library->nodes);
    free(library->node_rows.place);
    free(intake.map);
    free(intake.image);
}

int main(int argc, char **argv)
{
    Library library;
    FILE *file;
    size_t i;

    if (argc != 2) {
        fputs("usage: playlists EXPORT\n", stderr);
        return 2;
    }
    file = fopen(argv[1], "rb");
    if (file == NULL) {
        fail("%s: %s", argv[1], strerror(errno));
    }
    take_in(file, argv[1]);
    fclose(file);
    read_nodes(&library);
    read_entries(&library);
    read_tracks(&library);
    print_children(&library, 0, 0);
    for (i = 0; i < library.node_rows.count; i++) {
        const Node *node = &library.nodes[i];

        if (!node->is_printed) {
            fail("playlist tree: the row of index entry %" PRIu64 " on page %" PRIu64 " has no way to the root",
                 node->index_entry, node->page);
        }
    }
    if (fflush(stdout) != 0) {
        fail("standard output: %s", strerror(errno));
    }
    free_all(&library);
    return 0;
}
