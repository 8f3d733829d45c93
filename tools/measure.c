/*
 * Calls each function of the library on a stack of its own that is filled with a pattern, and prints how deep it went,
 * with the arguments on the stack. Reads the export that the calls are about from standard input; the ANLZ file is
 * below.
 *
 * It has to be linked with -z now: otherwise the first call of memcpy goes through the dynamic linker, which takes more
 * stack than the library.
 */
#define _GNU_SOURCE
#include <stdio.h>
#include <string.h>
#include <ucontext.h>

#include "sarvoltig.h"

enum { LEN = 27648, BLOCKS = LEN / SARVOLTIG_SIZE_BLOCK, WORDS = SARVOLTIG_SIZE_MAP(LEN), ROOM = 1000 };
enum { N = SARVOLTIG_SIZE_RESULT, TRACKS = SARVOLTIG_TABLE_TRACKS, TITLE = SARVOLTIG_SLOT_TITLE };

/* An ANLZ file: a grid of one beat, a list of one cue, a loop, and a waveform of one entry. */
static const char tags[] = "PMAI\0\0\0\x0c\0\0\0\x95"
                           "PQTZ\0\0\0\x18\0\0\0\x20\0\0\0\0\0\x80\0\0\0\0\0\x01\0\x01\x30\xd4\0\0\0\0"
                           "PCOB\0\0\0\x18\0\0\0\x50\0\0\0\x01\0\0\0\x01\0\0\0\0"
                           "PCPT\0\0\0\x1c\0\0\0\x38\0\0\0\x01\0\0\0\x01\0\0\0\0\0\0\0\0"
                           "\x02\0\0\0\0\0\x01\xf9\0\0\x09\x99\0\0\0\0\0\0\0\0\0\0\0\0\0\0\0\0"
                           "PWV3\0\0\0\x18\0\0\0\x19\0\0\0\x01\0\0\0\x01\0\0\0\0\x1f";
static const uint8_t *const anlz = (const uint8_t *)tags;
enum { ANLZ = sizeof tags - 1 };
static uint8_t file[LEN], image[LEN], stack[1 << 16];
static uint64_t map[WORDS], result[N], blocks[BLOCKS];
static uint32_t list[ROOM];
static ucontext_t caller, callee;
static uint32_t code;
static uint8_t *frame;

/* Defines a function that makes one call of the library, right under its own frame. */
#define CALL(name, arguments)                                                                                          \
    static void call_##name(void)                                                                                      \
    {                                                                                                                  \
        frame = (uint8_t *)__builtin_frame_address(0);                                                                 \
        code = sarvoltig_##name arguments;                                                                             \
    }

CALL(version, ())
CALL(open, (LEN, image, LEN, map, WORDS, result, N))
CALL(deliver, (LEN, image, LEN, map, WORDS, 0, file, SARVOLTIG_SIZE_BLOCK, result, N))
CALL(packet, (LEN, image, LEN, map, WORDS, blocks, BLOCKS, file, LEN, list, ROOM, result, N))
CALL(holds, (LEN, map, WORDS, BLOCKS - 1))
CALL(missing, (LEN, map, WORDS, 0, result, N))
CALL(layout, (LEN, image, LEN, map, WORDS, result, N))
CALL(bounds, (LEN, image, LEN, map, WORDS, TRACKS, result, N))
CALL(rows, (LEN, image, LEN, map, WORDS, TRACKS, list, ROOM, result, N))
CALL(record, (LEN, image, LEN, map, WORDS, TRACKS, 20, result, N))
CALL(text, (LEN, image, LEN, map, WORDS, TRACKS, 20, TITLE, result, N))
CALL(record_in, (LEN, image, LEN, map, WORDS, TRACKS, list, ROOM, 20, result, N))
CALL(text_in, (LEN, image, LEN, map, WORDS, TRACKS, list, ROOM, 20, TITLE, result, N))
CALL(beats, (anlz, ANLZ, result, N))
CALL(beat, (anlz, ANLZ, 0, result, N))
CALL(cue, (anlz, ANLZ, 0, result, N))
CALL(wave, (anlz, ANLZ, SARVOLTIG_WAVE_SORT_DETAIL, 0, result, N))

/* The calls in an order in which each is answered, with what they return. After the packet no block is missing. */
static const struct {
    const char *name;
    void (*call)(void);
    uint32_t code;
} calls[] = {
    {"sarvoltig_version", call_version, SARVOLTIG_VERSION},
    {"sarvoltig_open", call_open, SARVOLTIG_CODE_DONE},
    {"sarvoltig_deliver", call_deliver, SARVOLTIG_CODE_DONE},
    {"sarvoltig_packet", call_packet, SARVOLTIG_CODE_DONE},
    {"sarvoltig_holds", call_holds, 1},
    {"sarvoltig_missing", call_missing, SARVOLTIG_CODE_NONE},
    {"sarvoltig_layout", call_layout, SARVOLTIG_CODE_DONE},
    {"sarvoltig_bounds", call_bounds, SARVOLTIG_CODE_DONE},
    {"sarvoltig_rows", call_rows, SARVOLTIG_CODE_DONE},
    {"sarvoltig_record", call_record, SARVOLTIG_CODE_DONE},
    {"sarvoltig_text", call_text, SARVOLTIG_CODE_DONE},
    {"sarvoltig_record_in", call_record_in, SARVOLTIG_CODE_DONE},
    {"sarvoltig_text_in", call_text_in, SARVOLTIG_CODE_DONE},
    {"sarvoltig_beats", call_beats, SARVOLTIG_CODE_DONE},
    {"sarvoltig_beat", call_beat, SARVOLTIG_CODE_DONE},
    {"sarvoltig_cue", call_cue, SARVOLTIG_CODE_DONE},
    {"sarvoltig_wave", call_wave, SARVOLTIG_CODE_DONE},
};

int main(void)
{
    size_t untouched;
    size_t i;

    if (fread(file, 1, LEN, stdin) != LEN) {
        return 1;
    }
    for (i = 0; i < BLOCKS; i++) {
        blocks[i] = i;
    }
    for (i = 0; i < sizeof calls / sizeof calls[0]; i++) {
        memset(stack, 0xa5, sizeof stack);
        getcontext(&callee);
        callee.uc_stack.ss_sp = stack;
        callee.uc_stack.ss_size = sizeof stack;
        callee.uc_link = &caller;
        makecontext(&callee, calls[i].call, 0);
        swapcontext(&caller, &callee);
        if (code != calls[i].code) {
            fprintf(stderr, "measure: %s: code %u\n", calls[i].name, (unsigned)code);
            return 1;
        }
        for (untouched = 0; stack[untouched] == 0xa5; untouched++) {
        }
        printf("%s %ld\n", calls[i].name, (long)(frame - (stack + untouched)));
    }
    return 0;
}
