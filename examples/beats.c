/*
 * Prints the beats and the cues of a rekordbox ANLZ file, one to a line: of a beat its time in milliseconds, its
 * position in the bar and its beats per minute; of a cue its time, that of its end where it is a loop, and its number
 * or "memory".
 *
 *     beats < ANLZ0000.DAT
 *
 * The file is read whole. Beats or cues that the library refuses are told in a message, and the status is 1.
 */
#include <inttypes.h>
#include <stdint.h>
#include <stdio.h>

#include "sarvoltig.h"

enum { ROOM = 1 << 20, N = SARVOLTIG_SIZE_RESULT };

static uint8_t file[ROOM]; /* a longer file is cut, and so refused */
static uint64_t result[N];

/* The code of the first call that is refused, SARVOLTIG_CODE_DONE where none is. */
static uint32_t print_beats(size_t len)
{
    uint32_t code = sarvoltig_beats(file, len, result, N);
    uint64_t beats = result[SARVOLTIG_AT_BEATS_COUNT];

    for (uint64_t k = 0; code == SARVOLTIG_CODE_DONE && k < beats; k++) {
        code = sarvoltig_beat(file, len, k, result, N);
        if (code == SARVOLTIG_CODE_DONE) {
            printf("%7" PRIu64 "  %" PRIu64 "  %.2f\n", result[SARVOLTIG_AT_BEAT_TIME],
                   result[SARVOLTIG_AT_BEAT_BAR_POSITION], (double)result[SARVOLTIG_AT_BEAT_TEMPO] / 100);
        }
    }
    return code;
}

static void print_cue(void)
{
    printf("%7" PRIu64, result[SARVOLTIG_AT_CUE_TIME]);
    if (result[SARVOLTIG_AT_CUE_KIND] == SARVOLTIG_CUE_KIND_LOOP) {
        printf(" to %" PRIu64, result[SARVOLTIG_AT_CUE_LOOP_TIME]);
    }
    if (result[SARVOLTIG_AT_CUE_LIST_TYPE] == SARVOLTIG_CUE_LIST_TYPE_HOT) {
        printf("  hot cue %" PRIu64 "\n", result[SARVOLTIG_AT_CUE_HOT_CUE]);
    } else {
        printf("  memory\n");
    }
}

/* The cues have no count: the first absent one, 18, ends them. */
static uint32_t print_cues(size_t len)
{
    uint32_t code;

    for (uint64_t k = 0; (code = sarvoltig_cue(file, len, k, result, N)) == SARVOLTIG_CODE_DONE; k++) {
        print_cue();
    }
    return code == SARVOLTIG_REFUSED_NO_ROW ? SARVOLTIG_CODE_DONE : code;
}

/* Whether a refusal ended what was printed, which is then told. */
static int refused(const char *what, uint32_t code)
{
    if (code != SARVOLTIG_CODE_DONE) {
        fprintf(stderr, "%s: refused %" PRIu32 "\n", what, code);
    }
    return code != SARVOLTIG_CODE_DONE;
}

int main(void)
{
    size_t len = fread(file, 1, ROOM, stdin);
    int no_beats = refused("beats", print_beats(len));
    int no_cues = refused("cues", print_cues(len));

    return no_beats || no_cues;
}
