/* A small ANLZ file with beats. */
#include "check.h"

/* An ANLZ file and the places of its sections: one of unknown code, the grid, and one behind it; its beats. */
enum { ANLZ_LEN = 0x70, UNKNOWN = 0x1c, GRID = 0x28, BEATS = 0x40, BEHIND = 0x58 };

static uint8_t anlz[ANLZ_LEN];

static void put_envelope(size_t at, const char *code, uint8_t len_header, uint8_t len)
{
    memcpy(&anlz[at], code, 4);
    anlz[at + 0x07] = len_header;
    anlz[at + 0x0b] = len;
}

static void make_anlz(void)
{
    static const uint8_t beats[] = {
        0, 4, 0x30, 0xd4, 0,    0,    0,    25,   /* bar position 4, 125.00, 25 ms */
        0, 1, 0x30, 0xd4, 0,    0,    0x01, 0xf9, /* bar position 1, 125.00, 505 ms */
        0, 2, 0xff, 0xfe, 0xff, 0xff, 0xff, 0xfd  /* bar position 2, 655.34, 2^32 - 3 ms */
    };

    memset(anlz, 0, sizeof anlz);
    put_envelope(0, "PMAI", UNKNOWN, ANLZ_LEN);
    put_envelope(UNKNOWN, "\x1bqtz", 12, 12);
    put_envelope(GRID, "PQTZ", 24, BEHIND - GRID);
    anlz[GRID + 0x17] = 3;
    memcpy(&anlz[BEATS], beats, sizeof beats);
    put_envelope(BEHIND, "PCOB", 12, ANLZ_LEN - BEHIND);
}

static uint32_t beats(size_t length)
{
    return sarvoltig_beats(anlz, length, clear(), N);
}

static uint32_t beat(size_t length, uint64_t k)
{
    return sarvoltig_beat(anlz, length, k, clear(), N);
}

static void run_beats(void)
{
    uint8_t before[ANLZ_LEN];

    make_anlz();
    memcpy(before, anlz, ANLZ_LEN);
    answers("number of beats", beats(ANLZ_LEN), SARVOLTIG_CODE_DONE, 1, 3, 0, 0);
    answers("beat 0", beat(ANLZ_LEN, 0), SARVOLTIG_CODE_DONE, 3, 4, 12500, 25);
    answers("beat 1", beat(ANLZ_LEN, 1), SARVOLTIG_CODE_DONE, 3, 1, 12500, 505);
    answers("beat 2", beat(ANLZ_LEN, 2), SARVOLTIG_CODE_DONE, 3, 2, 65534, UINT32_MAX - 2);
    expect(result[SARVOLTIG_AT_BEAT_BAR_POSITION] == 2 && result[SARVOLTIG_AT_BEAT_TEMPO] == 65534 &&
               result[SARVOLTIG_AT_BEAT_TIME] == UINT32_MAX - 2,
           "the places of a beat's numbers");
    refused("beat 3", beat(ANLZ_LEN, 3), SARVOLTIG_REFUSED_NO_ROW, 0, 0);
    refused("beat 2^32", beat(ANLZ_LEN, (uint64_t)1 << 32), SARVOLTIG_REFUSED_NO_ROW, 0, 0);
    refused("beat 2^61", beat(ANLZ_LEN, (uint64_t)1 << 61), SARVOLTIG_REFUSED_NO_ROW, 0, 0);
    refused("beat 2^64 - 1", beat(ANLZ_LEN, UINT64_MAX), SARVOLTIG_REFUSED_NO_ROW, 0, 0);
    answers("number of beats with no result", sarvoltig_beats(anlz, ANLZ_LEN, clear(), 0), SARVOLTIG_CODE_DONE, 0, 0, 0,
            0);
    answers("number of beats with a result of one", sarvoltig_beats(anlz, ANLZ_LEN, clear(), 1), SARVOLTIG_CODE_DONE, 1,
            3, 0, 0);
    answers("beat with no result", sarvoltig_beat(anlz, ANLZ_LEN, 1, clear(), 0), SARVOLTIG_CODE_DONE, 0, 0, 0, 0);
    answers("beat with a result of one", sarvoltig_beat(anlz, ANLZ_LEN, 1, clear(), 1), SARVOLTIG_CODE_DONE, 1, 1, 0,
            0);
    answers("beat with a result of two", sarvoltig_beat(anlz, ANLZ_LEN, 1, clear(), 2), SARVOLTIG_CODE_DONE, 2, 1,
            12500, 0);
    answers("beat 3 with no result", sarvoltig_beat(anlz, ANLZ_LEN, 3, clear(), 0), SARVOLTIG_REFUSED_NO_ROW, 0, 0, 0,
            0);
    answers("beat 3 with a result of one", sarvoltig_beat(anlz, ANLZ_LEN, 3, clear(), 1), SARVOLTIG_REFUSED_NO_ROW, 1,
            0, 0, 0);
    expect(memcmp(anlz, before, ANLZ_LEN) == 0, "a question leaves the ANLZ file");
}

/* Files with a grid of no beats, and with none. */
static void run_short_anlz(void)
{
    make_anlz();
    put_envelope(0, "PMAI", UNKNOWN, BEATS);
    put_envelope(GRID, "PQTZ", 12, BEATS - GRID);
    anlz[GRID + 0x17] = 0;
    answers("number of beats of an empty grid", beats(BEATS), SARVOLTIG_CODE_DONE, 1, 0, 0, 0);
    refused("beat 0 of an empty grid", beat(BEATS, 0), SARVOLTIG_REFUSED_NO_ROW, 0, 0);
    put_envelope(0, "PMAI", UNKNOWN, GRID + 12);
    put_envelope(GRID, "PQTZ", 12, 12);
    refused("number of beats of a grid that is an envelope", beats(GRID + 12), SARVOLTIG_REFUSED_GRID_LENGTH, 0, 0);
    put_envelope(0, "PMAI", 12, 12);
    refused("number of beats of a header alone", beats(12), SARVOLTIG_REFUSED_NO_GRID, 0, 0);
    refused("beat 0 of a header alone", beat(12, 0), SARVOLTIG_REFUSED_NO_GRID, 0, 0);
    refused("number of beats of no file", beats(0), SARVOLTIG_REFUSED_ANLZ_HEADER, 0, 0);
    refused("beat 0 of no file", beat(0, 0), SARVOLTIG_REFUSED_ANLZ_HEADER, 0, 0);
}

/* One byte of the ANLZ file that is written over, and the refusal of what is left. In the order of the refusals. */
static const struct {
    const char *what;
    size_t at;
    uint8_t byte;
    uint32_t refusal;
} damages[] = {
    {"another file code", 0x03, 'i', SARVOLTIG_REFUSED_ANLZ_HEADER},
    {"a file header of 11 bytes", 0x07, 11, SARVOLTIG_REFUSED_ANLZ_HEADER},
    {"a file header past the file", 0x07, ANLZ_LEN + 1, SARVOLTIG_REFUSED_ANLZ_HEADER},
    {"len_file too great", 0x0b, ANLZ_LEN + 1, SARVOLTIG_REFUSED_ANLZ_HEADER},
    {"len_file too small", 0x0b, ANLZ_LEN - 1, SARVOLTIG_REFUSED_ANLZ_HEADER},
    {"a section's header of 11 bytes", UNKNOWN + 0x07, 11, SARVOLTIG_REFUSED_SECTION},
    {"a section's header longer than its tag", UNKNOWN + 0x07, 13, SARVOLTIG_REFUSED_SECTION},
    {"a section one byte past the file", BEHIND + 0x0b, ANLZ_LEN - BEHIND + 1, SARVOLTIG_REFUSED_SECTION},
    {"a section 2^31 bytes past the file", BEHIND + 0x08, 0x80, SARVOLTIG_REFUSED_SECTION},
    {"one byte left over", BEHIND + 0x0b, ANLZ_LEN - BEHIND - 1, SARVOLTIG_REFUSED_SECTION},
    {"eleven bytes left over", BEHIND + 0x0b, ANLZ_LEN - BEHIND - 11, SARVOLTIG_REFUSED_SECTION},
    {"another code for the grid", GRID + 0x03, 'z', SARVOLTIG_REFUSED_NO_GRID},
    {"a beat more", GRID + 0x17, 4, SARVOLTIG_REFUSED_GRID_LENGTH},
    {"a beat less", GRID + 0x17, 2, SARVOLTIG_REFUSED_GRID_LENGTH},
    {"2^29 beats more", GRID + 0x14, 0x20, SARVOLTIG_REFUSED_GRID_LENGTH},
    {"bar position 0", BEATS + 0x01, 0, SARVOLTIG_REFUSED_BAR_POSITION},
    {"bar position 5 of the last beat", BEATS + 0x11, 5, SARVOLTIG_REFUSED_BAR_POSITION},
    {"bar position 257", BEATS + 0x08, 1, SARVOLTIG_REFUSED_BAR_POSITION},
};

static void run_damage(size_t i)
{
    anlz[damages[i].at] = damages[i].byte;
    refused(damages[i].what, beats(ANLZ_LEN), damages[i].refusal, 0, 0);
    refused(damages[i].what, beat(ANLZ_LEN, 1), damages[i].refusal, 0, 0);
    refused(damages[i].what, beat(ANLZ_LEN, UINT64_MAX), damages[i].refusal, 0, 0);
    answers(damages[i].what, sarvoltig_beats(anlz, ANLZ_LEN, clear(), 0), damages[i].refusal, 0, 0, 0, 0);
}

/* Each damage alone; then one after the other from the last on, where the first refusal that applies is answered. */
static void run_damages(void)
{
    size_t i;

    for (i = 0; i < sizeof damages / sizeof damages[0]; i++) {
        make_anlz();
        run_damage(i);
    }
    make_anlz();
    while (i-- > 0) {
        run_damage(i);
    }
    make_anlz();
    for (i = 0; i < ANLZ_LEN; i++) {
        refused("a cut file", beats(i), SARVOLTIG_REFUSED_ANLZ_HEADER, 0, 0);
        refused("a beat of a cut file", beat(i, 0), SARVOLTIG_REFUSED_ANLZ_HEADER, 0, 0);
    }
}

void check_beats(void)
{
    run_beats();
    run_short_anlz();
    run_damages();
}
