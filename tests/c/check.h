/* What the parts of the check share: buffers with guard elements, an export of three blocks, and calls about it. */
#ifndef CHECK_H
#define CHECK_H

#include <inttypes.h>
#include <stdint.h>
#include <stdio.h>
#include <string.h>

#include "sarvoltig.h"

/* The export has three blocks, each a page; the list takes four rows. */
enum { LEN = 1536, ROWS = 4, GUARD = 4, N = SARVOLTIG_SIZE_RESULT };

/* What buffers hold where nothing was written. */
#define FILLED 0xa5a5a5a5a5a5a5a5u

extern uint8_t image[LEN + GUARD];
extern uint64_t map[1 + GUARD];
extern uint32_t list[ROWS + GUARD];
extern uint64_t result[N + GUARD];
extern uint8_t file[LEN];

/* The parts. Each starts with filled buffers and with case D in file. */
void check_case_d(void);
void check_packets(void);
void check_rows(void);
void check_codes(void);
void check_fetching(void);
void check_intakes(void);
void check_texts(void);
void check_sizes(void);
void check_beats(void);
void check_cues(void);
void check_names(void);

/* Fills image, map and list. */
void fill(void);

/* Fills the result before a call, and returns it. */
uint64_t *clear(void);

void expect(int holds, const char *what);

/* Expects a number, named by part and i in the message. */
void equals(const char *what, const char *part, size_t i, uint64_t number, uint64_t expected);

/* The call's code and values; what stands behind the values is as before the call. */
void has_values(const char *what, uint32_t code, uint32_t expected, size_t count, const uint64_t *values);

/* The call's code and up to three values. */
void answers(const char *what, uint32_t code, uint32_t expected, size_t count, uint64_t a, uint64_t b, uint64_t c);

/* A refusal writes its value and its entry. */
void refused(const char *what, uint32_t code, uint32_t expected, uint64_t value, uint64_t entry);

/* Little-endian numbers in file. */
void put16(size_t at, uint32_t n);
void put32(size_t at, uint32_t n);

/* Writes case D (rule 9.11) to file. */
void make_file(void);

/* Opens an intake and delivers the blocks of file. */
void take_in_file(void);

/* Calls on image and map, with list where there is one, of so many elements. */
uint32_t open_intake(void);
uint32_t deliver(uint64_t block, const uint8_t *piece, size_t piece_len);
uint32_t rows(uint32_t table, size_t length);
uint32_t record(uint32_t table, uint64_t k);
uint32_t text(uint32_t table, uint64_t k, uint64_t slot);
uint32_t record_in(uint32_t table, size_t length, uint64_t i);
uint32_t text_in(uint32_t table, size_t length, uint64_t i, uint64_t slot);

#endif
