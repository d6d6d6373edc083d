/* What the archive refuses, and what it leaves as it is; a message written and read back. Prints the number of tests, or the first line that
 * is not so. */
#include <stdio.h>
#include <stdlib.h>
#include <string.h>

#include "duzhmarqi.h"

#define WORDS DUZH_WORDS(2)
#define BEHIND 3
#define MARK 0xABCDEF0123456789u

static unsigned tests;

#define EXPECT(holds)                                                                                                                        \
    do {                                                                                                                                     \
        tests++;                                                                                                                             \
        if (!(holds)) {                                                                                                                      \
            printf("refusals.c:%d: %s\n", __LINE__, #holds);                                                                                 \
            exit(1);                                                                                                                         \
        }                                                                                                                                    \
    } while (0)

static uint64_t w[WORDS + BEHIND], before[WORDS + BEHIND], out[8];
static const uint64_t memory[8] = {7};

static void fresh(void)
{
    for (size_t i = 0; i < WORDS + BEHIND; i++)
        w[i] = MARK;
    if (duzh_start(w, WORDS + BEHIND, 2, memory, 8, out, 8) != 0)
        exit(1);
    memcpy(before, w, sizeof w);
    for (size_t i = 0; i < 8; i++)
        out[i] = MARK;
}

static int same_words(void) { return memcmp(w, before, sizeof w) == 0; }

/* the answer of a refusal, and out as it was behind it */
static int reported(uint64_t refusal)
{
    return out[0] == refusal && out[1] == 0 && out[2] == 0 && out[3] == 0 && out[4] == 0 && out[5] == MARK && out[6] == MARK && out[7] == MARK;
}

static int untouched(void)
{
    for (size_t i = 0; i < 8; i++)
        if (out[i] != MARK)
            return 0;
    return 1;
}

static void start(void)
{
    uint64_t full[DUZH_WORDS(64)];
    EXPECT(duzh_start(full, DUZH_WORDS(64), 64, memory, 8, out, 8) == 0);
    EXPECT(duzh_well_formed(full, DUZH_WORDS(64)) == 1);
    EXPECT(duzh_start(full, DUZH_WORDS(64), 65, memory, 8, out, 8) == DUZH_NO_TILE);
    fresh();
    for (size_t i = WORDS; i < WORDS + BEHIND; i++)
        EXPECT(w[i] == MARK);
    EXPECT(duzh_well_formed(w, WORDS) == 1);
    EXPECT(duzh_well_formed(w, WORDS - 1) == 0);
    EXPECT(duzh_start(w, WORDS, 0, memory, 8, out, 8) == DUZH_NO_TILE && reported(DUZH_NO_TILE) && same_words());
    EXPECT(duzh_start(w, WORDS - 1, 2, memory, 8, out, 8) == DUZH_MALFORMED && reported(DUZH_MALFORMED) && same_words());
    EXPECT(duzh_start(w, WORDS, 1, memory, 7, out, 8) == DUZH_MALFORMED && reported(DUZH_MALFORMED) && same_words());
}

/* every call on words that are no bench, and on too few */
static void malformed(void)
{
    for (int short_words = 0; short_words < 2; short_words++) {
        fresh();
        size_t n = short_words ? WORDS - 1 : WORDS;
        if (!short_words)
            before[1] = w[1] = 9; /* no such phase */
        EXPECT(duzh_load(w, n, 0, 0, out, 8) == 1 && reported(1) && same_words());
        EXPECT(duzh_store(w, n, 0, 0, 5, out, 8) == 1 && reported(1) && same_words());
        EXPECT(duzh_evict(w, n, 0, out, 8) == 1 && reported(1) && same_words());
        EXPECT(duzh_taking(w, n, out, 8) == 1 && reported(1) && same_words());
        EXPECT(duzh_to_tile(w, n, 0, out, 8) == 1 && reported(1) && same_words());
        EXPECT(duzh_from_tile(w, n, 0, out, 8) == 1 && reported(1) && same_words());
        EXPECT(duzh_memory_step(w, n, out, 8) == 1 && reported(1) && same_words());
        EXPECT(duzh_memory_ack(w, n, out, 8) == 1 && reported(1) && same_words());
        EXPECT(duzh_home_eviction(w, n, out, 8) == 1 && reported(1) && same_words());
    }
}

static void bench(void)
{
    fresh();
    EXPECT(duzh_load(w, WORDS, 64, 8, out, 8) == DUZH_NO_TILE && reported(DUZH_NO_TILE) && same_words());
    EXPECT(duzh_load(w, WORDS, UINT64_MAX, 0, out, 8) == DUZH_NO_TILE && same_words());
    EXPECT(duzh_load(w, WORDS, 1, 8, out, 8) == DUZH_NO_WORD && reported(DUZH_NO_WORD) && same_words());
    EXPECT(duzh_evict(w, WORDS, 1, out, 8) == DUZH_NO_LINE && reported(DUZH_NO_LINE) && same_words());
    EXPECT(duzh_home_eviction(w, WORDS, out, 8) == DUZH_NO_LINE && reported(DUZH_NO_LINE) && same_words());
    EXPECT(duzh_taking(w, WORDS, out, 8) == DUZH_EMPTY && reported(DUZH_EMPTY) && same_words());
    EXPECT(duzh_message_count(DUZH_SENT_NONE, 0) == 0 && duzh_message_count(DUZH_SENT_NOC2, 5) == 2 && duzh_message_count(DUZH_SENT_NOC3_NOC1, 1) == 2);
    /* an answer without room is not written, and the call is made all the same */
    fresh();
    EXPECT(duzh_load(w, WORDS, 1, 7, out, 4) == 0 && untouched() && !same_words());
    EXPECT(duzh_load(w, WORDS, 1, 7, out, 8) == DUZH_WAITS && reported(DUZH_WAITS));
    EXPECT(duzh_taking(w, WORDS, out, 5) == 0 && out[1] == DUZH_MESSAGE_SENT && out[2] == 1 && out[3] == DUZH_SENT_TO_MEMORY && out[5] == MARK);
    EXPECT(duzh_taking(w, WORDS, out, 8) == DUZH_NOT_IDLE);
}

static void flits(void)
{
    /* 01's P10, alone and with bit 0 clear, and from a place behind another flit */
    uint64_t one[2] = {0, 0x5C041}, r[DUZH_READ_WORDS + 1];
    r[DUZH_READ_WORDS] = MARK;
    EXPECT(duzh_read(one, 2, 1, r, DUZH_READ_WORDS + 1) == 0 && r[0] == 0 && r[1] == 1 && r[2] == 1 && r[DUZH_READ_WORDS] == MARK);
    EXPECT(r[3 + DUZH_FIELD_TYPE] == 23 && r[3 + DUZH_FIELD_TAG] == 1 && r[3 + DUZH_FIELD_LAST] == 1);
    EXPECT(duzh_read(one, 2, 2, r, DUZH_READ_WORDS) == DUZH_NO_FLIT && r[1] == 0 && r[3 + DUZH_FIELD_TAG] == 0);
    EXPECT(duzh_read(one, 2, SIZE_MAX, r, DUZH_READ_WORDS) == DUZH_NO_FLIT);
    one[1]--;
    EXPECT(duzh_read(one, 2, 1, r, DUZH_READ_WORDS) == DUZH_FIELD && r[0] == DUZH_FIELD);
    /* a DATA_ACK written at a place and read back */
    uint64_t f[DUZH_FIELDS] = {0}, data[8], b[12], kept[12], wrote[2] = {MARK, MARK};
    for (uint64_t i = 0; i < 8; i++)
        data[i] = i * i;
    for (size_t i = 0; i < 12; i++)
        kept[i] = b[i] = MARK;
    f[DUZH_FIELD_TYPE] = 29;
    f[DUZH_FIELD_TAG] = 3;
    f[DUZH_FIELD_STATE] = 2;
    f[DUZH_FIELD_TO_X] = 3;
    EXPECT(duzh_write(b, 12, 4, f, DUZH_FIELDS, data, 8, wrote, 2) == DUZH_NO_ROOM && wrote[0] == DUZH_NO_ROOM && wrote[1] == 0 && memcmp(b, kept, sizeof b) == 0);
    EXPECT(duzh_write(b, 12, 2, f, DUZH_FIELDS, data, 7, wrote, 2) == DUZH_LENGTH && memcmp(b, kept, sizeof b) == 0);
    EXPECT(duzh_write(b, 12, 2, f, DUZH_FIELDS - 1, data, 8, wrote, 2) == DUZH_MALFORMED && memcmp(b, kept, sizeof b) == 0);
    EXPECT(duzh_write(b, 12, 2, f, DUZH_FIELDS, data, 8, wrote, 2) == 0 && wrote[0] == 0 && wrote[1] == 9);
    EXPECT(b[0] == MARK && b[1] == MARK && b[11] == MARK && b[2] == 0x00000C00020740E0 && memcmp(b + 3, data, sizeof data) == 0);
    EXPECT(duzh_read(b, 12, 2, r, DUZH_READ_WORDS) == 0 && r[1] == 9 && r[2] == 1 && memcmp(r + 3, f, sizeof f) == 0);
    EXPECT(duzh_read(b, 10, 2, r, DUZH_READ_WORDS) == DUZH_CUT);
    r[0] = MARK;
    EXPECT(duzh_read(b, 12, 2, r, DUZH_READ_WORDS - 1) == 0 && r[0] == MARK);
    /* no such message */
    fresh();
    EXPECT(duzh_message_flits(w, WORDS, DUZH_SENT_NOC1, 1, 1, 0, b, 12, 0, wrote, 2) == DUZH_TYPE && wrote[0] == DUZH_TYPE && wrote[1] == 0);
}

int main(void)
{
    start();
    malformed();
    bench();
    flits();
    printf("refusals: %u as they should be\n", tests);
    return 0;
}
