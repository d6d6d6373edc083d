/* job WAY: runs the job on standard input through the archive and prints its listing, as run_job does. WAY is 'calls': the bench's calls
 * and the flits of their messages, the listing printed here; or 'lines': the archive writes each call's lines. */
#include <inttypes.h>
#include <stdio.h>
#include <string.h>

#include "duzhmarqi.h"

static uint8_t job[DUZH_MOST_JOB_BYTES + 1];
static uint64_t words[DUZH_WORDS(DUZH_MOST_TILES)];
static uint8_t text[DUZH_CALL_TEXT];

static uint64_t number_at(size_t at, size_t bytes)
{
    uint64_t v = 0;
    for (size_t i = 0; i < bytes; i++)
        v = v << 8 | job[at + i];
    return v;
}

static uint64_t make_call(size_t n, size_t at, uint64_t *out, size_t m)
{
    const uint8_t *v = job + at + 3;
    switch (job[at]) {
    case DUZH_TAG_LOAD: return duzh_load(words, n, v[0], v[1], out, m);
    case DUZH_TAG_STORE: return duzh_store(words, n, v[0], v[1], number_at(at + 5, 8), out, m);
    case DUZH_TAG_EVICT: return duzh_evict(words, n, v[0], out, m);
    case DUZH_TAG_TAKING: return duzh_taking(words, n, out, m);
    case DUZH_TAG_TO_TILE: return duzh_to_tile(words, n, v[0], out, m);
    case DUZH_TAG_FROM_TILE: return duzh_from_tile(words, n, v[0], out, m);
    case DUZH_TAG_MEMORY_STEP: return duzh_memory_step(words, n, out, m);
    case DUZH_TAG_MEMORY_ACK: return duzh_memory_ack(words, n, out, m);
    default: return duzh_home_eviction(words, n, out, m);
    }
}

/* Makes the call at a place, prints its lines, and answers the next call's place; 0 where the archive contradicts itself. */
static size_t by_calls(size_t n, size_t at, uint64_t number, uint64_t line)
{
    uint64_t a[DUZH_ANSWER_WORDS], flits[DUZH_MOST_FLITS], wrote[2];
    uint64_t refusal = make_call(n, at, a, DUZH_ANSWER_WORDS);
    if (refusal != a[DUZH_ANSWER_REFUSAL])
        return 0;
    printf("%" PRIu64 " %" PRIu64 " %" PRIu64 " %" PRIu64 "\n", number, refusal, a[DUZH_ANSWER_KIND], a[DUZH_ANSWER_VALUE]);
    uint64_t sent = a[DUZH_ANSWER_SENT], tiles = a[DUZH_ANSWER_TILES], count = duzh_message_count(sent, tiles);
    for (uint64_t i = 0; i < count; i++) {
        if (duzh_message_flits(words, n, sent, tiles, i, line, flits, DUZH_MOST_FLITS, 0, wrote, 2) != 0 || wrote[0] != 0)
            return 0;
        putchar('>');
        for (uint64_t k = 0; k < wrote[1]; k++)
            printf(" %016" PRIX64, flits[k]);
        putchar('\n');
    }
    return at + 3 + number_at(at + 1, 2);
}

static size_t by_lines(size_t n, size_t length, size_t at, uint64_t number, uint64_t line)
{
    uint64_t out[2];
    duzh_run_call(words, n, job, length, at, number, line, text, sizeof text, 0, out, 2);
    if (out[0] > sizeof text)
        return 0;
    fwrite(text, 1, out[0], stdout);
    return out[1];
}

int main(int argc, char **argv)
{
    int lines = argc == 2 && strcmp(argv[1], "lines") == 0;
    if (!lines && !(argc == 2 && strcmp(argv[1], "calls") == 0)) {
        fprintf(stderr, "use: job calls|lines <JOB\n");
        return 2;
    }
    size_t length = fread(job, 1, sizeof job, stdin);
    uint64_t out[DUZH_ANSWER_WORDS];
    if (duzh_check_job(job, length, out, 2) != 0) {
        printf("job refused %" PRIu64 " at %" PRIu64 "\n", out[0], out[1]);
        return 0;
    }
    uint64_t tiles = number_at(3, 1), line = number_at(7, 6), memory[8], number = 0;
    for (size_t i = 0; i < 8; i++)
        memory[i] = number_at(16 + 8 * i, 8);
    size_t n = DUZH_WORDS(tiles), at = DUZH_FIRST_CALL;
    if (duzh_start(words, n, tiles, memory, 8, out, DUZH_ANSWER_WORDS) != 0)
        return 1;
    printf("bench %" PRIu64 " %012" PRIX64 "\n", tiles, line);
    while (at < length) {
        number++;
        size_t next = lines ? by_lines(n, length, at, number, line) : by_calls(n, at, number, line);
        if (next <= at)
            return 1;
        at = next;
    }
    printf("end %" PRIu64 "\n", number);
    return 0;
}
