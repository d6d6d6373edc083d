/* A proved reference of a cache-coherence home, for C and C++.
 *
 * A bench (one 64-byte line, one home with its directory, one memory, 1 to 64 tiles) lies in words that the caller lends. Every function
 * is proved to do what its definition says, for every content of the lent memory and every number; docs/PROVED.md names the definitions.
 *
 * Of the caller it is asked, and nothing can check:
 * - Every pointer is not null, also where its length is 0; it is aligned for its type; and as many elements as the length says can be
 *   read there, and written where the pointer is not const.
 * - No two of the memories lent to one call overlap, unless both are const.
 * - While a call runs nobody else writes the memory lent to it, and nobody else reads what it may write. Nothing else is shared: there
 *   is no state outside of lent memory, and calls on different benches may run at the same time.
 *
 * Lengths count elements, not bytes. Unless said otherwise a function returns its refusal number, 0 if it did what was asked, and puts
 * its answer into the first words of `out`; where `out` has fewer words than the answer, none of it is written and the call does all
 * else. Words of `out` behind the answer stay as they are. A refusal changes no lent memory but `out`, and the text of duzh_run_call.
 */
#ifndef DUZHMARQI_H
#define DUZHMARQI_H

#include <stddef.h>
#include <stdint.h>

#ifdef __cplusplus
extern "C" {
#endif

/* How many words a bench of so many tiles needs. More may be lent: the rest is neither read nor written. */
#define DUZH_HOME_WORDS 74
#define DUZH_TILE_WORDS 84
#define DUZH_WORDS(tile_count) (DUZH_HOME_WORDS + DUZH_TILE_WORDS * (size_t)(tile_count))
#define DUZH_MOST_TILES 64
#define DUZH_LINE_WORDS 8 /* words of a line, and of its memory */
#define DUZH_LINE_BYTES 64 /* a line address is a multiple of it */

/* Refusals of the bench. Of several the lowest is given, but a home eviction tests 6 before 5 and a start 2 before 1. */
#define DUZH_MALFORMED 1   /* no bench in the words, or too few words; a wrong number of lent memory words or fields */
#define DUZH_NO_TILE 2     /* tile number not below the tile count; tile count not 1 to 64 */
#define DUZH_NO_WORD 3     /* word 8 or above */
#define DUZH_WAITS 4       /* load or store at a tile that waits */
#define DUZH_NO_LINE 5     /* tile in I, or the home holds no line: nothing to evict */
#define DUZH_NOT_IDLE 6    /* home not idle */
#define DUZH_EMPTY 7       /* queue empty, or no tile can be taken */
#define DUZH_MISFIT 8      /* the front message does not fit its receiver */
#define DUZH_FULL 9        /* a queue that must take a message holds two */

/* Refusals of flits, the lowest first. */
#define DUZH_NO_FLIT 10    /* no flit at all */
#define DUZH_TYPE 11       /* type not in the table */
#define DUZH_LENGTH 12     /* length not of this type; on writing, number of data words wrong */
#define DUZH_CUT 13        /* fewer flits than the length says */
#define DUZH_PORT 14       /* port not listed */
#define DUZH_RESERVED 15   /* reserved bit set */
#define DUZH_FIELD 16      /* field too wide or not allowed for its type */
#define DUZH_NO_ROOM 17    /* place for writing outside the buffer, or too little room there */

/* Refusals of jobs. */
#define DUZH_JOB_CUT 20    /* cut short */
#define DUZH_JOB_TAG 21    /* unknown tag */
#define DUZH_JOB_LENGTH 22 /* length not of this tag */
#define DUZH_JOB_PLACE 23  /* field in a wrong place, or header field missing */
#define DUZH_JOB_VALUE 24  /* tile count or line address */
#define DUZH_JOB_LONG 25   /* longer than 65,536 bytes */

/* Words of a bench's answer. */
#define DUZH_ANSWER_WORDS 5
#define DUZH_ANSWER_REFUSAL 0
#define DUZH_ANSWER_KIND 1
#define DUZH_ANSWER_VALUE 2 /* the word of a load, the tile of a taking, else 0 */
#define DUZH_ANSWER_SENT 3  /* on which queues messages were sent */
#define DUZH_ANSWER_TILES 4 /* whose queues they are, bit t for tile t; 0 for the memory's */

/* Kinds. */
#define DUZH_OTHER 0
#define DUZH_LOADED 1
#define DUZH_STORED 2
#define DUZH_MESSAGE_SENT 3

/* Values of `sent`. */
#define DUZH_SENT_NONE 0
#define DUZH_SENT_NOC1 1
#define DUZH_SENT_NOC2 2    /* in rising order of the tiles */
#define DUZH_SENT_NOC3 3
#define DUZH_SENT_TO_MEMORY 4
#define DUZH_SENT_FROM_MEMORY 5
#define DUZH_SENT_NOC3_NOC1 6 /* a write-back, then its guard */

/* The words of a bench (docs/LAYOUT.md). Where the home's parts stand. */
#define DUZH_HOME_TILE_COUNT 0
#define DUZH_HOME_PHASE 1
#define DUZH_HOME_VALID 2
#define DUZH_HOME_DIRTY 3
#define DUZH_HOME_DIRECTORY 4
#define DUZH_HOME_HOLDERS 5 /* the mask of sharers in S, the owner in E */
#define DUZH_HOME_LINE 6
#define DUZH_HOME_LAST_TAKEN 14
#define DUZH_HOME_MARKS 15
#define DUZH_HOME_REQUESTER 16
#define DUZH_HOME_OWED 17
#define DUZH_HOME_MEMORY 18
#define DUZH_HOME_TO_MEMORY 26
#define DUZH_HOME_FROM_MEMORY 50

/* Where a tile's block begins, and the tile's parts in it. */
#define DUZH_TILE_AT(tile) DUZH_WORDS(tile)
#define DUZH_TILE_STATE 0
#define DUZH_TILE_WAITING 1
#define DUZH_TILE_WORD 2
#define DUZH_TILE_VALUE 3
#define DUZH_TILE_LINE 4
#define DUZH_TILE_NOC1 12
#define DUZH_TILE_NOC2 36
#define DUZH_TILE_NOC3 60

/* A queue is two messages, the second from DUZH_SECOND on; a message's parts in it. A free place has type DUZH_NO_MESSAGE. */
#define DUZH_MESSAGE_TYPE 0
#define DUZH_MESSAGE_WORD 1
#define DUZH_MESSAGE_STATE 2
#define DUZH_MESSAGE_FLAG 3 /* L2 miss of DATA_ACK; of an ack, whether it has data */
#define DUZH_MESSAGE_DATA 4
#define DUZH_SECOND 12
#define DUZH_QUEUE_WORDS 24

/* The home's phase: idle; waiting for memory load, for the owner, for acks, on behalf of a load, a store or an eviction; for memory store. */
#define DUZH_PHASE_IDLE 0
#define DUZH_PHASE_LOADING_FOR_LOAD 1
#define DUZH_PHASE_LOADING_FOR_STORE 2
#define DUZH_PHASE_OWNER_FOR_LOAD 3
#define DUZH_PHASE_OWNER_FOR_STORE 4
#define DUZH_PHASE_OWNER_FOR_EVICTION 5
#define DUZH_PHASE_ACKS_FOR_STORE 6
#define DUZH_PHASE_ACKS_FOR_EVICTION 7
#define DUZH_PHASE_STORING 8

/* The directory. */
#define DUZH_DIRECTORY_I 0
#define DUZH_DIRECTORY_S 1
#define DUZH_DIRECTORY_E 2

/* What a tile waits for. */
#define DUZH_WAITS_FOR_NOTHING 0
#define DUZH_WAITS_FOR_LOAD 1
#define DUZH_WAITS_FOR_STORE 2

/* States of a tile's line, and in messages. */
#define DUZH_STATE_I 0
#define DUZH_STATE_S 1
#define DUZH_STATE_E 2
#define DUZH_STATE_M 3

/* Message types. */
#define DUZH_NO_MESSAGE 0
#define DUZH_STORE_REQ 2
#define DUZH_WB_REQ 12
#define DUZH_WBGUARD_REQ 13
#define DUZH_LOAD_FWD 16
#define DUZH_STORE_FWD 17
#define DUZH_INV_FWD 18
#define DUZH_LOAD_MEM 19
#define DUZH_STORE_MEM 20
#define DUZH_LOAD_FWDACK 21
#define DUZH_STORE_FWDACK 22
#define DUZH_INV_FWDACK 23
#define DUZH_LOAD_MEM_ACK 24
#define DUZH_STORE_MEM_ACK 25
#define DUZH_NODATA_ACK 28
#define DUZH_DATA_ACK 29
#define DUZH_LOAD_REQ 31

/* Ports of a node. */
#define DUZH_PORT_PROCESSOR 0
#define DUZH_PORT_WEST 2
#define DUZH_PORT_SOUTH 3
#define DUZH_PORT_EAST 4
#define DUZH_PORT_NORTH 5

/* A fresh bench of so many tiles in the words, with the memory's eight words. memory_n other than 8 is refused 1, first of all. */
uint64_t duzh_start(uint64_t *words, size_t words_n, uint64_t tile_count, const uint64_t *memory, size_t memory_n, uint64_t *out, size_t out_n);

/* 1 if the words begin with a bench, else 0. */
uint64_t duzh_well_formed(const uint64_t *words, size_t words_n);

/* The calls on the bench in the words. out: DUZH_ANSWER_WORDS. */

/* Tile `tile` loads or stores word 0 to 7 of the line: it answers at once, or sends its request to the home and waits. */
uint64_t duzh_load(uint64_t *words, size_t words_n, uint64_t tile, uint64_t word, uint64_t *out, size_t out_n);
uint64_t duzh_store(uint64_t *words, size_t words_n, uint64_t tile, uint64_t word, uint64_t value, uint64_t *out, size_t out_n);
/* The tile gives up its copy, with a write-back and its guard if it is modified. */
uint64_t duzh_evict(uint64_t *words, size_t words_n, uint64_t tile, uint64_t *out, size_t out_n);
/* The home takes the next request, or a guard whose write-back is in, round robin after the tile taken last. */
uint64_t duzh_taking(uint64_t *words, size_t words_n, uint64_t *out, size_t out_n);
/* The front message of a tile's NoC2 is delivered to the tile. */
uint64_t duzh_to_tile(uint64_t *words, size_t words_n, uint64_t tile, uint64_t *out, size_t out_n);
/* The front message of a tile's NoC3 is delivered to the home. */
uint64_t duzh_from_tile(uint64_t *words, size_t words_n, uint64_t tile, uint64_t *out, size_t out_n);
/* The memory serves the front message on the queue to it. */
uint64_t duzh_memory_step(uint64_t *words, size_t words_n, uint64_t *out, size_t out_n);
/* The front message from the memory is delivered to the home. */
uint64_t duzh_memory_ack(uint64_t *words, size_t words_n, uint64_t *out, size_t out_n);
/* The home gives up its line. */
uint64_t duzh_home_eviction(uint64_t *words, size_t words_n, uint64_t *out, size_t out_n);

/* The messages that a call sent, out of the words as it left them; sent and tiles are words of its answer. */

/* Returns how many there are. */
uint64_t duzh_message_count(uint64_t sent, uint64_t tiles);
/* Writes the flits of the message of this index, from 0, at place `at` of the buffer, of a line with this address. out: refusal, flits
 * written. Where there is no such message it is refused 11. No message has more than DUZH_MOST_FLITS. */
#define DUZH_MOST_FLITS 11
uint64_t duzh_message_flits(const uint64_t *words, size_t words_n, uint64_t sent, uint64_t tiles, uint64_t index, uint64_t line, uint64_t *buffer, size_t buffer_n, size_t at, uint64_t *out, size_t out_n);

/* The fields of a message, by place. */
#define DUZH_FIELDS 18
#define DUZH_FIELD_TYPE 0
#define DUZH_FIELD_TAG 1
#define DUZH_FIELD_TO_CHIP 2
#define DUZH_FIELD_TO_X 3
#define DUZH_FIELD_TO_Y 4
#define DUZH_FIELD_TO_PORT 5
#define DUZH_FIELD_STATE 6
#define DUZH_FIELD_MISS 7
#define DUZH_FIELD_ADDRESS_5_4 8
#define DUZH_FIELD_LAST 9
#define DUZH_FIELD_ADDRESS 10
#define DUZH_FIELD_VECTOR 11
#define DUZH_FIELD_ICACHE 12
#define DUZH_FIELD_SIZE 13
#define DUZH_FIELD_FROM_CHIP 14
#define DUZH_FIELD_FROM_X 15
#define DUZH_FIELD_FROM_Y 16
#define DUZH_FIELD_FROM_PORT 17

/* Reads the front message of the flits from place `at` on. out: refusal, flits used, where the data start, the fields. Used and start
 * count from `at`: the data are flits[at + start] up to, and without, flits[at + used]. */
#define DUZH_READ_WORDS (3 + DUZH_FIELDS)
uint64_t duzh_read(const uint64_t *flits, size_t flits_n, size_t at, uint64_t *out, size_t out_n);
/* Writes a message at place `at` of the buffer, with its data: eight words, or none. out: refusal, flits written. fields_n other than
 * DUZH_FIELDS is refused 1, first of all. */
uint64_t duzh_write(uint64_t *buffer, size_t buffer_n, size_t at, const uint64_t *fields, size_t fields_n, const uint64_t *data, size_t data_n, uint64_t *out, size_t out_n);

/* Tags of a job's fields. */
#define DUZH_TAG_TILES 1
#define DUZH_TAG_LINE 2
#define DUZH_TAG_MEMORY 3
#define DUZH_TAG_LOAD 16
#define DUZH_TAG_STORE 17
#define DUZH_TAG_EVICT 18
#define DUZH_TAG_TAKING 19
#define DUZH_TAG_TO_TILE 20
#define DUZH_TAG_FROM_TILE 21
#define DUZH_TAG_MEMORY_STEP 22
#define DUZH_TAG_MEMORY_ACK 23
#define DUZH_TAG_HOME_EVICTION 24
#define DUZH_MOST_JOB_BYTES 65536

/* Checks a whole job. out: refusal, offset of the bad field. */
uint64_t duzh_check_job(const uint8_t *job, size_t job_n, uint64_t *out, size_t out_n);
/* Makes the call at place `at` of a job (DUZH_FIRST_CALL for the first) on the bench in the words, and writes its lines of the listing at
 * place `from` of the text, as call number `number`, of a line with this address. Returns the call's refusal number. out: the place behind
 * the lines, which is text_n + 1 where they do not all fit, and the place of the next call. DUZH_CALL_TEXT bytes are enough for every call. */
#define DUZH_FIRST_CALL 80
#define DUZH_CALL_TEXT 12180
uint64_t duzh_run_call(uint64_t *words, size_t words_n, const uint8_t *job, size_t job_n, size_t at, uint64_t number, uint64_t line, uint8_t *text, size_t text_n, size_t from, uint64_t *out, size_t out_n);

#ifdef __cplusplus
}
#endif

#endif
