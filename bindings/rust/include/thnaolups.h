/* thnaolups.h: the calls of the static library libdock_c.a (`rt lib` in crates/dock_c).
 *
 * An endpoint is THN_STATE_WORDS words that the caller keeps and lends to each call; a request is THN_REQUEST_WORDS words, an answer the number
 * that is returned and, for the calls with an `answer`, THN_ANSWER_WORDS words. Four tables are lent beside them:
 *   ring      4 words of 32 bits a slot; what the controller reads, at the bus address `base`
 *   finished  4 words of 32 bits a slot
 *   records   THN_RECORD_COUNT * THN_RECORD_WORDS words of 64 bits
 *   packets   THN_RECORD_COUNT * THN_PACKETS words of 64 bits; in a packet's word bits 0-31 are the length asked for, bits 32-62 the length
 *             counted, bit 63 its mark
 *
 * A request's words: kind (0 control, 1 bulk, 2 interrupt, 3 isochronous), direction (not 0: in; of a control request bit 7 of the type
 * says it), request type, request, value, index (these four are read of a control request only), address, length. The packet lengths of an
 * isochronous request stand beside it.
 * An answer's words: how many values it has, the values, then zeros. They are written anew by every call that is lent them, but where it
 * answers 1 for a length, a word that is too wide or a kind.
 *
 * What is returned:
 *   0 done                                   7 cancelled
 *   1 sizes, state or request do not fit     8 completion code refused
 *   2 queue full, or a reset under way       9 packet count differs from the lengths given
 *   3 a length limit broken                 10 nothing
 *   4 all records taken                     11 an event of another ring
 *   5 buffer with a byte above the mask     12 a submission's stores are under way
 *   6 id not in flight                      13 outside the limits of a ring
 *
 * Any numbers are safe, and so are slices of any length: a length that does not fit is answered 1 and leaves everything. So is a word of the
 * endpoint or of a request that is too wide for its field; none is cut. The narrow ones are slot id, dci, burst and interval (8 bits), max
 * packet size and next frame (16) of the endpoint, and type and request (8), value and index (16) of a control request. thn_make reads no
 * word of the endpoint, and answers 13 before 1. An answer but 0, 7, 8 and 9 leaves the endpoint's words. What the caller owes is C's own:
 * each pointer is valid for its length, aligned and not NULL (also where the length is 0), and no slice that is written overlaps another
 * one.
 */
#ifndef THNAOLUPS_H
#define THNAOLUPS_H

#include <stddef.h>
#include <stdint.h>

#ifdef __cplusplus
extern "C" {
#endif

#define THN_STATE_WORDS 22
#define THN_REQUEST_WORDS 8
#define THN_ANSWER_WORDS 9
#define THN_RECORD_COUNT 64
#define THN_RECORD_WORDS 12
#define THN_PACKETS 64

/* Makes a ring. Zeroes the ring and empties every table. 13: slots, base, slot id or dci outside the limits, or a ring that crosses a
 * multiple of 65,536; then 1: a table or the endpoint's words of a wrong length. A ring of at most 4096 slots crosses none where its base
 * is a multiple of a power of two that is at least 4096 and at least 16 * slots. The mask is the highest address that the controller
 * reaches: a buffer's last byte may have it. */
uint32_t thn_make(
    uint64_t *state, size_t state_len, uint32_t *ring, size_t ring_len, uint32_t *finished,
    size_t finished_len, uint64_t *records, size_t records_len, uint64_t *packets,
    size_t packets_len, size_t slots, uint64_t base, uint64_t mask, uint8_t slot, uint8_t dci);

/* Sets max packet size, burst and interval of a periodic endpoint; an interval of 0 is taken as 1. */
uint32_t thn_configure(
    uint64_t *state, size_t state_len, uint16_t packet, uint8_t burst, uint8_t interval);

/* Starts a submission: it takes id, record and count and stores no TRB. Its stores follow, one thn_store each. */
uint32_t thn_start(
    uint64_t *state, size_t state_len, uint64_t *records, size_t records_len, uint64_t *packets,
    size_t packets_len, const uint64_t *request, size_t request_len, const uint64_t *lengths,
    size_t lengths_len);

/* The next store of the submission under way. Values: the slot that changed; after the last store also the id and the
 * doorbell word. */
uint32_t thn_store(
    uint64_t *state, size_t state_len, uint64_t *answer, size_t answer_len, uint32_t *ring,
    size_t ring_len, uint32_t *finished, size_t finished_len, const uint64_t *records,
    size_t records_len, const uint64_t *packets, size_t packets_len);

/* A whole submission: the start and its stores in order. Values: the id and the doorbell word. */
uint32_t thn_submit(
    uint64_t *state, size_t state_len, uint64_t *answer, size_t answer_len, uint32_t *ring,
    size_t ring_len, uint32_t *finished, size_t finished_len, uint64_t *records, size_t records_len,
    uint64_t *packets, size_t packets_len, const uint64_t *request, size_t request_len,
    const uint64_t *lengths, size_t lengths_len);

/* Hands over a transfer event, its four words. Values: the slot whose place has it. */
uint32_t thn_hand_over(
    const uint64_t *state, size_t state_len, uint64_t *answer, size_t answer_len,
    uint32_t *finished, size_t finished_len, uint32_t w0, uint32_t w1, uint32_t w2, uint32_t w3);

/* Reclaims a request by its id. Values: the id, the bytes moved, 1 where there are any and they came in, the record whose
 * packet words hold the lengths, and how many packets (0 but for an isochronous request). 8 (code refused): the code. */
uint32_t thn_reclaim(
    uint64_t *state, size_t state_len, uint64_t *answer, size_t answer_len,
    const uint32_t *finished, size_t finished_len, uint64_t *records, size_t records_len,
    uint64_t *packets, size_t packets_len, uint64_t id);

/* Cancels a request: its reclaim will answer 7. */
uint32_t thn_cancel(
    const uint64_t *state, size_t state_len, uint64_t *records, size_t records_len, uint64_t id);

/* After a stop: every request in flight becomes stopped. */
uint32_t thn_retire(uint64_t *state, size_t state_len, uint64_t *records, size_t records_len);

/* Begins a reset. Values: none where nothing is halted, else the words of two commands, Reset Endpoint and Set TR Dequeue. */
uint32_t thn_begin_reset(
    uint64_t *state, size_t state_len, uint64_t *answer, size_t answer_len, const uint64_t *records,
    size_t records_len);

/* Ends a reset; worked is not 0 where its commands worked. */
uint32_t thn_end_reset(uint64_t *state, size_t state_len, uint32_t worked);

/* Values: the four words of Stop Endpoint. */
uint32_t thn_stop(const uint64_t *state, size_t state_len, uint64_t *answer, size_t answer_len);

/* Values: the four words of Set TR Dequeue, with which the endpoint goes on at the producer's place. */
uint32_t thn_resume(const uint64_t *state, size_t state_len, uint64_t *answer, size_t answer_len);

/* Values: the address at which the producer stands, and its cycle. */
uint32_t thn_pointer(const uint64_t *state, size_t state_len, uint64_t *answer, size_t answer_len);

#ifdef __cplusplus
}
#endif

#endif
