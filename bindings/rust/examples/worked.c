/* Document 01's worked session in C: a control request, its event, and its reclaim. Writes "done 1 18 1".
 *
 *     cc -I include examples/worked.c ../../crates/dock_c/out/libdock_c.a -o worked
 */
#include "thnaolups.h"
#include <stdio.h>

#define SLOTS 5

static uint64_t state[THN_STATE_WORDS], answer[THN_ANSWER_WORDS];
static uint32_t ring[4 * SLOTS], finished[4 * SLOTS];
static uint64_t records[THN_RECORD_COUNT * THN_RECORD_WORDS], packets[THN_RECORD_COUNT * THN_PACKETS];

int main(void) {
    const uint64_t request[THN_REQUEST_WORDS] = {0, 0, 0x80, 6, 0x100, 0, 0x20000, 18};
    const uint64_t none[1] = {0};
    uint32_t no = thn_make(state, THN_STATE_WORDS, ring, 4 * SLOTS, finished, 4 * SLOTS, records, THN_RECORD_COUNT * THN_RECORD_WORDS,
                           packets, THN_RECORD_COUNT * THN_PACKETS, SLOTS, 0x10000, 0xffffffff, 1, 1);
    if (no == 0)
        no = thn_submit(state, THN_STATE_WORDS, answer, THN_ANSWER_WORDS, ring, 4 * SLOTS, finished, 4 * SLOTS, records,
                        THN_RECORD_COUNT * THN_RECORD_WORDS, packets, THN_RECORD_COUNT * THN_PACKETS, request, THN_REQUEST_WORDS, none, 0);
    if (no == 0)
        no = thn_hand_over(state, THN_STATE_WORDS, answer, THN_ANSWER_WORDS, finished, 4 * SLOTS, 0x10020, 0, 0x1000000, 0x1018000);
    if (no == 0)
        no = thn_reclaim(state, THN_STATE_WORDS, answer, THN_ANSWER_WORDS, finished, 4 * SLOTS, records,
                         THN_RECORD_COUNT * THN_RECORD_WORDS, packets, THN_RECORD_COUNT * THN_PACKETS, 1);
    if (no != 0) {
        printf("no %u\n", (unsigned)no);
        return 1;
    }
    printf("done %llu %llu %llu\n", (unsigned long long)answer[1], (unsigned long long)answer[2], (unsigned long long)answer[3]);
    return 0;
}
