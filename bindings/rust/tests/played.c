/* The repository's examples/boundary.drive and examples/mask.drive, played through the header: for the lines `ring`, `pointer`, `whole` of a
 * bulk or isochronous request, `slot` and `new` it writes what `drive` writes there. Any other line ends it with 1.
 */
#include "thnaolups.h"
#include <inttypes.h>
#include <stdio.h>
#include <stdlib.h>
#include <string.h>

#define MOST_SLOTS 4096
#define MOST_LENGTHS 65

static uint64_t state[THN_STATE_WORDS], answer[THN_ANSWER_WORDS];
static uint32_t ring[4 * MOST_SLOTS], finished[4 * MOST_SLOTS];
static uint64_t records[THN_RECORD_COUNT * THN_RECORD_WORDS], packets[THN_RECORD_COUNT * THN_PACKETS];
static size_t slots;

static uint32_t make(uint64_t base, uint64_t mask, unsigned slot, unsigned dci) {
    return thn_make(state, THN_STATE_WORDS, ring, 4 * slots, finished, 4 * slots, records, THN_RECORD_COUNT * THN_RECORD_WORDS, packets,
                    THN_RECORD_COUNT * THN_PACKETS, slots, base, mask, (uint8_t)slot, (uint8_t)dci);
}

static uint32_t submit(uint64_t kind, uint64_t incoming, uint64_t address, uint64_t length, const char *rest) {
    uint64_t request[THN_REQUEST_WORDS] = {kind, incoming, 0, 0, 0, 0, address, length};
    uint64_t lengths[MOST_LENGTHS];
    size_t count = 0;
    while (*rest == '\t' && count < MOST_LENGTHS) {
        char *end;
        lengths[count++] = strtoull(rest + 1, &end, 10);
        rest = end;
    }
    return thn_submit(state, THN_STATE_WORDS, answer, THN_ANSWER_WORDS, ring, 4 * slots, finished, 4 * slots, records,
                      THN_RECORD_COUNT * THN_RECORD_WORDS, packets, THN_RECORD_COUNT * THN_PACKETS, request, THN_REQUEST_WORDS, lengths, count);
}

int main(void) {
    char line[256];
    while (fgets(line, sizeof line, stdin)) {
        size_t at;
        uint64_t address, mask, incoming, length;
        unsigned slot, dci;
        uint32_t no = 0;
        int used = 0;
        if (sscanf(line, "ring\t%zu\t%" SCNx64 "\t%" SCNx64 "\t%u\t%u", &slots, &address, &mask, &slot, &dci) == 5 && slots <= MOST_SLOTS)
            no = make(address, mask, slot, dci);
        else if (strcmp(line, "pointer\n") == 0) {
            no = thn_pointer(state, THN_STATE_WORDS, answer, THN_ANSWER_WORDS);
            if (no == 0)
                printf("pointer\t%" PRIx64 "\t%" PRIu64 "\n", answer[1], answer[2]);
        } else if (sscanf(line, "whole\tbulk\t%" SCNu64 "\t%" SCNx64 "\t%" SCNu64 "%n", &incoming, &address, &length, &used) == 3 ||
                   sscanf(line, "whole\tiso\t%" SCNu64 "\t%" SCNx64 "\t%" SCNu64 "%n", &incoming, &address, &length, &used) == 3) {
            no = submit(line[6] == 'b' ? 1 : 3, incoming, address, length, line + used);
            if (no == 0)
                printf("bell\t%" PRIx64 "\t%" PRIu64 "\n", answer[2], answer[1]);
        } else if (sscanf(line, "slot\t%zu", &at) == 1 && at < slots)
            printf("slot\t%zu\t%08" PRIx32 "\t%08" PRIx32 "\t%08" PRIx32 "\t%08" PRIx32 "\n", at, ring[4 * at], ring[4 * at + 1],
                   ring[4 * at + 2], ring[4 * at + 3]);
        else if (strcmp(line, "new\n") != 0)
            return 1;
        if (no != 0)
            printf("no\t%" PRIu32 "\n", no);
    }
    return 0;
}
