/* What the watcher (stepper.c) and the planted slips (planted.c) share. */
#ifndef STEPPER_H
#define STEPPER_H

#include "thnaolups.h"

#define MOST_SLOTS 4096
#define RECORDS (THN_RECORD_COUNT * THN_RECORD_WORDS)
#define PACKETS (THN_RECORD_COUNT * THN_PACKETS)
#define MOST_STORES (THN_PACKETS + 1) /* of one submission: a packet each, and a link */

/* An endpoint and its tables; of the ring and the finished table the first 4 * slots words are lent. */
struct dock {
    size_t slots;
    uint64_t state[THN_STATE_WORDS], answer[THN_ANSWER_WORDS], records[RECORDS], packets[PACKETS];
    uint32_t ring[4 * MOST_SLOTS], finished[4 * MOST_SLOTS];
};

struct request {
    uint64_t words[THN_REQUEST_WORDS], lengths[THN_PACKETS];
    size_t count;
};

/* One store as thn_store makes it: the slot, its words before and after, and whether its finished place is cleared. */
struct store {
    size_t slot;
    uint32_t before[4], after[4];
    int clears;
};

/* The start and the stores one by one, on d. Puts down the stores, and answers how many; *no is what the start answered. */
size_t one_by_one(struct dock *d, const struct request *r, struct store *list, uint32_t *no);

/* A planted submission: `plan` works it out (and answers 0 where this slip cannot be made of this request), `act` changes the ring and the finished
 * table a word at a time, `settle` the rest. */
struct slip {
    const char *name, *what;
};
extern const struct slip slips[];
extern const int slip_count;
int plan(int slip, const struct dock *d, const struct request *r);
void act(struct dock *d);
void settle(struct dock *d);

#endif
