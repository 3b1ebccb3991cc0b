/* planted.c: submissions that make the right stores in a wrong order, or others beside them, to show that stepper.c finds each. All but the last two
 * leave every word as the right submission does: what is wrong is there only for a while.
 */
#include "stepper.h"
#include <string.h>

enum { NONE, LINK_FIRST, FIRST_PUBLISHED, PUBLISHED_EARLY, SWAPPED, WORD_LATE, SLOT_TOUCHED, THIRD_VALUE, LINK_TOGGLED, PLACE_TOUCHED, CLEARED_LATE,
       STORED_AGAIN, NOT_CLEARED,
       ENDPOINT_KEPT };
const struct slip slips[] = {
    [NONE] = {"none", "the right stores in the right order, each word by itself: nothing is to be found"},
    [LINK_FIRST] = {"link-first", "the link is stored before its TRB"},
    [FIRST_PUBLISHED] = {"first-published", "the first TRB of a control TD has the right cycle at once"},
    [PUBLISHED_EARLY] = {"published-early", "the first TRB of a control TD gets the right cycle one store too early"},
    [SWAPPED] = {"swapped", "the second store comes before the first"},
    [WORD_LATE] = {"word-late", "the first store's last word comes behind the second store's first"},
    [SLOT_TOUCHED] = {"slot-touched", "a slot of no store is changed and put back"},
    [THIRD_VALUE] = {"third-value", "a word has another value for a while before it is right"},
    [LINK_TOGGLED] = {"link-toggled", "the link has the new cycle for a while"},
    [PLACE_TOUCHED] = {"place-touched", "a finished place of no store is changed and put back"},
    [CLEARED_LATE] = {"cleared-late", "the first TRB's place is cleared behind all stores"},
    [STORED_AGAIN] = {"stored-again", "the first slot is stored once more, as it is, behind all stores: only marked words show it"},
    [NOT_CLEARED] = {"not-cleared", "the first TRB's place is not cleared"},
    [ENDPOINT_KEPT] = {"endpoint-kept", "the endpoint's words stay as they were"},
};
const int slip_count = sizeof slips / sizeof slips[0];

static struct op {
    int finished;
    size_t index;
    uint32_t value;
} ops[8 * MOST_STORES + 8];
static size_t op_count;
static struct dock end;
static int kept;

static void add(int finished, size_t index, uint32_t value) { ops[op_count++] = (struct op){finished, index, value}; }

static void clear(const struct store *s) {
    for (size_t w = 0; s->clears && w < 4; w++)
        add(1, 4 * s->slot + w, 0);
}

static void touch(int finished, size_t index, uint32_t was) {
    add(finished, index, ~was);
    add(finished, index, was);
}

static void swap(struct store *list, size_t k) {
    struct store s = list[k];
    list[k] = list[k + 1];
    list[k + 1] = s;
}

int plan(int slip, const struct dock *d, const struct request *r) {
    static struct store list[MOST_STORES];
    uint32_t no;
    end = *d;
    size_t n = one_by_one(&end, r, list, &no), link = n, aside = 0;
    int deferred = n > 1 && list[0].slot == list[n - 1].slot;
    for (size_t k = 0; k < n; k++)
        if (list[k].slot == d->slots - 1)
            link = k;
    for (size_t k = 0; k < n;) /* the lowest slot of no store; L-2 TRBs and a link leave one */
        if (list[k].slot == aside) {
            aside++;
            k = 0;
        } else
            k++;
    if (no || (link == n && (slip == LINK_FIRST || slip == LINK_TOGGLED)) || (!deferred && (slip == FIRST_PUBLISHED || slip == PUBLISHED_EARLY)) ||
        (n < 2 && (slip == SWAPPED || slip == WORD_LATE || slip == CLEARED_LATE)))
        return 0;
    kept = slip == ENDPOINT_KEPT;
    op_count = 0;
    if (slip == LINK_FIRST)
        swap(list, link - 1);
    if (slip == PUBLISHED_EARLY)
        swap(list, n - 2);
    if (slip == SWAPPED)
        swap(list, 0);
    if (slip == FIRST_PUBLISHED)
        list[0].after[3] = list[n - 1].after[3];
    if (slip == SLOT_TOUCHED)
        touch(0, 4 * aside + 1, d->ring[4 * aside + 1]);
    if (slip == PLACE_TOUCHED)
        touch(1, 4 * aside + 1, d->finished[4 * aside + 1]);
    if (slip == THIRD_VALUE)
        add(0, 4 * list[0].slot, list[0].after[0] ^ 0x100);
    for (size_t k = 0; k < n; k++) {
        if (k > 0 || (slip != CLEARED_LATE && slip != NOT_CLEARED))
            clear(&list[k]);
        if (k == link && slip == LINK_TOGGLED)
            add(0, 4 * list[k].slot + 3, list[k].after[3] ^ 1);
        for (size_t w = 0; w < 4; w++)
            if (k != 0 || w != 3 || slip != WORD_LATE) {
                add(0, 4 * list[k].slot + w, list[k].after[w]);
                if (k == 1 && w == 0 && slip == WORD_LATE)
                    add(0, 4 * list[0].slot + 3, list[0].after[3]);
            }
    }
    if (slip == CLEARED_LATE)
        clear(&list[0]);
    for (size_t w = 0; w < 4 && slip == STORED_AGAIN; w++)
        add(0, 4 * list[0].slot + w, end.ring[4 * list[0].slot + w]);
    return 1;
}

void act(struct dock *d) {
    for (size_t k = 0; k < op_count; k++)
        *(volatile uint32_t *)(ops[k].finished ? &d->finished[ops[k].index] : &d->ring[ops[k].index]) = ops[k].value;
}

/* The answer of a whole submission is that of its last store without the slot. */
void settle(struct dock *d) {
    if (!kept)
        memcpy(d->state, end.state, sizeof d->state);
    memcpy(d->records, end.records, sizeof d->records);
    memcpy(d->packets, end.packets, sizeof d->packets);
    memset(d->answer, 0, sizeof d->answer);
    d->answer[0] = 2;
    d->answer[1] = end.answer[2];
    d->answer[2] = end.answer[3];
}
