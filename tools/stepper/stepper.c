/* stepper.c: single-steps thn_submit of the shipped archive, and holds the order in which the words of the ring and of the finished table change against
 * the same submission store by store.
 *
 *     stepper             every case below, on thn_submit
 *     stepper planted     submissions with a slip (planted.c): each must be found
 *     stepper divisions   counts the divisions of ISO submissions instead, whole and store by store
 *
 * The contract of a whole submission says which words stand there at its end, not in which order they came. That order is run here: a child process
 * makes the call, its tables lie in memory that both processes share, and behind every instruction of the child (ptrace, PTRACE_SINGLESTEP) the tables
 * are compared with what they were. What has changed is held against thn_start and thn_store on a copy.
 *
 * Each submission is watched twice. First untouched: a word that is stored with the value that it has does not show. Every slot of the call holds other
 * words before it and every finished place is full, so this hides w0 to w2 of a first TRB's second store, and nothing else. Then marked: behind each
 * change another word (MARK) is put in its place, so that every store of a word shows; the words are put right at the end. A call that read a marked
 * word would end with other tables (rule 5).
 *
 * The rules:
 *   1  each change of the ring is of the store that is due: its slot, its words, each once; and it comes behind all that the store before changes
 *   2  (told, no rule: docs/DECISIONS.md, 38) where w3, which has the cycle bit, comes among the four words of a store
 *   3  a link's words come behind all words of its TRB; a first TRB that is deferred has the opposite cycle until the last change of the ring, which is
 *      that of its cycle bit
 *   4  each change of the finished table is of the store that is due, which clears its own place, once
 *   5  at the end every table, the endpoint and the answer are those of the stores one by one; a call that is refused changes nothing on the way
 *   6  a controller that goes as far as it can behind every instruction takes the TRBs in order, and none of a control TD before its last change
 */
#define _GNU_SOURCE
#include "stepper.h"
#include <sched.h>
#include <signal.h>
#include <stddef.h>
#include <stdio.h>
#include <stdlib.h>
#include <string.h>
#include <sys/mman.h>
#include <sys/ptrace.h>
#include <sys/user.h>
#include <sys/wait.h>
#include <unistd.h>

#define BASE 0x10000u /* document 01's W10 has it */
#define MARK 0x6d61726bu
#define SHIPPED (-1)
#define STORES (-2)
#define STATE(d) (d)->state, THN_STATE_WORDS
#define ANSWER(d) (d)->answer, THN_ANSWER_WORDS
#define SLOTS(d) (d)->ring, 4 * (d)->slots, (d)->finished, 4 * (d)->slots
#define REQUESTS(d) (d)->records, RECORDS, (d)->packets, PACKETS
#define ASKED(r) (r)->words, THN_REQUEST_WORDS, (r)->lengths, (r)->count

static struct shared {
    struct dock d;
    struct request r;
    int slip; /* or SHIPPED: thn_submit; STORES: thn_start and every thn_store */
    volatile int over;
    uint32_t no;
} *shared;
static pid_t child;

static struct change {
    long step;
    int finished;
    size_t index;
    uint32_t old, new;
} changes[16 * MOST_STORES];
static size_t change_count;

static struct store list[MOST_STORES];
static size_t store_count;

static struct {
    long submissions, stores, links, deferred, ahead, behind, among, at_once, w3_last, w3_not_last, taken, in_parts, out_of_order;
} told;
static long broken[7], instructions;
static char why[160];

static void die(const char *what) {
    fprintf(stderr, "stepper: %s\n", what);
    if (child > 0)
        kill(child, SIGKILL);
    exit(2);
}

static int fails(int rule, const char *what, size_t slot) {
    broken[rule]++;
    snprintf(why, sizeof why, "rule %d: %s (slot %zu)", rule, what, slot);
    return 1;
}

/* ---- the calls */

size_t one_by_one(struct dock *d, const struct request *r, struct store *out, uint32_t *no) {
    static struct dock was;
    size_t n = 0;
    *no = thn_start(STATE(d), REQUESTS(d), ASKED(r));
    while (*no == 0) {
        struct store *s = &out[n++];
        was = *d;
        if (thn_store(STATE(d), ANSWER(d), SLOTS(d), REQUESTS(d)) != 0)
            die("a store was refused");
        s->slot = d->answer[1];
        memcpy(s->before, &was.ring[4 * s->slot], 16);
        memcpy(s->after, &d->ring[4 * s->slot], 16);
        s->clears = memcmp(was.finished, d->finished, 16 * d->slots) != 0;
        if (d->answer[0] == 3) /* the last store answers the id and the doorbell word too */
            break;
    }
    return n;
}

/* A dock at a place: made, and walked there by bulk requests, each with its event and its reclaim. */
static void walk(struct dock *d, size_t slots, size_t place, int cycle) {
    static const struct request bulk = {{1, 1, 0, 0, 0, 0, 0x20000, 64}, {0}, 0};
    memset(d, 0, sizeof *d);
    d->slots = slots;
    uint32_t no = thn_make(STATE(d), SLOTS(d), REQUESTS(d), slots, BASE, 0xffffffffffff, 1, 1) | thn_configure(STATE(d), 64, 1, 4);
    for (size_t n = 0; n < place + (cycle ? 0 : slots - 1); n++) {
        no |= thn_submit(STATE(d), ANSWER(d), SLOTS(d), REQUESTS(d), ASKED(&bulk));
        no |= thn_hand_over(STATE(d), ANSWER(d), d->finished, 4 * slots, (uint32_t)(BASE + 16 * (n % (slots - 1))), 0, 0x1000000, 0x1018000);
        no |= thn_reclaim(STATE(d), ANSWER(d), d->finished, 4 * slots, REQUESTS(d), n + 1);
    }
    if (no != 0)
        die("the way to the place was refused");
}

/* Other words in every slot of the call than it stores, with the cycle bit that keeps the controller waiting, and full finished places. */
static void age(struct dock *d, size_t place, uint32_t cycle) {
    for (size_t s = 0; s < d->slots; s++) {
        uint32_t words[4] = {0x51a1e000, 0x52a1e000, 0x53a1e000, 0x54a1e000};
        for (size_t k = store_count; k-- > 0;)
            for (int w = 0; w < 4 && list[k].slot == s; w++)
                words[w] = ~list[k].after[w];
        words[3] = (words[3] & ~1u) | (s < place ? cycle : !cycle);
        memcpy(&d->ring[4 * s], words, 16);
    }
    for (size_t i = 0; i < 4 * d->slots; i++)
        d->finished[i] = 0xf1000000 + (uint32_t)i;
}

/* ---- the child, and how it is moved on */

static void serve(void) {
    struct dock *d = &shared->d;
    if (ptrace(PTRACE_TRACEME, 0, 0, 0) != 0)
        _exit(9);
    for (;;) {
        raise(SIGSTOP); /* the tables are laid out */
        if (shared->slip >= 0)
            plan(shared->slip, d, &shared->r);
        raise(SIGSTOP); /* from here on each instruction is watched */
        if (shared->slip >= 0)
            act(d);
        else if (shared->slip == SHIPPED)
            shared->no = thn_submit(STATE(d), ANSWER(d), SLOTS(d), REQUESTS(d), ASKED(&shared->r));
        else {
            shared->no = thn_start(STATE(d), REQUESTS(d), ASKED(&shared->r));
            while (shared->no == 0 && d->answer[0] != 3)
                shared->no = thn_store(STATE(d), ANSWER(d), SLOTS(d), REQUESTS(d));
        }
        shared->over = 1;
        if (shared->slip >= 0)
            settle(d);
    }
}

static void stopped_by(int signal) {
    int status;
    if (waitpid(child, &status, 0) != child)
        die("the child is gone");
    if (WIFEXITED(status) && WEXITSTATUS(status) == 9)
        die("this machine does not allow ptrace");
    if (!WIFSTOPPED(status) || WSTOPSIG(status) != signal)
        die("the child stopped for another reason");
}

static void go(int how, int signal) {
    if (ptrace(how, child, 0, 0) != 0)
        die("ptrace does not move the child on");
    stopped_by(signal);
}

/* ---- the controller: "at its slot, other cycle bit than its own: nothing happens. Link: to slot 0, toggle. Else consume, move one on." */

static struct {
    size_t slot, taken;
    uint32_t cycle;
    long first; /* the step at which it took its first TRB */
    int wrong;
} controller;
static struct store trbs[MOST_STORES]; /* what it is to take: the slot, and in `after` the final words */
static size_t trb_count;

static void run_on(const struct dock *d, long step) {
    for (size_t n = 0; n < 2 * d->slots && controller.slot < d->slots; n++) {
        const uint32_t *w = &d->ring[4 * controller.slot];
        if ((w[3] & 1) != controller.cycle)
            return;
        if ((w[3] >> 10 & 63) == 6) {
            controller.slot = 0;
            controller.cycle ^= 1;
            continue;
        }
        if (controller.taken == 0)
            controller.first = step;
        if (controller.taken >= trb_count || trbs[controller.taken].slot != controller.slot)
            controller.wrong = 1;
        else
            told.in_parts += memcmp(trbs[controller.taken].after, w, 16) != 0;
        controller.taken++;
        controller.slot++;
    }
}

/* ---- the watcher */

/* What differs from `left`, the table as it stood behind the instruction before; `stored` has the words as the call stored them. */
static void look(long step, int finished, uint32_t *words, uint32_t *left, uint32_t *stored, size_t slots, int marked) {
    if (memcmp(words, left, 16 * slots) == 0)
        return;
    for (size_t i = 0; i < 4 * slots; i++)
        if (words[i] != left[i]) {
            if (change_count == sizeof changes / sizeof changes[0])
                die("more changes than any submission has");
            changes[change_count++] = (struct change){step, finished, i, stored[i], words[i]};
            stored[i] = words[i];
            words[i] = left[i] = marked ? words[i] ^ MARK : words[i];
        }
}

static void watch(int marked) {
    static struct dock left, stored;
    struct dock *d = &shared->d;
    left = stored = *d;
    change_count = 0;
    shared->over = 0;
    shared->no = 0;
    go(PTRACE_CONT, SIGSTOP);
    for (long step = 1; !shared->over; step++, instructions++) {
        go(PTRACE_SINGLESTEP, SIGTRAP);
        look(step, 0, d->ring, left.ring, stored.ring, d->slots, marked);
        look(step, 1, d->finished, left.finished, stored.finished, d->slots, marked);
        if (!marked && change_count > 0 && changes[change_count - 1].step == step)
            run_on(d, step);
    }
    memcpy(d->ring, stored.ring, 16 * d->slots);
    memcpy(d->finished, stored.finished, 16 * d->slots);
    go(PTRACE_CONT, SIGSTOP);
}

/* ---- the rules */

static int deferred(void) { return store_count > 1 && list[0].slot == list[store_count - 1].slot; }

/* Rules 1 and 4: the changes are taken off the stores in order. */
static int out_of_turn(int marked) {
    long before = 0; /* the last step of the store before */
    size_t c = 0;
    for (size_t k = 0; k < store_count; k++) {
        unsigned words = 0, place = list[k].clears ? 15 : 0;
        long first[2] = {0, 0}, last[2] = {0, 0}, w3 = 0, rest = 0; /* of the ring's words, of the finished place's */
        for (unsigned w = 0; w < 4; w++)
            words |= (marked || list[k].before[w] != list[k].after[w]) << w;
        for (; words || place; c++) {
            const struct change *x = c < change_count ? &changes[c] : NULL;
            unsigned *due = x && x->finished ? &place : &words, w = x ? x->index % 4 : 0;
            if (!x || x->index / 4 != list[k].slot || !(*due >> w & 1) || x->new != (x->finished ? 0 : list[k].after[w]) || x->step <= before)
                return fails((x && x->finished) || !words ? 4 : 1, "the next change is not of the store that is due", list[k].slot);
            *due &= ~(1u << w);
            first[x->finished] = first[x->finished] ? first[x->finished] : x->step;
            last[x->finished] = x->step;
            if (!x->finished)
                *(w == 3 ? &w3 : &rest) = x->step;
        }
        before = last[0] > last[1] ? last[0] : last[1];
        if (marked) /* all four words show */
            ++*(first[0] == last[0] ? &told.at_once : w3 > rest ? &told.w3_last : &told.w3_not_last);
        if (list[k].clears)
            ++*(last[1] < first[0] ? &told.ahead : first[1] > last[0] ? &told.behind : &told.among);
    }
    return c < change_count && fails(changes[c].finished ? 4 : 1, "a change of no store", changes[c].index / 4);
}

/* The first step at which a slot changes, or the one by which each of its words has changed. */
static long touched(size_t slot, int complete) {
    long at = 0;
    unsigned seen = 0;
    for (size_t c = 0; c < change_count; c++)
        if (!changes[c].finished && changes[c].index / 4 == slot && !(seen >> changes[c].index % 4 & 1)) {
            seen |= 1u << changes[c].index % 4;
            at = complete || at == 0 ? changes[c].step : at;
        }
    return at;
}

/* Rule 3, by the changes themselves; a word that is stored again as it is does not count. */
static int published(void) {
    const struct change *last = NULL;
    for (size_t k = 1; k < store_count; k++)
        if (list[k].slot == shared->d.slots - 1 && touched(list[k].slot, 0) <= touched(list[k - 1].slot, 1))
            return fails(3, "the link changed before its TRB was complete", list[k - 1].slot);
    if (store_count > 0 && deferred() != (shared->r.words[0] == 0))
        return fails(3, "a control TD is deferred, and no other", list[0].slot);
    for (size_t c = 0; c < change_count && deferred(); c++)
        if (!changes[c].finished && changes[c].old != changes[c].new) {
            if (last && last->index == 4 * list[0].slot + 3 && ((last->new ^ list[store_count - 1].after[3]) & 1) == 0)
                return fails(3, "the first TRB was published before this change", changes[c].index / 4);
            last = &changes[c];
        }
    if (deferred() && (!last || last->index != 4 * list[0].slot + 3 || (last->old ^ last->new) != 1))
        return fails(3, "the last change is not that of the first TRB's cycle bit", list[0].slot);
    return 0;
}

static int ends_otherwise(const struct dock *end, uint32_t no) {
    const struct dock *d = &shared->d;
    const uint64_t done[THN_ANSWER_WORDS] = {2, end->answer[2], end->answer[3]}, none[THN_ANSWER_WORDS] = {0}; /* without the last store's slot */
    if (shared->no != no || memcmp(d->answer, no == 0 ? done : none, sizeof done) != 0)
        return fails(5, "the answer differs", 0);
    if (memcmp(d->state, end->state, sizeof d->state) != 0)
        return fails(5, "the endpoint differs", 0);
    if (memcmp(d->records, end->records, sizeof d->records) != 0 || memcmp(d->packets, end->packets, sizeof d->packets) != 0)
        return fails(5, "the records or the packets differ", 0);
    if (memcmp(d->ring, end->ring, 16 * d->slots) != 0 || memcmp(d->finished, end->finished, 16 * d->slots) != 0)
        return fails(5, "the ring or the finished table differs", 0);
    return no != 0 && change_count != 0 && fails(5, "a refused call changed a word", changes[0].index / 4);
}

static int taken_otherwise(void) {
    long last = 0;
    for (size_t c = 0; c < change_count; c++)
        last = changes[c].finished ? last : changes[c].step;
    told.taken += (long)controller.taken;
    if (controller.wrong || controller.taken != trb_count || (deferred() && controller.first != last))
        return fails(6, "the controller took another TRB, or one too early", controller.slot);
    return 0;
}

/* One submission: laid out, watched, and held against the rules. Not 0 where one is broken. */
static int try(const struct dock *from, size_t place, int cycle, const struct request *r, int slip, int marked) {
    static struct dock end;
    struct dock *d = &shared->d;
    uint32_t no;
    end = *d = *from;
    shared->r = *r;
    shared->slip = slip;
    store_count = one_by_one(&end, r, list, &no);
    age(d, place, (uint32_t)cycle);
    end = *d;
    store_count = one_by_one(&end, r, list, &no);
    trb_count = 0;
    for (size_t k = 0; k < store_count; k++) {
        told.links += list[k].slot == d->slots - 1;
        if (list[k].clears)
            trbs[trb_count++] = list[k];
    }
    if (deferred())
        memcpy(trbs[0].after, list[store_count - 1].after, 16);
    memset(&controller, 0, sizeof controller);
    controller.slot = place;
    controller.cycle = (uint32_t)cycle;
    watch(marked);
    told.submissions++;
    told.stores += (long)store_count;
    told.deferred += deferred();
    return out_of_turn(marked) | published() | ends_otherwise(&end, no) | (!marked && taken_otherwise());
}

/* ---- the cases */

static const struct kind {
    const char *name;
    uint64_t words[THN_REQUEST_WORDS];
    size_t trbs; /* for ISO the packets; 64: as many as fit, 65: one more */
    uint32_t no;
} kinds[] = {
    {"control in, data", {0, 0, 0x80, 6, 0x100, 0, 0x20000, 18}, 3, 0}, /* document 01's */
    {"control out, data", {0, 0, 0x21, 9, 0x200, 1, 0x900020000, 64}, 3, 0},
    {"control in, none", {0, 0, 0xa1, 1, 0x300, 2, 0, 0}, 2, 0},
    {"control out, none", {0, 0, 0x00, 5, 7, 0, 0, 0}, 2, 0},
    {"bulk in", {1, 1, 0, 0, 0, 0, 0x900030000, 512}, 1, 0},
    {"bulk out", {1, 0, 0, 0, 0, 0, 0x900030000, 65536}, 1, 0},
    {"interrupt in", {2, 1, 0, 0, 0, 0, 0x900040000, 8}, 1, 0},
    {"iso in, 1 packet", {3, 1, 0, 0, 0, 0, 0x900050000, 65536}, 1, 0},
    {"iso in, 2 packets", {3, 1, 0, 0, 0, 0, 0x900050000, 65536}, 2, 0},
    {"iso in, 3 packets", {3, 1, 0, 0, 0, 0, 0x900050000, 65536}, 3, 0},
    {"iso out, all", {3, 0, 0, 0, 0, 0, 0x900060000, 65536}, 64, 0},
    {"refused (2), iso", {3, 1, 0, 0, 0, 0, 0x900050000, 65536}, 65, 2},
    {"refused (3), control", {0, 0, 0x80, 6, 0x100, 0, 0x20000, 65536}, 3, 3},
    {"refused (5), bulk", {1, 1, 0, 0, 0, 0, 0xfffffffffff0, 512}, 1, 5},
};
#define KINDS (sizeof kinds / sizeof kinds[0])
static long table[KINDS][4];

/* 0 where the ring does not admit so many TRBs, or, for answer 2, admits more than a request may have. */
static int ask(struct request *r, const struct kind *k, size_t slots) {
    size_t n = k->trbs == 65 ? slots - 1 : k->trbs == 64 && slots < 66 ? slots - 2 : k->trbs;
    if (n > (k->no == 2 ? THN_PACKETS : slots - 2))
        return 0;
    memset(r, 0, sizeof *r);
    memcpy(r->words, k->words, sizeof r->words);
    r->count = k->words[0] == 3 ? n : 0;
    for (size_t i = 0; i < r->count; i++)
        r->lengths[i] = i % 5 == 3 ? 0 : 100 + 28 * (i % 4);
    return 1;
}

static void complain(const char *name, size_t slots, size_t place, int cycle, int marked) {
    if (++told.out_of_order <= 20)
        printf("OUT OF ORDER: %s, L %zu, place %zu, cycle %d%s: %s\n", name, slots, place, cycle, marked ? ", marked" : "", why);
}

/* Every request at a place, watched twice. */
static void at_place(size_t slots, size_t place, int cycle) {
    static struct dock d;
    struct request r;
    walk(&d, slots, place, cycle);
    for (size_t i = 0; i < KINDS; i++)
        for (int marked = 0; marked < 2 && ask(&r, &kinds[i], slots); marked++) {
            size_t link = 0;
            if (try(&d, place, cycle, &r, SHIPPED, marked) | (shared->no != kinds[i].no))
                complain(kinds[i].name, slots, place, cycle, marked);
            for (size_t k = 0; k < store_count; k++)
                link = list[k].slot == slots - 1 ? k : link;
            table[i][link == 0 ? 0 : link == trb_count ? 3 : link == 1 ? 1 : 2]++;
        }
}

/* What the instructions of one submission change, a line for each that changes a word. */
static void show(size_t kind, size_t slots, size_t place, int cycle, const char *where) {
    static struct dock d;
    struct request r;
    walk(&d, slots, place, cycle);
    ask(&r, &kinds[kind], slots);
    try(&d, place, cycle, &r, SHIPPED, 0);
    printf("%s; L %zu, place %zu, cycle %d: %s\n", kinds[kind].name, slots, place, cycle, where);
    for (size_t c = 0, n = 1; c < change_count; n++) {
        long step = changes[c].step;
        printf("  %zu  %-8s %2zu ", n, changes[c].finished ? "finished" : "ring", changes[c].index / 4);
        for (; c < change_count && changes[c].step == step; c++)
            printf(" w%zu %08x", changes[c].index % 4, changes[c].new);
        printf("\n");
    }
    printf("\n");
}

/* W10 as document 01 has it: the slots in order, and their w3. */
static int is_w10(void) {
    static const uint32_t w10[][2] = {{3, 0x00030840}, {4, 0x00001803}, {0, 0x00010c04}, {1, 0x00001020}, {3, 0x00030841}};
    size_t k = 0;
    for (size_t c = 0; c < change_count; c++)
        if (!changes[c].finished && changes[c].index % 4 == 3) {
            if (k == 5 || changes[c].index / 4 != w10[k][0] || changes[c].new != w10[k][1])
                return 0;
            k++;
        }
    return k == 5;
}

static int archive(void) {
    static const size_t further[][2] = {{64, 0}, {64, 40}, {64, 61}, {64, 62}, {4096, 4093}, {4096, 4094}};
    show(0, 5, 3, 1, "the link between setup and data (document 01's W10)");
    int w10 = is_w10();
    show(0, 5, 2, 0, "the link between data and status");
    show(0, 5, 1, 1, "the link behind the status");
    show(9, 5, 2, 0, "the link between the second packet and the third");
    show(4, 5, 3, 1, "the link behind the TRB");
    show(4, 5, 1, 0, "no link");
    memset(&told, 0, sizeof told);
    memset(broken, 0, sizeof broken);
    snprintf(why, sizeof why, "the stores are not those that the document has");
    if (!w10)
        complain("document 01's W10", 5, 3, 1, 0);
    for (int cycle = 1; cycle >= 0; cycle--) {
        for (size_t slots = 3; slots <= 8; slots++)
            for (size_t place = 0; place + 1 < slots; place++)
                at_place(slots, place, cycle);
        for (size_t i = 0; i < sizeof further / sizeof further[0]; i++)
            at_place(further[i][0], further[i][1], cycle);
    }
    printf("L 3 to 8 from every place, L 64 from 0, 40, 61 and 62, L 4,096 from 4,093 and 4,094; cycle 1 and cycle 0; untouched and marked.\n");
    printf("%-20s %8s %16s %15s %16s\n", "submissions", "no link", "link behind 1st", "behind a later", "behind the last");
    for (size_t i = 0; i < KINDS; i++)
        printf("%-20s %8ld %16ld %15ld %16ld\n", kinds[i].name, table[i][0], table[i][1], table[i][2], table[i][3]);
    printf("\nrule 1  %ld stores, each in its turn: broken %ld\n", told.stores, broken[1]);
    printf("told 2  the four words of a store: by one instruction %ld, w3 last %ld, another behind w3 %ld\n", told.at_once, told.w3_last, told.w3_not_last);
    printf("rule 3  %ld links behind their TRBs, %ld first TRBs published last: broken %ld\n", told.links, told.deferred, broken[3]);
    printf("rule 4  places cleared before their TRB's words %ld, behind them %ld, among them %ld: broken %ld\n", told.ahead, told.behind, told.among,
           broken[4]);
    printf("rule 5  %ld ends as those of the stores one by one: broken %ld\n", told.submissions, broken[5]);
    printf("rule 6  %ld TRBs taken by the controller, in parts %ld: broken %ld\n", told.taken, told.in_parts, broken[6]);
    printf("%ld submissions, %ld stores, %ld out of order\n", told.submissions, told.stores, told.out_of_order);
    return told.out_of_order != 0;
}

/* Each slip in every request from every place of a ring of five slots, watched untouched and marked: one of the two must find it. */
static int planted(void) {
    static struct dock d;
    struct request r;
    long missed = 0;
    printf("%-16s %7s %6s %7s  %-8s %s\n", "slip", "planted", "found", "marked", "by rules", "what it does");
    for (int slip = 0; slip < slip_count; slip++) {
        long tried = 0, found[2] = {0, 0};
        char rules[40] = "";
        memset(broken, 0, sizeof broken);
        for (int n = 0; n < 8; n++) {
            walk(&d, 5, (size_t)n / 2, n % 2);
            for (size_t i = 0; i < KINDS; i++)
                if (ask(&r, &kinds[i], 5) && plan(slip, &d, &r)) {
                    int untouched = try(&d, (size_t)n / 2, n % 2, &r, slip, 0) != 0, marked = try(&d, (size_t)n / 2, n % 2, &r, slip, 1) != 0;
                    tried++;
                    found[0] += untouched;
                    found[1] += marked;
                    missed += (untouched || marked) != (slip != 0);
                }
        }
        for (int rule = 1; rule < 7; rule++)
            if (broken[rule])
                snprintf(rules + strlen(rules), sizeof rules - strlen(rules), "%s%d", *rules ? ", " : "", rule);
        printf("%-16s %7ld %6ld %7ld  %-8s %s\n", slips[slip].name, tried, found[0], found[1], rules, slips[slip].what);
    }
    printf("%d slips planted, %ld submissions judged wrongly\n\n", slip_count - 1, missed);
    return missed != 0;
}

/* ---- the divisions */

/* The instruction that is next: prefixes, then f6 or f7 with 6 (div) or 7 (idiv) in the middle bits of the byte behind it. */
static int divides(void) {
    long at = ptrace(PTRACE_PEEKUSER, child, offsetof(struct user, regs.rip), 0), words[2];
    unsigned char code[sizeof words];
    size_t i = 0;
    for (size_t k = 0; k < 2; k++)
        words[k] = ptrace(PTRACE_PEEKTEXT, child, at + 8 * (long)k, 0);
    memcpy(code, words, sizeof code);
    while (i < 8 && code[i] != 0 && strchr("\x66\x67\xf2\xf3", code[i]) != NULL)
        i++;
    i += (code[i] & 0xf0) == 0x40;
    return (code[i] & 0xfe) == 0xf6 && (code[i + 1] >> 3 & 7) >= 6;
}

/* How a length is sent, by document 01's sums: P packets, B to a burst. */
enum way { NO_SIZE, ONE_PACKET, ONE_BURST, MORE, WAYS };
static const struct {
    const char *name;
    long divisions;
} ways[WAYS] = {{"max packet size 0", 0}, {"length at most max packet", 0}, {"P at most B", 1}, {"P above B", 2}};

static enum way way(uint64_t length, uint64_t packet, uint64_t burst) {
    if (packet == 0)
        return NO_SIZE;
    return length <= packet ? ONE_PACKET : (length + packet - 1) / packet <= burst + 1 ? ONE_BURST : MORE;
}

/* A request of three packets: two of a length and an empty one between them, which needs no division, or three alike. Answers how many divisions it made. */
static long divided(uint64_t packet, uint64_t burst, uint64_t length, int same, int how) {
    struct dock *d = &shared->d;
    long count = 0;
    walk(d, 8, 0, 1);
    memset(d->answer, 0, sizeof d->answer);
    if (thn_configure(STATE(d), (uint16_t)packet, (uint8_t)burst, 1) != 0)
        die("configure was refused");
    shared->r = (struct request){{3, 1, 0, 0, 0, 0, 0x20000, 3 * 65536}, {length, same ? length : 0, length}, 3};
    shared->slip = how;
    shared->over = 0;
    go(PTRACE_CONT, SIGSTOP);
    for (; !shared->over; instructions++) {
        count += divides();
        go(PTRACE_SINGLESTEP, SIGTRAP);
    }
    if (shared->no != 0)
        die("a request of three packets was refused");
    go(PTRACE_CONT, SIGSTOP);
    return count;
}

/* Lengths at the ends of a packet, a burst, two, and of what both counts can say, each with the next one. */
static int divisions(void) {
    static const uint64_t packets[] = {0, 1, 64, 192, 1024, 65535}, bursts[] = {0, 2, 15, 255};
    struct {
        long cases, whole, stores, alike;
    } found[WAYS] = {{0, 0, 0, 0}};
    long lengths = 0, otherwise = 0;
    for (size_t p = 0; p < sizeof packets / sizeof packets[0]; p++)
        for (size_t b = 0; b < sizeof bursts / sizeof bursts[0]; b++) {
            const uint64_t one = packets[p], each = bursts[b] + 1, ends[] = {0, one, one * each, 2 * one * each, 16 * one, 32 * one * each, 65535};
            static char tried[65537];
            memset(tried, 0, sizeof tried);
            for (size_t e = 0; e < 2 * sizeof ends / sizeof ends[0]; e++) {
                const uint64_t length = ends[e / 2] + e % 2;
                if (length > 65536 || tried[length]++)
                    continue;
                const enum way w = way(length, one, bursts[b]);
                const long due = ways[w].divisions, whole = divided(one, bursts[b], length, 0, SHIPPED),
                           stores = divided(one, bursts[b], length, 0, STORES), alike = divided(one, bursts[b], length, 1, SHIPPED);
                if ((whole != 2 * due || stores != 2 * due || alike != due) && otherwise++ < 20)
                    printf("OTHERWISE: length %lu, max packet %lu, burst %lu: two packets %ld whole, %ld store by store; three alike %ld\n",
                           (unsigned long)length, (unsigned long)one, (unsigned long)bursts[b], whole, stores, alike);
                found[w].cases++, found[w].whole += whole, found[w].stores += stores, found[w].alike += alike;
                lengths++;
            }
        }
    printf("P packets of the max packet size, B to a burst; a request of two packets of one length, an empty one between them, and one of three alike\n");
    printf("%-26s %7s %8s %14s %15s %22s\n", "divisions", "lengths", "a packet", "of two, whole", "store by store", "of three alike, whole");
    for (int w = 0; w < WAYS; w++)
        printf("%-26s %7ld %8ld %14ld %15ld %22ld\n", ways[w].name, found[w].cases, ways[w].divisions, found[w].whole, found[w].stores, found[w].alike);
    printf("%ld lengths, %ld otherwise\n\n", lengths, otherwise);
    return otherwise != 0;
}

int main(int argc, char **argv) {
    const char *what = argc > 1 ? argv[1] : "";
    cpu_set_t one; /* the two processes go by turns, faster on one core than on two */
    CPU_ZERO(&one);
    CPU_SET(sched_getcpu(), &one);
    sched_setaffinity(0, sizeof one, &one);
    shared = mmap(NULL, sizeof *shared, PROT_READ | PROT_WRITE, MAP_SHARED | MAP_ANONYMOUS, -1, 0);
    if (shared == MAP_FAILED || (child = fork()) < 0)
        die("no memory or no process");
    if (child == 0)
        serve();
    stopped_by(SIGSTOP);
    if (ptrace(PTRACE_SETOPTIONS, child, 0, PTRACE_O_EXITKILL) != 0)
        die("this machine does not allow ptrace");
    int bad = strcmp(what, "planted") == 0 ? planted() : strcmp(what, "divisions") == 0 ? divisions() : archive();
    fflush(stdout);
    fprintf(stderr, "stepper: %ld instructions watched\n", instructions);
    return bad;
}
