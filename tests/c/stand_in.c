/* The handles of robiniagolf/rcu.h in plain C, in place of the proved library: for tests of what stands above it, and
 * as the base of wrong ones that the tests have to notice. tests/c/stand-in builds an archive of it.
 *
 * memb: two flips with a scan after each; qsbr: a number. The sequence number is odd while a grace period is going.
 * -DDELAY has a reader wait now and then between its two steps, so that rare orders come often. -DBROKEN=N is wrong:
 *
 *   1  a grace period waits for nobody            2  one flip, one scan
 *   3  no scan after the second flip              4  a cookie is reached by the grace period that is going already
 *   5  the slot claimed last is never looked at   6  an inner unlock ends the section
 *   7  a lock opens nothing                       8  a slot is given back while a section is open
 *   9  a registration claims two slots           10  a poll is content one step early */
#include <robiniagolf/judge.h>
#include <robiniagolf/rcu.h>

#include <stdatomic.h>
#include <stdlib.h>
#include <unistd.h>

#ifndef BROKEN
#define BROKEN 0
#endif

#define DEPTH UINT64_C(0x7fffffff) /* of a word of memb: how many locks are open */
#define PHASE (UINT64_C(1) << 32)
#define EXPORT(answer) __attribute__((visibility("default"))) answer

enum {
    DONE = ROBINIAGOLF_RCU_DONE,
    GO_ON = ROBINIAGOLF_RCU_GO_ON,
    EMPTY = ROBINIAGOLF_RCU_EMPTY,
    BUSY = ROBINIAGOLF_RCU_BUSY,
    NOT_OPEN = ROBINIAGOLF_RCU_NOT_OPEN
};

/* Each handle of rcu.h looks like this. */
struct handle {
    bool full;
    void *kept;
} __attribute__((may_alias));

struct slot {
    _Atomic uint64_t word; /* memb: phase and depth; qsbr: the number that was announced, 0 offline */
    atomic_bool claimed;
    char pad[112];
};

struct table {
    _Atomic uint64_t now; /* what a reader's word takes on */
    char pad[120];
    _Atomic uint64_t sequence;
    atomic_uint owners;
    bool qsbr;
    size_t slots;
    struct slot slot[];
};

struct grace {
    struct table *table;
    int flips; /* that are still to come */
    size_t at; /* the slot to look at next */
};

struct reader {
    struct table *table;
    struct slot *slot;
    uint64_t depth; /* where the word does not count the locks */
};

static void *fill(struct handle *handle, size_t size)
{
    void *kept = malloc(size);

    if (kept) {
        handle->kept = kept;
        handle->full = true;
    }
    return kept;
}

static void disown(struct table *table)
{
    if (atomic_fetch_sub(&table->owners, 1) == 1)
        free(table);
}

static uint32_t domain_new(struct handle *domain, struct handle *grace, size_t slots, bool qsbr)
{
    struct table *table;
    struct grace *kept;

    if (domain->full || grace->full)
        return ROBINIAGOLF_RCU_IN_USE;
    if (slots < 1 || slots > 256)
        return ROBINIAGOLF_RCU_BAD_CONFIG;
    if (!(table = malloc(sizeof *table + slots * sizeof table->slot[0])))
        return ROBINIAGOLF_RCU_MEMORY;
    if (!(kept = fill(grace, sizeof *kept))) {
        free(table);
        return ROBINIAGOLF_RCU_MEMORY;
    }
    atomic_init(&table->now, 1);
    atomic_init(&table->sequence, 0);
    atomic_init(&table->owners, 2);
    table->qsbr = qsbr;
    table->slots = slots;
    for (size_t i = 0; i < slots; i++) {
        atomic_init(&table->slot[i].word, 0);
        atomic_init(&table->slot[i].claimed, false);
    }
    *kept = (struct grace){ .table = table };
    *domain = (struct handle){ true, table };
    return DONE;
}

static uint32_t domain_free(struct handle *domain)
{
    if (!domain->full)
        return EMPTY;
    disown(domain->kept);
    *domain = (struct handle){ false, NULL };
    return DONE;
}

static uint32_t grace_free(struct handle *handle)
{
    struct grace *grace = handle->kept;

    if (!handle->full)
        return EMPTY;
    disown(grace->table);
    free(grace);
    *handle = (struct handle){ false, NULL };
    return DONE;
}

static struct slot *claim(struct table *table)
{
    for (size_t i = 0; i < table->slots; i++)
        if (!atomic_load(&table->slot[i].claimed) && !atomic_exchange(&table->slot[i].claimed, true))
            return &table->slot[i];
    return NULL;
}

static uint32_t reader_register(struct handle *domain, struct handle *handle)
{
    struct table *table = domain->kept;
    struct reader *reader;
    struct slot *slot;

    if (handle->full)
        return ROBINIAGOLF_RCU_IN_USE;
    if (!domain->full)
        return EMPTY;
    if (!(slot = claim(table)))
        return ROBINIAGOLF_RCU_NO_SLOT;
    if (BROKEN == 9)
        claim(table);
    if (!(reader = fill(handle, sizeof *reader))) {
        atomic_store(&slot->claimed, false);
        return ROBINIAGOLF_RCU_MEMORY;
    }
    *reader = (struct reader){ .table = table, .slot = slot };
    atomic_fetch_add(&table->owners, 1);
    return DONE;
}

static bool counts_apart(const struct reader *reader)
{
    return reader->table->qsbr || BROKEN == 7;
}

static uint64_t reader_depth(const struct handle *handle)
{
    const struct reader *reader = handle->kept;

    if (!handle->full)
        return 0;
    return counts_apart(reader) ? reader->depth : atomic_load(&reader->slot->word) & DEPTH;
}

static uint32_t reader_end(struct handle *handle)
{
    struct reader *reader = handle->kept;

    if (!handle->full)
        return EMPTY;
    reader->depth = 0;
    atomic_store(&reader->slot->word, 0);
    return DONE;
}

static uint32_t reader_unregister(struct handle *handle)
{
    struct reader *reader = handle->kept;

    if (!handle->full)
        return EMPTY;
    if (reader_depth(handle) > 0 && BROKEN != 8)
        return BUSY;
    atomic_store(&reader->slot->word, 0);
    atomic_store(&reader->slot->claimed, false);
    disown(reader->table);
    free(reader);
    *handle = (struct handle){ false, NULL };
    return DONE;
}

/* Between the load of the phase and the store of the word. */
static void delay(void)
{
#ifdef DELAY
    static __thread unsigned number = 1;

    number = number * 1103515245 + 12345;
    if ((number >> 16) % 64 == 0)
        usleep((number >> 24) % 64);
#endif
}

static uint32_t lock_memb(struct reader *reader)
{
    _Atomic uint64_t *word = &reader->slot->word;
    uint64_t before = atomic_load_explicit(word, memory_order_relaxed), now;

    if ((before & DEPTH) == DEPTH)
        return ROBINIAGOLF_RCU_NEST_FULL;
    if ((before & DEPTH) > 0) {
        atomic_store_explicit(word, before + 1, memory_order_relaxed);
        return DONE;
    }
    now = atomic_load(&reader->table->now);
    delay();
    atomic_exchange(word, now);
    return DONE;
}

static uint32_t reader_lock(struct handle *handle)
{
    struct reader *reader = handle->kept;

    if (!handle->full)
        return EMPTY;
    if (!counts_apart(reader))
        return lock_memb(reader);
    if (reader->table->qsbr && atomic_load_explicit(&reader->slot->word, memory_order_relaxed) == 0)
        return NOT_OPEN;
    if (reader->depth == DEPTH)
        return ROBINIAGOLF_RCU_NEST_FULL;
    reader->depth++;
    return DONE;
}

static uint32_t reader_unlock(struct handle *handle)
{
    struct reader *reader = handle->kept;
    uint64_t word;

    if (!handle->full)
        return EMPTY;
    if (reader_depth(handle) == 0)
        return NOT_OPEN;
    if (counts_apart(reader)) {
        reader->depth--;
        return DONE;
    }
    word = atomic_load_explicit(&reader->slot->word, memory_order_relaxed);
    if ((word & DEPTH) > 1 && BROKEN != 6)
        atomic_store_explicit(&reader->slot->word, word - 1, memory_order_relaxed);
    else
        atomic_store(&reader->slot->word, 0);
    return DONE;
}

static uint32_t reader_is_online(const struct handle *handle)
{
    const struct reader *reader = handle->kept;

    if (!handle->full)
        return EMPTY;
    return atomic_load_explicit(&reader->slot->word, memory_order_relaxed) ? DONE : NOT_OPEN;
}

/* Announces the number of now, or 0, where the reader is online as it has to be. */
static uint32_t announce(struct handle *handle, bool online, bool stays)
{
    struct reader *reader = handle->kept;

    if (!handle->full)
        return EMPTY;
    if ((reader_is_online(handle) == DONE) != online)
        return online ? NOT_OPEN : BUSY;
    if (reader->depth > 0)
        return BUSY;
    atomic_exchange(&reader->slot->word, stays && BROKEN != 7 ? atomic_load(&reader->table->now) : stays);
    return DONE;
}

static uint32_t grace_ask(struct handle *handle, uint64_t *cookie)
{
    struct grace *grace = handle->kept;

    if (!handle->full)
        return EMPTY;
    *cookie = (atomic_load(&grace->table->sequence) + (BROKEN == 4 ? 2 : 3)) & ~UINT64_C(1);
    return DONE;
}

static uint32_t grace_poll(struct handle *handle, uint64_t cookie)
{
    struct grace *grace = handle->kept;

    if (!handle->full)
        return EMPTY;
    return atomic_load(&grace->table->sequence) + (BROKEN == 10) >= cookie ? DONE : GO_ON;
}

static void flip(struct grace *grace)
{
    uint64_t now = atomic_load(&grace->table->now);

    atomic_store(&grace->table->now, grace->table->qsbr ? now + 1 : now ^ PHASE);
    grace->at = 0;
}

static bool is_last(const struct table *table, size_t at)
{
    while (++at < table->slots)
        if (atomic_load(&table->slot[at].claimed))
            return false;
    return true;
}

static bool is_in_the_way(const struct table *table, size_t at)
{
    uint64_t word = atomic_load(&table->slot[at].word), now = atomic_load(&table->now);

    if (BROKEN == 1 || (BROKEN == 5 && is_last(table, at)))
        return false;
    return table->qsbr ? word != 0 && word != now : (word & DEPTH) > 0 && ((word ^ now) & PHASE);
}

static uint32_t grace_step(struct handle *handle, uint64_t cookie)
{
    struct grace *grace = handle->kept;
    uint64_t sequence;

    if (!handle->full || grace_poll(handle, cookie) == DONE)
        return handle->full ? DONE : EMPTY;
    sequence = atomic_load(&grace->table->sequence);
    if (sequence % 2 == 0) {
        atomic_store(&grace->table->sequence, sequence + 1);
        grace->flips = grace->table->qsbr || BROKEN == 2 ? 0 : 1;
        flip(grace);
        return GO_ON;
    }
    for (; grace->at < grace->table->slots; grace->at++)
        if (is_in_the_way(grace->table, grace->at))
            return ROBINIAGOLF_RCU_IN_THE_WAY;
    if (grace->flips-- > 0) {
        flip(grace);
        if (BROKEN == 3)
            grace->at = grace->table->slots;
        return GO_ON;
    }
    atomic_store(&grace->table->sequence, sequence + 1);
    return grace_poll(handle, cookie);
}

#define H(pointer) ((struct handle *)(pointer))
#define CALL(F, ANSWER, NAME, KIND) \
    EXPORT(ANSWER) robiniagolf_##F##_##NAME(struct robiniagolf_##F##_##KIND *handle) { return NAME(H(handle)); }
#define CALL_COOKIE(F, NAME, COOKIE) \
    EXPORT(uint32_t) robiniagolf_##F##_##NAME(struct robiniagolf_##F##_grace *handle, COOKIE cookie) \
    { \
        return NAME(H(handle), cookie); \
    }
#define CALL_QSBR(NAME, ANSWER) \
    EXPORT(uint32_t) robiniagolf_qsbr_reader_##NAME(struct robiniagolf_qsbr_reader *handle) { return ANSWER; }
#define CALLS(F, QSBR) \
    EXPORT(uint32_t) \
    robiniagolf_##F##_domain_new(struct robiniagolf_##F##_domain *d, struct robiniagolf_##F##_grace *g, size_t slots) \
    { \
        return domain_new(H(d), H(g), slots, QSBR); \
    } \
    EXPORT(uint32_t) \
    robiniagolf_##F##_reader_register(struct robiniagolf_##F##_domain *d, struct robiniagolf_##F##_reader *r) \
    { \
        return reader_register(H(d), H(r)); \
    } \
    CALL(F, uint32_t, domain_free, domain) \
    CALL(F, uint32_t, grace_free, grace) \
    CALL(F, uint32_t, reader_unregister, reader) \
    CALL(F, uint32_t, reader_lock, reader) \
    CALL(F, uint32_t, reader_unlock, reader) \
    CALL(F, uint32_t, reader_end, reader) \
    CALL(F, uint64_t, reader_depth, reader) \
    CALL_COOKIE(F, grace_ask, uint64_t *) \
    CALL_COOKIE(F, grace_poll, uint64_t) \
    CALL_COOKIE(F, grace_step, uint64_t)

CALLS(memb, false)
CALLS(qsbr, true)
CALL_QSBR(online, announce(H(handle), false, true))
CALL_QSBR(offline, announce(H(handle), true, false))
CALL_QSBR(quiescent, announce(H(handle), true, true))
CALL_QSBR(is_online, reader_is_online(H(handle)))

/* The judge is not stood in for: each call answers as if malloc refused. */
EXPORT(uint32_t) robiniagolf_judge_new(struct robiniagolf_judge *judge)
{
    (void)judge;
    return ROBINIAGOLF_MEMORY;
}

EXPORT(uint32_t) robiniagolf_judge_feed(struct robiniagolf_judge *judge, const uint8_t *piece, size_t length)
{
    (void)judge, (void)piece, (void)length;
    return ROBINIAGOLF_EMPTY;
}

EXPORT(struct robiniagolf_verdict) robiniagolf_judge_verdict(struct robiniagolf_judge *judge)
{
    (void)judge;
    return (struct robiniagolf_verdict){ .answer = ROBINIAGOLF_EMPTY };
}

EXPORT(struct robiniagolf_verdict) robiniagolf_judge_finish(struct robiniagolf_judge *judge)
{
    return robiniagolf_judge_verdict(judge);
}

EXPORT(uint32_t) robiniagolf_judge_free(struct robiniagolf_judge *judge)
{
    (void)judge;
    return ROBINIAGOLF_EMPTY;
}
