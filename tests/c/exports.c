/* Each call of the handles of robiniagolf/rcu.h in each state of a handle: -DFLAVOUR=memb, or -DFLAVOUR=qsbr -DQSBR.
 * Prints a line for each answer that is not what the header says, and ends with how many there are.
 *
 * exports         all but the words below
 * exports deep    as many locks as a reader may have open
 * exports memory  the calls that allocate; with refuse.c one request is refused, and the call has to tell it, leave its
 *                 handles as they were, and succeed when it is made again */
#include "flavour.h"

#include <malloc.h>
#include <stdio.h>
#include <string.h>

static int failed;

static void agree(const char *what, uint64_t got, uint64_t wanted)
{
    if (got == wanted)
        return;
    printf("exports: %s: %llu, and not %llu\n", what, (unsigned long long)got, (unsigned long long)wanted);
    failed++;
}

/* A refusal leaves the handle as it was. The bytes between its fields may have changed: no call gives them a meaning. */
#define REFUSED(what, call, handle, wanted)                                                                            \
    do {                                                                                                               \
        bool full = (handle).full;                                                                                     \
        void *kept = (handle).kept;                                                                                    \
        agree(what, call, wanted);                                                                                     \
        agree(what ", the handle", (handle).full != full || (handle).kept != kept, 0);                                 \
    } while (0)

static void new_domain(DOMAIN *domain, GRACE *grace, size_t slots)
{
    memset(domain, 0, sizeof *domain);
    memset(grace, 0, sizeof *grace);
    agree("domain_new", CALL(domain_new)(domain, grace, slots), DONE);
}

static void new_reader(DOMAIN *domain, READER *reader)
{
    memset(reader, 0, sizeof *reader);
    agree("reader_register", CALL(reader_register)(domain, reader), DONE);
}

static void free_domain(DOMAIN *domain, GRACE *grace)
{
    agree("domain_free", CALL(domain_free)(domain), DONE);
    agree("grace_free", CALL(grace_free)(grace), DONE);
}

static uint64_t asked(GRACE *grace)
{
    uint64_t cookie = 0;

    agree("grace_ask", CALL(grace_ask)(grace, &cookie), DONE);
    return cookie;
}

static void empty_handles(void)
{
    DOMAIN domain = { false, NULL };
    GRACE grace = { false, NULL };
    READER reader = { false, NULL };
    uint64_t cookie = 7;

    REFUSED("no slots", CALL(domain_new)(&domain, &grace, 0), domain, BAD_CONFIG);
    REFUSED("257 slots", CALL(domain_new)(&domain, &grace, 257), grace, BAD_CONFIG);
    REFUSED("domain_free of none", CALL(domain_free)(&domain), domain, EMPTY);
    REFUSED("grace_free of none", CALL(grace_free)(&grace), grace, EMPTY);
    REFUSED("register with none", CALL(reader_register)(&domain, &reader), reader, EMPTY);
    REFUSED("unregister of none", CALL(reader_unregister)(&reader), reader, EMPTY);
    REFUSED("lock of none", CALL(reader_lock)(&reader), reader, EMPTY);
    REFUSED("unlock of none", CALL(reader_unlock)(&reader), reader, EMPTY);
    REFUSED("end of none", CALL(reader_end)(&reader), reader, EMPTY);
    REFUSED("depth of none", CALL(reader_depth)(&reader), reader, 0);
    REFUSED("ask of none", CALL(grace_ask)(&grace, &cookie), grace, EMPTY);
    agree("the cookie", cookie, 7);
    REFUSED("poll of none", CALL(grace_poll)(&grace, 0), grace, EMPTY);
    REFUSED("step of none", CALL(grace_step)(&grace, 0), grace, EMPTY);
#ifdef QSBR
    REFUSED("online of none", robiniagolf_qsbr_reader_online(&reader), reader, EMPTY);
    REFUSED("offline of none", robiniagolf_qsbr_reader_offline(&reader), reader, EMPTY);
    REFUSED("quiescent of none", robiniagolf_qsbr_reader_quiescent(&reader), reader, EMPTY);
    REFUSED("is_online of none", robiniagolf_qsbr_reader_is_online(&reader), reader, EMPTY);
#endif
}

static void handles_in_use(void)
{
    DOMAIN domain, no_domain = { false, NULL };
    GRACE grace, no_grace = { false, NULL };
    READER reader;

    new_domain(&domain, &grace, 4);
    REFUSED("both in use", CALL(domain_new)(&domain, &grace, 4), domain, IN_USE);
    REFUSED("the domain in use", CALL(domain_new)(&domain, &no_grace, 4), domain, IN_USE);
    REFUSED("the grace in use", CALL(domain_new)(&no_domain, &grace, 4), grace, IN_USE);
    agree("no domain is made", no_domain.full || no_grace.full, 0);
    new_reader(&domain, &reader);
    REFUSED("the reader in use", CALL(reader_register)(&domain, &reader), reader, IN_USE);
    agree("unregister", CALL(reader_unregister)(&reader), DONE);
    agree("unregister empties", reader.full, 0);
    agree("unregister again", CALL(reader_unregister)(&reader), EMPTY);
    free_domain(&domain, &grace);
    agree("freeing empties", domain.full || grace.full, 0);
    agree("domain_free again", CALL(domain_free)(&domain), EMPTY);
    agree("grace_free again", CALL(grace_free)(&grace), EMPTY);
}

/* Each number of slots gives that many readers, and a slot that is given back is there again. */
static void slots(size_t count)
{
    static READER readers[256];
    READER extra = { false, NULL };
    DOMAIN domain;
    GRACE grace;

    new_domain(&domain, &grace, count);
    for (size_t i = 0; i < count; i++)
        new_reader(&domain, &readers[i]);
    for (size_t i = 0; i < count; i++) {
        REFUSED("no slot", CALL(reader_register)(&domain, &extra), extra, NO_SLOT);
        agree("a slot is given back", CALL(reader_unregister)(&readers[i]), DONE);
        new_reader(&domain, &readers[i]);
    }
    for (size_t i = 0; i < count; i++)
        agree("unregister", CALL(reader_unregister)(&readers[i]), DONE);
    free_domain(&domain, &grace);
}

#ifdef QSBR

static void states_of_qsbr(void)
{
    DOMAIN domain;
    GRACE grace;
    READER reader;

    new_domain(&domain, &grace, 1);
    new_reader(&domain, &reader);
    REFUSED("offline: is_online", robiniagolf_qsbr_reader_is_online(&reader), reader, NOT_OPEN);
    REFUSED("offline: lock", CALL(reader_lock)(&reader), reader, NOT_OPEN);
    REFUSED("offline: unlock", CALL(reader_unlock)(&reader), reader, NOT_OPEN);
    REFUSED("offline: offline", robiniagolf_qsbr_reader_offline(&reader), reader, NOT_OPEN);
    REFUSED("offline: quiescent", robiniagolf_qsbr_reader_quiescent(&reader), reader, NOT_OPEN);
    agree("offline: online", robiniagolf_qsbr_reader_online(&reader), DONE);
    agree("online: is_online", robiniagolf_qsbr_reader_is_online(&reader), DONE);
    REFUSED("online: online", robiniagolf_qsbr_reader_online(&reader), reader, BUSY);
    agree("online: quiescent", robiniagolf_qsbr_reader_quiescent(&reader), DONE);
    agree("online: lock", CALL(reader_lock)(&reader), DONE);
    REFUSED("locked: online", robiniagolf_qsbr_reader_online(&reader), reader, BUSY);
    REFUSED("locked: offline", robiniagolf_qsbr_reader_offline(&reader), reader, BUSY);
    REFUSED("locked: quiescent", robiniagolf_qsbr_reader_quiescent(&reader), reader, BUSY);
    REFUSED("locked: unregister", CALL(reader_unregister)(&reader), reader, BUSY);
    agree("locked: is_online", robiniagolf_qsbr_reader_is_online(&reader), DONE);
    agree("locked: unlock", CALL(reader_unlock)(&reader), DONE);
    agree("online: offline", robiniagolf_qsbr_reader_offline(&reader), DONE);
    agree("offline: is_online again", robiniagolf_qsbr_reader_is_online(&reader), NOT_OPEN);
    enter(&reader);
    agree("locked: end", CALL(reader_end)(&reader), DONE);
    agree("ended: is_online", robiniagolf_qsbr_reader_is_online(&reader), NOT_OPEN);
    robiniagolf_qsbr_reader_online(&reader);
    agree("online: unregister", CALL(reader_unregister)(&reader), DONE);
    agree("nobody is in the way", go_on(&grace, asked(&grace)), DONE);
    free_domain(&domain, &grace);
}

/* A quiescent state lets the grace period go on, and the next one waits again. */
static void quiescent_states(void)
{
    DOMAIN domain;
    GRACE grace;
    READER reader;
    uint64_t cookie;

    new_domain(&domain, &grace, 2);
    new_reader(&domain, &reader);
    robiniagolf_qsbr_reader_online(&reader);
    for (int i = 0; i < 3; i++) {
        cookie = asked(&grace);
        agree("online: in the way", go_on(&grace, cookie), IN_THE_WAY);
        agree("quiescent", robiniagolf_qsbr_reader_quiescent(&reader), DONE);
        agree("quiescent: over", go_on(&grace, cookie), DONE);
    }
    cookie = asked(&grace);
    agree("online: in the way", go_on(&grace, cookie), IN_THE_WAY);
    agree("offline", robiniagolf_qsbr_reader_offline(&reader), DONE);
    agree("offline: over", go_on(&grace, cookie), DONE);
    agree("unregister", CALL(reader_unregister)(&reader), DONE);
    free_domain(&domain, &grace);
}

#endif

static void locks(void)
{
    DOMAIN domain;
    GRACE grace;
    READER reader;

    new_domain(&domain, &grace, 1);
    new_reader(&domain, &reader);
    agree("idle: depth", CALL(reader_depth)(&reader), 0);
    REFUSED("idle: unlock", CALL(reader_unlock)(&reader), reader, NOT_OPEN);
    agree("idle: end", CALL(reader_end)(&reader), DONE);
    agree("lock", enter(&reader), DONE);
    agree("lock again", CALL(reader_lock)(&reader), DONE);
    agree("depth", CALL(reader_depth)(&reader), 2);
    REFUSED("unregister within a section", CALL(reader_unregister)(&reader), reader, BUSY);
    agree("unlock", CALL(reader_unlock)(&reader), DONE);
    REFUSED("unregister within the outer section", CALL(reader_unregister)(&reader), reader, BUSY);
    agree("last unlock", CALL(reader_unlock)(&reader), DONE);
    REFUSED("unlock once more", CALL(reader_unlock)(&reader), reader, NOT_OPEN);
    for (int i = 0; i < 5; i++)
        enter(&reader);
    agree("five locks", CALL(reader_depth)(&reader), 5);
    agree("end", CALL(reader_end)(&reader), DONE);
    agree("depth after the end", CALL(reader_depth)(&reader), 0);
    agree("nobody is in the way", go_on(&grace, asked(&grace)), DONE);
    agree("unregister", CALL(reader_unregister)(&reader), DONE);
    free_domain(&domain, &grace);
}

/* Each reader in turn is waited for, until its last lock is closed or it is ended. */
static void grace_periods(void)
{
    DOMAIN domain;
    GRACE grace;
    READER readers[5];
    uint64_t cookie;

    new_domain(&domain, &grace, 5);
    for (int i = 0; i < 5; i++)
        new_reader(&domain, &readers[i]);
    for (int i = 0; i < 10; i++) {
        READER *reader = &readers[i % 5];

        enter(reader);
        CALL(reader_lock)(reader);
        cookie = asked(&grace);
        agree("a section: poll", CALL(grace_poll)(&grace, cookie), GO_ON);
        agree("a section: step", go_on(&grace, cookie), IN_THE_WAY);
        CALL(reader_unlock)(reader);
        agree("an outer section: step", go_on(&grace, cookie), IN_THE_WAY);
        agree("an outer section: poll", CALL(grace_poll)(&grace, cookie), GO_ON);
        agree("the end", i < 5 ? leave(reader) : CALL(reader_end)(reader), DONE);
        agree("no section: step", go_on(&grace, cookie), DONE);
        agree("no section: poll", CALL(grace_poll)(&grace, cookie), DONE);
        agree("a later cookie", CALL(grace_poll)(&grace, cookie + 2), GO_ON);
        agree("a reached cookie: step", CALL(grace_step)(&grace, cookie), DONE);
    }
    for (int i = 0; i < 5; i++)
        agree("unregister", CALL(reader_unregister)(&readers[i]), DONE);
    free_domain(&domain, &grace);
}

/* A section that is opened within a grace period, after each number of its steps, is waited for by the next ask. */
static void asks_within_a_period(void)
{
    for (int steps = 0; steps < 6; steps++) {
        DOMAIN domain;
        GRACE grace;
        READER reader, other;
        uint64_t first, second;

        new_domain(&domain, &grace, 2);
        new_reader(&domain, &other);
        new_reader(&domain, &reader);
        first = asked(&grace);
        for (int i = 0; i < steps; i++)
            CALL(grace_step)(&grace, first);
        enter(&reader);
        second = asked(&grace);
        agree("the next ask: step", go_on(&grace, second), IN_THE_WAY);
        agree("the next ask: poll", CALL(grace_poll)(&grace, second), GO_ON);
        leave(&reader);
        agree("the next ask: over", go_on(&grace, second), DONE);
        agree("the first ask: over", CALL(grace_poll)(&grace, first), DONE);
        CALL(reader_unregister)(&reader);
        CALL(reader_unregister)(&other);
        free_domain(&domain, &grace);
    }
}

/* What the handles share goes on until the last of them is freed, in each order. */
static void shared_words(int order)
{
    DOMAIN domain;
    GRACE grace;
    READER reader;
    uint64_t cookie;

    new_domain(&domain, &grace, 1);
    new_reader(&domain, &reader);
    if (order != 0)
        agree("domain_free first", CALL(domain_free)(&domain), DONE);
    enter(&reader);
    cookie = asked(&grace);
    agree("in the way", go_on(&grace, cookie), IN_THE_WAY);
    if (order == 2)
        agree("grace_free amid a period", CALL(grace_free)(&grace), DONE);
    agree("leave", leave(&reader), DONE);
    if (order != 2)
        agree("over", go_on(&grace, cookie), DONE);
    if (order == 1)
        agree("grace_free before unregister", CALL(grace_free)(&grace), DONE);
    agree("unregister", CALL(reader_unregister)(&reader), DONE);
    if (order == 0)
        free_domain(&domain, &grace);
}

static void all(void)
{
    empty_handles();
    handles_in_use();
    slots(1);
    slots(3);
    slots(64);
    slots(65);
    slots(256);
    locks();
#ifdef QSBR
    states_of_qsbr();
    quiescent_states();
#endif
    grace_periods();
    asks_within_a_period();
    shared_words(0);
    shared_words(1);
    shared_words(2);
}

/* All of it takes no memory for good. */
static void freed_handles(void)
{
#if defined(__GLIBC__) && (__GLIBC__ > 2 || __GLIBC_MINOR__ >= 33)
    size_t before;

    all();
    before = mallinfo2().uordblks;
    for (int i = 0; i < 10; i++)
        all();
    agree("memory afterwards", mallinfo2().uordblks, before);
#endif
}

static void deep(void)
{
    DOMAIN domain;
    GRACE grace;
    READER reader;
    uint32_t said = 0;

    new_domain(&domain, &grace, 1);
    new_reader(&domain, &reader);
    enter(&reader);
    for (long i = 1; i < 2147483647; i++)
        said |= CALL(reader_lock)(&reader);
    agree("2147483647 locks", said, DONE);
    agree("their depth", CALL(reader_depth)(&reader), 2147483647);
    REFUSED("one lock more", CALL(reader_lock)(&reader), reader, NEST_FULL);
    agree("unlock", CALL(reader_unlock)(&reader), DONE);
    agree("lock", CALL(reader_lock)(&reader), DONE);
    agree("in the way", go_on(&grace, asked(&grace)), IN_THE_WAY);
    agree("end", CALL(reader_end)(&reader), DONE);
    agree("depth", CALL(reader_depth)(&reader), 0);
    agree("unregister", CALL(reader_unregister)(&reader), DONE);
    free_domain(&domain, &grace);
}

/* The handles are as they were where memory is refused, no slot is lost, and the call succeeds again. */
static void memory(void)
{
    DOMAIN domain = { false, NULL };
    GRACE grace = { false, NULL };
    READER readers[3] = { { false, NULL }, { false, NULL }, { false, NULL } };
    uint32_t said = CALL(domain_new)(&domain, &grace, 3);
    int told = said == MEMORY;

    if (said == MEMORY) {
        agree("refused memory: the handles", domain.full || grace.full, 0);
        said = CALL(domain_new)(&domain, &grace, 3);
    }
    agree("domain_new", said, DONE);
    for (int i = 0; i < 3; i++) {
        said = CALL(reader_register)(&domain, &readers[i]);
        if (said == MEMORY) {
            agree("refused memory: the reader", readers[i].full, 0);
            told++;
            said = CALL(reader_register)(&domain, &readers[i]);
        }
        agree("reader_register", said, DONE);
    }
    for (int i = 0; i < 3; i++) {
        agree("lock", enter(&readers[i]), DONE);
        agree("in the way", go_on(&grace, asked(&grace)), IN_THE_WAY);
        agree("unlock", leave(&readers[i]), DONE);
        agree("over", go_on(&grace, asked(&grace)), DONE);
    }
    for (int i = 0; i < 3; i++)
        agree("unregister", CALL(reader_unregister)(&readers[i]), DONE);
    free_domain(&domain, &grace);
    fprintf(stderr, "told %d\n", told);
}

int main(int count, char **words)
{
    if (count > 1 && strcmp(words[1], "deep") == 0)
        deep();
    else if (count > 1 && strcmp(words[1], "memory") == 0)
        memory();
    else
        freed_handles();
    return failed > 255 ? 255 : failed;
}
