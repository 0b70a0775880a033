/* Readers beside an updater, over the handles of robiniagolf/rcu.h: -DFLAVOUR=memb, or -DFLAVOUR=qsbr -DQSBR.
 *
 * readers sections N  three threads have N sections while objects are replaced, each spoilt after a grace period
 * readers threads N   N threads come, read and go, in a domain of as many slots as there are at one time
 * readers signals N   a thread has N sections, and so has a handler that interrupts it all the time
 *
 * The last line is 'updates U sections S wrong W'. The exit status is 1 where a section saw a spoilt object, and 2
 * where a call answered what it should not. */
#define _GNU_SOURCE
#include "flavour.h"

#include <pthread.h>
#include <sched.h>
#include <signal.h>
#include <stdatomic.h>
#include <stdio.h>
#include <stdlib.h>
#include <string.h>
#include <time.h>
#include <unistd.h>

enum { READERS = 3, OBJECTS = 64, ROUND = 8 };

/* Both numbers are the same while the object may be read. */
struct object {
    _Atomic uint64_t first, second;
};

static struct object objects[OBJECTS];
static _Atomic(struct object *) current = objects;
static DOMAIN domain;
static GRACE grace;
static pthread_mutex_t domain_lock = PTHREAD_MUTEX_INITIALIZER, grace_lock = PTHREAD_MUTEX_INITIALIZER;
static atomic_bool over;
static atomic_ulong updates, sections, wrong;
static atomic_int ready;

static void expect(const char *what, uint32_t said, uint32_t wanted)
{
    if (said == wanted)
        return;
    printf("readers: %s: %u, and not %u\n", what, said, wanted);
    exit(2);
}

static void look(struct object *object)
{
    for (int i = 0; i < 20; i++)
        if (atomic_load_explicit(&object->first, memory_order_relaxed) !=
            atomic_load_explicit(&object->second, memory_order_relaxed))
            atomic_fetch_add(&wrong, 1);
}

/* Now and then a section lasts long enough for an update. */
static void read_once(READER *reader)
{
    struct object *object;

    expect("lock", CALL(reader_lock)(reader), DONE);
    object = atomic_load(&current);
    look(object);
    if (atomic_fetch_add(&sections, 1) % 16 == 0)
        usleep(1);
    look(object);
    expect("unlock", CALL(reader_unlock)(reader), DONE);
}

static void come(READER *reader)
{
    pthread_mutex_lock(&domain_lock);
    expect("register", CALL(reader_register)(&domain, reader), DONE);
    pthread_mutex_unlock(&domain_lock);
#ifdef QSBR
    expect("online", robiniagolf_qsbr_reader_online(reader), DONE);
#endif
}

/* Of qsbr: the thread holds nothing. Now and then it lets another one run. */
static void announce(READER *reader)
{
#ifdef QSBR
    if (atomic_load_explicit(&sections, memory_order_relaxed) % 64 > 0) {
        expect("quiescent", robiniagolf_qsbr_reader_quiescent(reader), DONE);
        return;
    }
    expect("offline", robiniagolf_qsbr_reader_offline(reader), DONE);
    sched_yield();
    expect("online", robiniagolf_qsbr_reader_online(reader), DONE);
#else
    (void)reader;
#endif
}

static void *read_all(void *argument)
{
    READER reader = { false, NULL };

    come(&reader);
    atomic_fetch_add(&ready, 1);
    while (!atomic_load(&over)) {
        read_once(&reader);
        announce(&reader);
    }
    expect("unregister", CALL(reader_unregister)(&reader), DONE);
    return argument;
}

static void synchronize(void)
{
    uint64_t cookie;
    uint32_t said;

    pthread_mutex_lock(&grace_lock);
    expect("ask", CALL(grace_ask)(&grace, &cookie), DONE);
    while ((said = go_on(&grace, cookie)) == IN_THE_WAY) {
        pthread_mutex_unlock(&grace_lock);
        sched_yield();
        pthread_mutex_lock(&grace_lock);
    }
    pthread_mutex_unlock(&grace_lock);
    expect("step", said, DONE);
}

/* Puts another object in the place of the current one, which is spoilt once nobody may hold it. */
static void update(void)
{
    uint64_t number = atomic_fetch_add(&updates, 1) + 1;
    struct object *fresh = &objects[number % OBJECTS], *old;

    atomic_store(&fresh->first, number);
    atomic_store(&fresh->second, number);
    old = atomic_exchange(&current, fresh);
    synchronize();
    atomic_store(&old->second, ~number);
}

static void update_until(unsigned long many)
{
    while (atomic_load(&sections) < many && atomic_load(&wrong) == 0)
        update();
    atomic_store(&over, true);
}

static pthread_t started(void *(*run)(void *), void *argument)
{
    pthread_t thread;

    expect("pthread_create", (uint32_t)pthread_create(&thread, NULL, run, argument), 0);
    return thread;
}

static void read_beside(unsigned long many)
{
    pthread_t threads[READERS];

    for (int i = 0; i < READERS; i++)
        threads[i] = started(read_all, NULL);
    while (atomic_load(&ready) < READERS)
        sched_yield();
    update_until(many);
    for (int i = 0; i < READERS; i++)
        pthread_join(threads[i], NULL);
}

static void *read_some(void *argument)
{
    READER reader = { false, NULL };

    come(&reader);
    for (int i = 0; i < 20; i++)
        read_once(&reader);
    expect("unregister", CALL(reader_unregister)(&reader), DONE);
    return argument;
}

/* As many threads as there are slots, then as many again. */
static void come_and_go(unsigned long many)
{
    pthread_t threads[ROUND];

    for (unsigned long i = 0; i < many / ROUND; i++) {
        for (int k = 0; k < ROUND; k++)
            threads[k] = started(read_some, NULL);
        update();
        for (int k = 0; k < ROUND; k++)
            pthread_join(threads[k], NULL);
    }
}

static READER interrupted;

static void read_in_handler(int signal)
{
    (void)signal;
    read_once(&interrupted);
}

static void *read_interrupted(void *argument)
{
    come(&interrupted);
    atomic_fetch_add(&ready, 1);
    while (!atomic_load(&over)) {
        read_once(&interrupted);
#ifdef QSBR
        expect("quiescent", robiniagolf_qsbr_reader_quiescent(&interrupted), DONE);
#endif
    }
    return argument;
}

static void *interrupt(void *thread)
{
    const struct timespec moment = { 0, 2000 };

    while (!atomic_load(&over)) {
        pthread_kill(*(pthread_t *)thread, SIGUSR1);
        nanosleep(&moment, NULL);
    }
    return NULL;
}

static void read_in_handlers(unsigned long many)
{
    pthread_t reader, killer;

    signal(SIGUSR1, read_in_handler);
    reader = started(read_interrupted, NULL);
    while (atomic_load(&ready) < 1)
        sched_yield();
    killer = started(interrupt, &reader);
    update_until(many);
    pthread_join(killer, NULL);
    pthread_join(reader, NULL);
    expect("depth", (uint32_t)CALL(reader_depth)(&interrupted), 0);
    expect("unregister", CALL(reader_unregister)(&interrupted), DONE);
}

int main(int count, char **words)
{
    const char *what = count > 1 ? words[1] : "sections";
    unsigned long many = count > 2 ? strtoul(words[2], NULL, 10) : 100000;

    expect("domain_new", CALL(domain_new)(&domain, &grace, ROUND), DONE);
    if (strcmp(what, "threads") == 0)
        come_and_go(many);
    else if (strcmp(what, "signals") == 0)
        read_in_handlers(many);
    else
        read_beside(many);
    expect("domain_free", CALL(domain_free)(&domain), DONE);
    expect("grace_free", CALL(grace_free)(&grace), DONE);
    printf("updates %lu sections %lu wrong %lu\n", updates, sections, wrong);
    return wrong > 0;
}
