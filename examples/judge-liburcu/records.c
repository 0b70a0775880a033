/* Readers and one updater over liburcu, which tell what they do as lines of answers, for `torture check` to judge.
   docs/JUDGING.md says where each event is told, and why a `no` is then a mistake of the program.

   Compile with one of -DFLAVOUR_MEMB, -DFLAVOUR_MB, -DFLAVOUR_QSBR and -DFLAVOUR_BP. With -DBROKEN, one callback in a
   thousand runs at once, beside a section that is open and may still read its record.

   records N: the updater replaces the record N times. The events are written at the end. */
#define _POSIX_C_SOURCE 200809L
#if defined(FLAVOUR_MEMB)
#define RCU_MEMBARRIER
#include <urcu.h>
#elif defined(FLAVOUR_MB)
#define RCU_MB
#include <urcu.h>
#elif defined(FLAVOUR_QSBR)
#include <urcu-qsbr.h>
#elif defined(FLAVOUR_BP)
#include <urcu-bp.h>
#else
#error "choose a flavour: -DFLAVOUR_MEMB, -DFLAVOUR_MB, -DFLAVOUR_QSBR or -DFLAVOUR_BP"
#endif
#include <pthread.h>
#include <sched.h>
#include <stdatomic.h>
#include <stdio.h>
#include <stdlib.h>
#include <urcu/compiler.h>

enum { READERS = 3, SECTIONS_EACH = 4, LOADS_EACH = 100, ASKS_EVERY = 64, BARS_EVERY = 512 };

enum kind { OPEN, CLOSE, PUSH, REPLACE, RETIRE, QUEUE, RUN, ASK, ANSWER, BAR, CLEAR };

struct event {
    enum kind kind;
    unsigned long first, second;
};

static struct event *log_of;
static unsigned long room;
static atomic_ulong told;
static atomic_ulong replaced;
static atomic_bool stopped;

/* The one counter orders the events, and what stands around them: who adds later has seen all that was done before. */
static void tell(enum kind kind, unsigned long first, unsigned long second) {
    unsigned long at = atomic_fetch_add(&told, 1);
    if (at >= room) {
        fprintf(stderr, "records: no room for the events\n");
        exit(2);
    }
    log_of[at] = (struct event){kind, first, second};
}

struct record {
    struct rcu_head head;
    unsigned long number;
    unsigned long value;
};

static struct record *current;

static void reclaim(struct rcu_head *head) {
    struct record *record = caa_container_of(head, struct record, head);
    tell(RUN, record->number, 0); /* the callback's first act */
    record->value = 0;
    free(record);
}

#ifdef BROKEN
enum { BROKEN_EVERY = 1000, MOST_TURNS = 10000000 };

/* Whether a section is to stay open, and does. */
enum stay { NONE, WANTED, STAYS };

static atomic_int stay;

static int is_wanted(void) {
    return atomic_load(&stay) == WANTED;
}

/* The first section that gets here stays open until it is let go. */
static void stay_open(void) {
    int wanted = WANTED;
    if (atomic_compare_exchange_strong(&stay, &wanted, STAYS))
        while (atomic_load(&stay) == STAYS)
            sched_yield();
}

/* Waits until a section stays open. */
static void want_open(void) {
    atomic_store(&stay, WANTED);
    for (int turns = 0; atomic_load(&stay) != STAYS; turns++) {
        if (turns == MOST_TURNS) {
            fprintf(stderr, "records: no section was opened\n");
            exit(2);
        }
        sched_yield();
    }
}

static void let_go(void) {
    atomic_store(&stay, NONE);
}
#else
static int is_wanted(void) {
    return 0;
}

static void stay_open(void) {
}
#endif

/* One section, which reads the current record for a while. */
static unsigned long read_once(unsigned long reader, unsigned long section) {
    unsigned long sum = 0;
    rcu_read_lock();
    tell(OPEN, reader, section); /* after the lock has returned */
    for (int i = 0; i < LOADS_EACH; i++)
        sum += rcu_dereference(current)->value;
    sched_yield(); /* so that the updater often runs while a section is open */
    stay_open();
    tell(CLOSE, reader, section); /* before the unlock is called */
    rcu_read_unlock();
    return sum;
}

static void *read_records(void *argument) {
    unsigned long section = 0, sum = 0;
    rcu_register_thread();
    while (!atomic_load(&stopped)) {
        /* No reader runs far ahead of the updater: so there is room for all events. */
        if (section <= SECTIONS_EACH * atomic_load(&replaced) || is_wanted())
            sum += read_once((unsigned long)argument, ++section);
        else
            sched_yield();
#ifdef FLAVOUR_QSBR
        rcu_quiescent_state();
#endif
    }
    rcu_unregister_thread();
    return (void *)sum;
}

static struct record *make_record(unsigned long number) {
    struct record *record = malloc(sizeof *record);
    if (record == NULL) {
        fprintf(stderr, "records: no memory\n");
        exit(2);
    }
    record->number = number;
    record->value = number;
    return record;
}

/* Puts a new record into the place of the current one, and gives the old one away. */
static void replace_record(unsigned long number) {
    struct record *old = current, *record = make_record(number);
    unsigned long was = old->number; /* whoever runs the callback frees the record */
#ifdef BROKEN
    if (was % BROKEN_EVERY == 1)
        want_open();
#endif
    tell(REPLACE, was, number);
    rcu_assign_pointer(current, record);
    tell(RETIRE, was, 0); /* once no new section can find it, and before call_rcu is called */
    tell(QUEUE, was, 0);
#ifdef BROKEN
    if (was % BROKEN_EVERY == 1) {
        reclaim(&old->head);
        let_go();
        return;
    }
#endif
    call_rcu(&old->head, reclaim);
}

static void update_records(unsigned long wanted) {
    unsigned long asks = 0, bars = 0;
    rcu_register_thread();
    for (unsigned long number = 2; number < wanted + 2; number++) {
        replace_record(number);
        atomic_fetch_add(&replaced, 1);
        if (number % ASKS_EVERY == 0) {
            tell(ASK, ++asks, 0); /* before the call, and after its return */
            synchronize_rcu();
            tell(ANSWER, asks, 0);
        }
        if (number % BARS_EVERY == 0) {
            tell(BAR, ++bars, 0); /* by the one thread that calls call_rcu */
            rcu_barrier();
            tell(CLEAR, bars, 0);
        }
#ifdef FLAVOUR_QSBR
        rcu_quiescent_state();
#endif
    }
    rcu_unregister_thread();
}

static void print_event(struct event e) {
    switch (e.kind) {
    case OPEN: printf("open r%lu.%lu\n", e.first, e.second); break;
    case CLOSE: printf("close r%lu.%lu\n", e.first, e.second); break;
    case PUSH: printf("push c0 o%lu\n", e.first); break;
    case REPLACE: printf("replace c0 o%lu o%lu\n", e.first, e.second); break;
    case RETIRE: printf("retire o%lu\n", e.first); break;
    case QUEUE: printf("queue o%lu q0\n", e.first); break;
    case RUN: printf("run o%lu\n", e.first); break;
    case ASK: printf("ask a%lu\n", e.first); break;
    case ANSWER: printf("answer a%lu\n", e.first); break;
    case BAR: printf("bar b%lu\n", e.first); break;
    case CLEAR: printf("clear b%lu\n", e.first); break;
    }
}

int main(int count, char **words) {
    unsigned long wanted = count == 2 ? strtoul(words[1], NULL, 10) : 0;
    if (wanted == 0 || wanted > 100000000) {
        fprintf(stderr, "usage: records N\n");
        return 2;
    }
    room = (2 * READERS * SECTIONS_EACH + 8) * (wanted + 2);
    log_of = calloc(room, sizeof *log_of);
    if (log_of == NULL) {
        fprintf(stderr, "records: no memory\n");
        return 2;
    }
    current = make_record(1);
    tell(PUSH, 1, 0);
    pthread_t readers[READERS];
    for (unsigned long i = 0; i < READERS; i++)
        pthread_create(&readers[i], NULL, read_records, (void *)i);
    update_records(wanted);
    atomic_store(&stopped, 1);
    for (int i = 0; i < READERS; i++)
        pthread_join(readers[i], NULL);
    rcu_barrier();
    unsigned long events = atomic_load(&told);
    for (unsigned long i = 0; i < events; i++)
        print_event(log_of[i]);
    return fflush(stdout) == 0 ? 0 : 2;
}
