/* The waiting part of the library for C: threads, grace periods and callbacks over the handles of robiniagolf/rcu.h.
 *
 * Compiled once for each flavour, with -DFLAVOUR=robiniagolf_memb, or -DFLAVOUR=robiniagolf_qsbr -DQSBR. drop_in.c
 * includes it with liburcu's names. The locks are taken in this order: poll_lock, workers_lock, a worker's,
 * threads_lock, a domain's. */
#define _GNU_SOURCE
#include <robiniagolf/rcu.h>

#include <errno.h>
#include <linux/futex.h>
#include <pthread.h>
#include <semaphore.h>
#include <signal.h>
#include <stdatomic.h>
#include <stdio.h>
#include <stdlib.h>
#include <string.h>
#include <sys/syscall.h>
#include <time.h>
#include <unistd.h>

#define JOIN_(a, b) a##_##b
#define JOIN(a, b) JOIN_(a, b)
#define TEXT_(a) #a
#define TEXT(a) TEXT_(a)
#define RCU(name) JOIN(FLAVOUR, name) /* a call of this file */
#ifdef QSBR
#define CORE(name) robiniagolf_qsbr_##name /* a handle of this flavour, or a call of one */
#else
#define CORE(name) robiniagolf_memb_##name
#endif
#define API __attribute__((visibility("default")))
#define UNLIKELY(x) __builtin_expect(!!(x), 0)

enum {
    FIRST_SLOTS = 64, /* of the first domain, whose scans load one group's word, and not four */
    SLOTS = 256,      /* of each other */
    DOMAINS = 64,
    LOOKS = 100, /* at what stands in the way, before one sleeps */
};

struct domain {
    struct CORE(domain) handle;
    pthread_mutex_t lock;
    struct CORE(grace) grace; /* under lock */
    struct CORE(reader) readers[SLOTS];
    bool taken[SLOTS]; /* under threads_lock */
};

/* A queue of callbacks, and the thread that runs them. */
struct worker {
    _Atomic(struct robiniagolf_head *) in; /* newest first; anyone pushes */
    pthread_mutex_t lock;
    struct robiniagolf_head *batch; /* oldest first; under lock */
    sem_t wake;
    atomic_bool running, stop;
    /* Under workers_lock: */
    pthread_t thread;
    struct worker *next;
    struct robiniagolf_head mark; /* of a barrier */
    bool marked, gone;
};

static struct domain domains[DOMAINS];
static atomic_int domain_count;
static pthread_mutex_t threads_lock = PTHREAD_MUTEX_INITIALIZER;
static pthread_key_t key; /* its destructor unregisters a thread that just ends */

static struct worker standard = { .lock = PTHREAD_MUTEX_INITIALIZER };
static struct worker *workers = &standard;
static pthread_mutex_t workers_lock = PTHREAD_MUTEX_INITIALIZER;
static pthread_cond_t progress = PTHREAD_COND_INITIALIZER; /* with workers_lock */
static unsigned marks;                                     /* in the workers' queues */
static unsigned long barriers;                             /* that have ended */
static unsigned pausing, resting;                          /* around a fork: who asks for it, and workers that rest */

static pthread_mutex_t poll_lock = PTHREAD_MUTEX_INITIALIZER;
static unsigned long asked, begun, answered;
static struct robiniagolf_head poll_head;

static __thread struct {
    struct CORE(reader) *reader; /* NULL: not registered */
    struct domain *domain;
    struct worker *worker; /* where the thread's callbacks go; NULL: standard */
    struct worker *runs;   /* the worker whose thread this is */
} me;

static _Noreturn void die(const char *why)
{
    fprintf(stderr, "robiniagolf (" TEXT(FLAVOUR) "): %s\n", why);
    abort();
}

static void lock(pthread_mutex_t *mutex)
{
    if (pthread_mutex_lock(mutex))
        die("pthread_mutex_lock failed");
}

static void unlock(pthread_mutex_t *mutex)
{
    if (pthread_mutex_unlock(mutex))
        die("pthread_mutex_unlock failed");
}

/* ---- Threads ---- */

/* Whether a grace period sleeps: who ends a section or announces has it look again. */
static atomic_int sleeping;

static __attribute__((noinline)) void wake_all(void)
{
    int before = errno;

    atomic_store(&sleeping, 0);
    syscall(SYS_futex, &sleeping, FUTEX_WAKE_PRIVATE, 1 << 30, NULL, NULL, 0);
    errno = before;
}

static inline void wake_sleepers(void)
{
    if (UNLIKELY(atomic_load_explicit(&sleeping, memory_order_relaxed)))
        wake_all();
}

static size_t slots_of(const struct domain *domain)
{
    return domain == domains ? FIRST_SLOTS : SLOTS;
}

static struct domain *add_domain(void)
{
    int count = atomic_load(&domain_count);
    struct domain *domain = &domains[count];

    if (count == DOMAINS)
        die("more than 16,192 threads");
    if (CORE(domain_new)(&domain->handle, &domain->grace, slots_of(domain)) != ROBINIAGOLF_RCU_DONE)
        die("no memory for a domain of readers");
    pthread_mutex_init(&domain->lock, NULL);
    atomic_store(&domain_count, count + 1);
    return domain;
}

/* Ends what a reader has open, and gives its place back. Under threads_lock. */
static void free_place(struct domain *domain, size_t at)
{
    CORE(reader_end)(&domain->readers[at]);
    CORE(reader_unregister)(&domain->readers[at]);
    domain->taken[at] = false;
}

static void leave(void *unused)
{
    (void)unused;
    if (!me.reader)
        return;
    lock(&threads_lock);
    free_place(me.domain, (size_t)(me.reader - me.domain->readers));
    me.reader = NULL;
    unlock(&threads_lock);
    pthread_setspecific(key, NULL);
    wake_sleepers();
}

static void before_fork(void), after_fork_parent(void), after_fork_child(void);

static void set_up(void)
{
    if (pthread_key_create(&key, leave) || sem_init(&standard.wake, 0, 0))
        die("no key or semaphore");
    add_domain();
    if (pthread_atfork(before_fork, after_fork_parent, after_fork_child))
        die("pthread_atfork failed");
}

static void init(void)
{
    static pthread_once_t once = PTHREAD_ONCE_INIT;

    pthread_once(&once, set_up);
}

/* Registers the thread, in a further domain where all places are taken. */
static __attribute__((noinline)) struct CORE(reader) *enrol(void)
{
    struct domain *domain = domains;
    const bool *place;

    init();
    lock(&threads_lock);
    while (!(place = memchr(domain->taken, false, slots_of(domain))))
        if (++domain == domains + domain_count)
            domain = add_domain();
    size_t at = (size_t)(place - domain->taken);
    if (CORE(reader_register)(&domain->handle, &domain->readers[at]) != ROBINIAGOLF_RCU_DONE)
        die("no memory for a reader");
    domain->taken[at] = true;
    me.domain = domain;
    me.reader = &domain->readers[at];
    unlock(&threads_lock);
    pthread_setspecific(key, &me); /* where that fails, the thread has to unregister */
    return me.reader;
}

API void RCU(register_thread)(void)
{
    if (!me.reader)
        enrol();
#ifdef QSBR
    CORE(reader_online)(me.reader);
#endif
}

API void RCU(unregister_thread)(void) { leave(NULL); }

#ifdef QSBR

API int RCU(read_ongoing)(void)
{
    return me.reader && CORE(reader_is_online)(me.reader) == ROBINIAGOLF_RCU_DONE;
}

API void RCU(read_lock)(void) { }
API void RCU(read_unlock)(void) { }

API void RCU(quiescent_state)(void)
{
    if (me.reader)
        CORE(reader_quiescent)(me.reader);
    wake_sleepers();
}

API void RCU(thread_offline)(void)
{
    if (me.reader)
        CORE(reader_offline)(me.reader);
    wake_sleepers();
}

API void RCU(thread_online)(void)
{
    if (me.reader)
        CORE(reader_online)(me.reader);
}

#else

API int RCU(read_ongoing)(void)
{
    return me.reader && CORE(reader_depth)(me.reader) > 0;
}

API void RCU(read_lock)(void)
{
    struct CORE(reader) *reader = me.reader;

    if (UNLIKELY(!reader))
        reader = enrol();
    if (UNLIKELY(CORE(reader_lock)(reader) != ROBINIAGOLF_RCU_DONE))
        die("2147483647 locks are open");
}

API void RCU(read_unlock)(void)
{
    if (UNLIKELY(!me.reader))
        return;
    CORE(reader_unlock)(me.reader);
    wake_sleepers();
}

#endif

/* ---- Grace periods ---- */

/* An online thread must not hold up what it waits for: whether it was online. */
static bool step_aside(void)
{
#ifdef QSBR
    bool online = RCU(read_ongoing)();

    RCU(thread_offline)();
    return online;
#else
    return false;
#endif
}

static void step_back(bool online)
{
    if (online)
        RCU(register_thread)();
}

/* What is put back after a wait with a cancellation point in it: nobody is cancelled with a lock in hand, and liburcu
 * has no cancellation point there. */
struct wait {
    bool online;
    int cancel;
};

static struct wait begin_wait(void)
{
    struct wait wait = { false, 0 };

    pthread_setcancelstate(PTHREAD_CANCEL_DISABLE, &wait.cancel);
    wait.online = step_aside();
    return wait;
}

static void end_wait(struct wait wait)
{
    step_back(wait.online);
    pthread_setcancelstate(wait.cancel, NULL);
}

/* Takes steps until the cookie is reached, or a section is in the way: whether one is. Under the domain's lock. */
static bool is_held_up(struct domain *domain, uint64_t cookie)
{
    uint32_t said;

    do
        said = CORE(grace_step)(&domain->grace, cookie);
    while (said == ROBINIAGOLF_RCU_GO_ON);
    if (said != ROBINIAGOLF_RCU_DONE && said != ROBINIAGOLF_RCU_IN_THE_WAY)
        die("no sequence numbers are left");
    return said == ROBINIAGOLF_RCU_IN_THE_WAY;
}

/* Any number of threads may be here: each takes steps of the grace period that is going, and one serves all whose
 * cookies it reaches. Where a wakening gets lost, a sleeper looks again after 10 ms. */
static void pass(struct domain *domain)
{
    const struct timespec moment = { 0, 10000000 };
    uint64_t cookie;

    lock(&domain->lock);
    if (CORE(grace_ask)(&domain->grace, &cookie) != ROBINIAGOLF_RCU_DONE)
        die("no sequence numbers are left");
    for (unsigned looks = 0; is_held_up(domain, cookie); looks++) {
        unlock(&domain->lock);
        if (looks < LOOKS)
            __builtin_ia32_pause();
        else
            syscall(SYS_futex, &sleeping, FUTEX_WAIT_PRIVATE, 1, &moment, NULL, 0);
        lock(&domain->lock);
        if (looks >= LOOKS)
            atomic_store(&sleeping, 1); /* before the next look */
    }
    unlock(&domain->lock);
}

/* What registers in a domain that is added after the load had no section before it. */
static void grace_period(void)
{
    init();
    atomic_thread_fence(memory_order_seq_cst);
    for (int i = 0, count = atomic_load(&domain_count); i < count; i++)
        pass(&domains[i]);
}

API void RCU(synchronize_rcu)(void)
{
    bool online = step_aside();

    if (RCU(read_ongoing)())
        die("synchronize_rcu within a section would wait for ever");
    grace_period(); /* has no cancellation point */
    step_back(online);
}

/* ---- Callbacks ---- */

/* When this returns, the callback may have run and its head be gone. */
static void push(struct worker *worker, struct robiniagolf_head *head)
{
    struct robiniagolf_head *old = atomic_load(&worker->in);

    do
        head->next = old;
    while (!atomic_compare_exchange_weak(&worker->in, &old, head));
    if (!old)
        sem_post(&worker->wake);
}

/* Puts what came in behind the batch, the oldest first: whether there is a batch then. */
static bool take(struct worker *worker)
{
    struct robiniagolf_head **end = &worker->batch, *head, *next;

    lock(&worker->lock);
    while (*end)
        end = &(*end)->next;
    for (head = atomic_exchange(&worker->in, NULL); head; head = next) {
        next = head->next;
        head->next = *end;
        *end = head;
    }
    bool some = worker->batch;
    unlock(&worker->lock);
    return some;
}

static struct robiniagolf_head *pop(struct worker *worker)
{
    struct robiniagolf_head *head;

    lock(&worker->lock);
    head = worker->batch;
    if (head)
        worker->batch = head->next;
    unlock(&worker->lock);
    return head;
}

/* Waits for something to do, and rests while a fork is coming. */
static void wait_for_work(struct worker *worker)
{
    struct wait wait = begin_wait();

    while (sem_wait(&worker->wake))
        continue;
    lock(&workers_lock);
    if (pausing > 0) {
        resting++;
        pthread_cond_broadcast(&progress);
        while (pausing > 0)
            pthread_cond_wait(&progress, &workers_lock);
        resting--;
    }
    unlock(&workers_lock);
    end_wait(wait);
}

static void run_batch(struct worker *worker)
{
    struct robiniagolf_head *head;

    RCU(synchronize_rcu)();
    while ((head = pop(worker)))
        head->call(head);
}

static void *work(void *arg)
{
    struct worker *worker = arg;
    bool stop;

    RCU(register_thread)(); /* callbacks may read */
    me.worker = me.runs = worker;
    do {
        wait_for_work(worker);
        stop = atomic_load(&worker->stop);
        if (take(worker))
            run_batch(worker);
    } while (!stop);
    leave(NULL);
    lock(&workers_lock);
    atomic_store(&worker->running, false);
    pthread_cond_broadcast(&progress);
    unlock(&workers_lock); /* the worker may be freed from here on */
    return NULL;
}

/* Starts the worker's thread unless it runs or has to stop. If none can be had now, a later call tries again. Under
 * workers_lock. */
static void start(struct worker *worker)
{
    sigset_t all, before;

    if (atomic_load(&worker->running) || atomic_load(&worker->stop))
        return;
    sigfillset(&all);
    pthread_sigmask(SIG_SETMASK, &all, &before);
    atomic_store(&worker->running, true);
    if (pthread_create(&worker->thread, NULL, work, worker))
        atomic_store(&worker->running, false);
    pthread_sigmask(SIG_SETMASK, &before, NULL);
}

static void start_if_needed(struct worker *worker)
{
    if (atomic_load(&worker->running))
        return;
    lock(&workers_lock);
    start(worker);
    unlock(&workers_lock);
}

static void queue(struct worker *worker, struct robiniagolf_head *head, void (*call)(struct robiniagolf_head *))
{
    init();
    head->call = call;
    push(worker, head);
    start_if_needed(worker);
}

API void RCU(call_rcu)(struct robiniagolf_head *head, void (*call)(struct robiniagolf_head *))
{
    queue(me.worker ? me.worker : &standard, head, call);
}

/* ---- Barriers: one after the other, a mark behind what each worker has ---- */

static struct worker *worker_of(struct robiniagolf_head *mark)
{
    return (struct worker *)((char *)mark - offsetof(struct worker, mark));
}

static void pass_mark(struct robiniagolf_head *mark)
{
    struct worker *worker = worker_of(mark);

    lock(&workers_lock);
    worker->marked = false;
    if (--marks == 0) {
        barriers++;
        pthread_cond_broadcast(&progress);
    }
    if (worker->gone)
        free(worker);
    unlock(&workers_lock);
}

/* Has a mark at the end of each worker's queue. Under workers_lock. */
static void mark_all(void)
{
    for (struct worker *worker = workers; worker; worker = worker->next) {
        marks++;
        worker->marked = true;
        worker->mark.call = pass_mark;
        push(worker, &worker->mark);
    }
}

/* Under workers_lock, which it lets go; it sees to it that all workers run. */
static void wait_for_progress(void)
{
    struct timespec end;

    for (struct worker *worker = workers; worker; worker = worker->next)
        start(worker);
    clock_gettime(CLOCK_REALTIME, &end);
    end.tv_sec++;
    pthread_cond_timedwait(&progress, &workers_lock, &end);
}

static void wait_for_marks(void)
{
    lock(&workers_lock);
    while (marks > 0)
        wait_for_progress(); /* of an earlier barrier */
    mark_all();
    for (unsigned long mine = barriers + 1; (long)(barriers - mine) < 0;)
        wait_for_progress();
    unlock(&workers_lock);
}

API void RCU(barrier)(void)
{
    struct wait wait = begin_wait();

    init();
    if (me.runs || RCU(read_ongoing)())
        fprintf(stderr, "robiniagolf (" TEXT(FLAVOUR) "): a barrier within a %s does not wait\n",
                me.runs ? "callback" : "section");
    else
        wait_for_marks();
    end_wait(wait);
}

/* ---- Polling: a callback of the standard worker answers all who have asked before it was queued ---- */

static void answer(struct robiniagolf_head *head)
{
    lock(&poll_lock);
    answered = begun;
    if (asked != begun) {
        begun = asked;
        queue(&standard, head, answer);
    }
    unlock(&poll_lock);
}

API struct robiniagolf_poll RCU(start_poll_synchronize_rcu)(void)
{
    struct robiniagolf_poll state;

    lock(&poll_lock);
    state.number = ++asked;
    if (begun == answered) {
        begun = asked;
        queue(&standard, &poll_head, answer);
    }
    unlock(&poll_lock);
    return state;
}

API bool RCU(poll_state_synchronize_rcu)(struct robiniagolf_poll state)
{
    lock(&poll_lock);
    bool is_over = (long)(answered - state.number) >= 0;
    unlock(&poll_lock);
    if (!is_over)
        start_if_needed(&standard); /* in a forked child it may not run yet */
    return is_over;
}

/* ---- Fork: at each one the child finds all in one piece. The other threads' sections are gone there. Callbacks still
 * wait, but for one that was running, which counts as run; their threads start again at the next call. ---- */

static void before_fork(void)
{
    lock(&poll_lock);
    lock(&workers_lock);
    for (struct worker *worker = workers; worker; worker = worker->next)
        lock(&worker->lock);
    lock(&threads_lock);
    for (int i = 0; i < domain_count; i++)
        lock(&domains[i].lock);
}

static void after_fork_parent(void)
{
    for (int i = 0; i < domain_count; i++)
        unlock(&domains[i].lock);
    unlock(&threads_lock);
    for (struct worker *worker = workers; worker; worker = worker->next)
        unlock(&worker->lock);
    unlock(&workers_lock);
    unlock(&poll_lock);
}

static void free_other_places(struct domain *domain)
{
    for (size_t at = 0; at < SLOTS; at++)
        if (domain->taken[at] && &domain->readers[at] != me.reader)
            free_place(domain, at);
}

/* Counts the marks of a list, and notes whether the head of polls is there. */
static void look_through(struct robiniagolf_head *head, bool *polls)
{
    for (; head; head = head->next) {
        *polls |= head == &poll_head;
        if (head->call == pass_mark) {
            marks++;
            worker_of(head)->marked = true;
        }
    }
}

static void restart(struct worker *worker)
{
    worker->marked = false;
    atomic_store(&worker->running, me.runs == worker);
    atomic_store(&worker->stop, false);
    sem_init(&worker->wake, 0, worker->in || worker->batch);
}

static void after_fork_child(void)
{
    bool polls = false;

    for (int i = 0; i < domain_count; i++)
        free_other_places(&domains[i]);
    marks = pausing = resting = 0;
    progress = (pthread_cond_t)PTHREAD_COND_INITIALIZER;
    for (struct worker *worker = workers; worker; worker = worker->next)
        restart(worker);
    for (struct worker *worker = workers; worker; worker = worker->next) {
        look_through(worker->in, &polls);
        look_through(worker->batch, &polls);
    }
    after_fork_parent();
    if (!polls && begun != answered)
        answer(&poll_head); /* it was running */
}
