/* The functions that liburcu 0.13's libraries export, and the polls of 0.14, so that a program that was built against
 * liburcu runs over this library.
 *
 * Compiled once for each library: -DFLAVOUR=urcu_memb, -DFLAVOUR=urcu_mb, or -DFLAVOUR=urcu_qsbr -DQSBR. The variables
 * urcu_*_reader, urcu_*_gp and urcu_memb_has_sys_membarrier are left out on purpose: only programs that inlined
 * liburcu's readers want them, and those would not call us when they read. The loader refuses such a program in plain
 * words: "undefined symbol: urcu_memb_reader". What is liburcu's struct rcu_head is robiniagolf_head here, its struct
 * call_rcu_data is worker, and its struct urcu_gp_poll_state is robiniagolf_poll. */
#include "rcu.c"

enum { PROCESSORS = 1024 };

/* As in <urcu/flavor.h>; liburcu-cds gives us one, which pauses the threads of its tables. */
struct urcu_atfork {
    void (*before_fork)(void *), (*after_fork_parent)(void *), (*after_fork_child)(void *);
    void *priv;
};

static struct urcu_atfork *tables, *paused; /* paused: by a fork that is coming; with table_users under workers_lock */
static unsigned table_users;

static __attribute__((constructor)) void at_load(void)
{
    init();
}

#ifdef QSBR
API void RCU(exit)(void) { }
#else
API void RCU(init)(void) { init(); } /* another library's constructor may come before our own */
static void nothing(void) { }
#endif

/* ---- Workers of the program's own. Flags and processors are hints, which are not followed. ---- */

API struct worker *RCU(create_call_rcu_data)(unsigned long flags, int processor)
{
    struct worker *worker = calloc(1, sizeof *worker);

    (void)flags, (void)processor;
    if (!worker || sem_init(&worker->wake, 0, 0))
        die("no memory for a call_rcu_data");
    init();
    pthread_mutex_init(&worker->lock, NULL);
    lock(&workers_lock);
    worker->next = workers;
    workers = worker;
    start(worker);
    unlock(&workers_lock);
    return worker;
}

/* Takes the worker off the list; what it has left is called by the standard one. Under workers_lock. */
static void take_out(struct worker *worker)
{
    struct worker **at = &workers;
    struct robiniagolf_head *head;

    while (*at != worker)
        at = &(*at)->next;
    *at = worker->next;
    take(worker);
    while ((head = pop(worker)))
        push(&standard, head);
    if (atomic_load(&standard.in))
        start(&standard);
}

/* 0.13 ends the thread and does not join it; multipathd does that by itself. A mark of a barrier frees the worker. */
API void RCU(call_rcu_data_free)(struct worker *worker)
{
    struct wait wait;

    if (!worker || worker == &standard)
        return;
    wait = begin_wait();
    lock(&workers_lock);
    atomic_store(&worker->stop, true);
    sem_post(&worker->wake);
    while (atomic_load(&worker->running))
        pthread_cond_wait(&progress, &workers_lock);
    take_out(worker);
    if (worker->marked)
        worker->gone = true;
    else
        free(worker);
    unlock(&workers_lock);
    end_wait(wait);
}

API struct worker *RCU(get_default_call_rcu_data)(void)
{
    init();
    start_if_needed(&standard);
    return &standard;
}

API struct worker *RCU(get_thread_call_rcu_data)(void) { return me.worker; }
API void RCU(set_thread_call_rcu_data)(struct worker *worker) { me.worker = worker; }

API struct worker *RCU(get_call_rcu_data)(void)
{
    return me.worker ? me.worker : RCU(get_default_call_rcu_data)();
}

API pthread_t RCU(get_call_rcu_thread)(struct worker *worker)
{
    lock(&workers_lock);
    start(worker);
    unlock(&workers_lock);
    return worker->thread;
}

/* Per processor: kept and given back, and not looked at by call_rcu. */
static _Atomic(struct worker *) by_processor[PROCESSORS];

static int processors(void)
{
    long count = sysconf(_SC_NPROCESSORS_CONF);

    return count > PROCESSORS ? PROCESSORS : count < 1 ? 1 : (int)count;
}

API struct worker *RCU(get_cpu_call_rcu_data)(int processor)
{
    return processor < 0 || processor >= processors() ? NULL : atomic_load(&by_processor[processor]);
}

API int RCU(set_cpu_call_rcu_data)(int processor, struct worker *worker)
{
    struct worker *none = NULL;
    int error = 0;

    if (processor < 0 || processor >= processors())
        error = EINVAL;
    else if (!worker)
        atomic_store(&by_processor[processor], NULL);
    else if (!atomic_compare_exchange_strong(&by_processor[processor], &none, worker))
        error = EEXIST;
    if (error)
        errno = error;
    return -error;
}

API int RCU(create_all_cpu_call_rcu_data)(unsigned long flags)
{
    (void)flags;
    for (int i = 0; i < processors(); i++)
        RCU(set_cpu_call_rcu_data)(i, RCU(get_default_call_rcu_data)());
    return 0;
}

API void RCU(free_all_cpu_call_rcu_data)(void)
{
    for (int i = 0; i < processors(); i++)
        RCU(call_rcu_data_free)(atomic_exchange(&by_processor[i], NULL));
}

/* ---- Fork: with these calls a program has no callback cut in two ---- */

API void RCU(register_rculfhash_atfork)(struct urcu_atfork *atfork)
{
    lock(&workers_lock);
    if (table_users++ == 0)
        tables = atfork;
    unlock(&workers_lock);
}

API void RCU(unregister_rculfhash_atfork)(struct urcu_atfork *atfork)
{
    (void)atfork;
    lock(&workers_lock);
    if (--table_users == 0)
        tables = NULL;
    unlock(&workers_lock);
}

/* Wakes the workers that run, but for that of the calling thread, and counts them. Under workers_lock. */
static unsigned wake_others(void)
{
    unsigned others = 0;

    for (struct worker *worker = workers; worker; worker = worker->next)
        if (atomic_load(&worker->running) && me.runs != worker) {
            others++;
            sem_post(&worker->wake);
        }
    return others;
}

API void RCU(call_rcu_before_fork)(void)
{
    struct wait wait = begin_wait();

    lock(&workers_lock);
    paused = tables;
    unlock(&workers_lock);
    if (paused)
        paused->before_fork(paused->priv);
    lock(&workers_lock);
    pausing++;
    while (resting < wake_others())
        pthread_cond_wait(&progress, &workers_lock);
    unlock(&workers_lock);
    end_wait(wait);
}

API void RCU(call_rcu_after_fork_parent)(void)
{
    lock(&workers_lock);
    pausing--;
    pthread_cond_broadcast(&progress);
    unlock(&workers_lock);
    if (paused)
        paused->after_fork_parent(paused->priv);
}

API void RCU(call_rcu_after_fork_child)(void)
{
    if (paused)
        paused->after_fork_child(paused->priv);
    lock(&workers_lock);
    for (struct worker *worker = workers; worker; worker = worker->next)
        if (atomic_load(&worker->in) || worker->batch)
            start(worker);
    unlock(&workers_lock);
}

/* ---- Deferred calls: callbacks of a head of their own; where there is no memory for it, the caller waits ---- */

struct deferred {
    struct robiniagolf_head head;
    void (*call)(void *);
    void *argument;
};

static void run_deferred(struct robiniagolf_head *head)
{
    struct deferred *deferred = (struct deferred *)head;

    deferred->call(deferred->argument);
    free(deferred);
}

API void RCU(defer_rcu)(void (*call)(void *), void *argument)
{
    struct deferred *deferred = malloc(sizeof *deferred);

    if (!deferred) {
        RCU(synchronize_rcu)();
        call(argument);
        return;
    }
    deferred->call = call;
    deferred->argument = argument;
    queue(&standard, &deferred->head, run_deferred);
}

API int RCU(defer_register_thread)(void) { return 0; }
API void RCU(defer_unregister_thread)(void) { RCU(barrier)(); }
API void RCU(defer_barrier)(void) { RCU(barrier)(); }
API void RCU(defer_barrier_thread)(void) { RCU(barrier)(); }
API void RCU(defer_exit)(void) { }

/* ---- The table of functions that liburcu-cds goes by, as in <urcu/flavor.h> ---- */

API const struct rcu_flavor_struct {
    void (*read_lock)(void), (*read_unlock)(void);
    int (*read_ongoing)(void);
    void (*read_quiescent_state)(void);
    void (*update_call_rcu)(struct robiniagolf_head *, void (*)(struct robiniagolf_head *));
    void (*update_synchronize_rcu)(void);
    void (*update_defer_rcu)(void (*)(void *), void *);
    void (*thread_offline)(void), (*thread_online)(void);
    void (*register_thread)(void), (*unregister_thread)(void);
    void (*barrier)(void);
    void (*register_rculfhash_atfork)(struct urcu_atfork *);
    void (*unregister_rculfhash_atfork)(struct urcu_atfork *);
} RCU(flavor) = {
#ifdef QSBR
    .read_quiescent_state = RCU(quiescent_state),
    .thread_offline = RCU(thread_offline),
    .thread_online = RCU(thread_online),
#else
    .read_quiescent_state = nothing,
    .thread_offline = nothing,
    .thread_online = nothing,
#endif
    .read_lock = RCU(read_lock),
    .read_unlock = RCU(read_unlock),
    .read_ongoing = RCU(read_ongoing),
    .update_call_rcu = RCU(call_rcu),
    .update_synchronize_rcu = RCU(synchronize_rcu),
    .update_defer_rcu = RCU(defer_rcu),
    .register_thread = RCU(register_thread),
    .unregister_thread = RCU(unregister_thread),
    .barrier = RCU(barrier),
    .register_rculfhash_atfork = RCU(register_rculfhash_atfork),
    .unregister_rculfhash_atfork = RCU(unregister_rculfhash_atfork),
};

/* ---- Pointers: each of liburcu's flavours has these; the caller of the first has loaded it already ---- */

API void *rcu_dereference_sym(void *pointer) { return pointer; }

API void *rcu_set_pointer_sym(_Atomic(void *) *pointer, void *value)
{
    atomic_store(pointer, value);
    return value;
}

API void *rcu_xchg_pointer_sym(_Atomic(void *) *pointer, void *value)
{
    return atomic_exchange(pointer, value);
}

API void *rcu_cmpxchg_pointer_sym(_Atomic(void *) *pointer, void *old, void *value)
{
    atomic_compare_exchange_strong(pointer, &old, value);
    return old;
}
