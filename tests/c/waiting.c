/* What the waiting part promises: threads, grace periods, callbacks, barriers, polls, fork.
 *
 * By the library's own names: -DFLAVOUR=robiniagolf_memb, or -DFLAVOUR=robiniagolf_qsbr -DQSBR. By liburcu's, over the
 * drop-in or liburcu itself: -DLIBURCU, with -DRCU_MB or -DQSBR; there the word `control` leaves out what liburcu does
 * not promise. The last line is 'N passed, M failed'. */
#define _GNU_SOURCE
#ifdef LIBURCU
#ifdef QSBR
#include <urcu-qsbr.h>
#else
#include <urcu.h>
#endif
#else
#include <robiniagolf/rcu.h>
#define JOIN_(a, b) a##_##b
#define JOIN(a, b) JOIN_(a, b)
#define RCU(name) JOIN(FLAVOUR, name)
#define rcu_head robiniagolf_head
#define rcu_register_thread RCU(register_thread)
#define rcu_unregister_thread RCU(unregister_thread)
#define rcu_read_lock RCU(read_lock)
#define rcu_read_unlock RCU(read_unlock)
#define rcu_read_ongoing RCU(read_ongoing)
#define rcu_quiescent_state RCU(quiescent_state)
#define rcu_thread_offline RCU(thread_offline)
#define rcu_thread_online RCU(thread_online)
#define synchronize_rcu RCU(synchronize_rcu)
#define call_rcu RCU(call_rcu)
#define rcu_barrier RCU(barrier)
#define start_poll() RCU(start_poll_synchronize_rcu)()
#define poll_state(state) RCU(poll_state_synchronize_rcu)(state)
#endif

#include <dlfcn.h>
#include <errno.h>
#include <pthread.h>
#include <signal.h>
#include <stdatomic.h>
#include <stdbool.h>
#include <stddef.h>
#include <stdio.h>
#include <stdlib.h>
#include <string.h>
#include <sys/wait.h>
#include <unistd.h>

static int passed, failed;
static bool is_control;

static void check(const char *what, bool is_right)
{
    if (is_right) {
        passed++;
        return;
    }
    failed++;
    printf("FAILED: %s\n", what);
    fflush(stdout);
}

/* Time enough for what must not happen. */
static void linger(void)
{
    usleep(60000);
}

/* A section; of qsbr it is a time online with no quiescent state. */
static void enter(void)
{
#ifdef QSBR
    rcu_thread_online();
#else
    rcu_read_lock();
#endif
}

static void leave(void)
{
#ifdef QSBR
    rcu_thread_offline();
#else
    rcu_read_unlock();
#endif
}

static void rest(void)
{
#ifdef QSBR
    rcu_thread_offline();
#endif
}

static pthread_t started(void *(*run)(void *), void *argument)
{
    pthread_t thread;

    if (pthread_create(&thread, NULL, run, argument)) {
        perror("pthread_create");
        exit(2);
    }
    return thread;
}

/* ---- A thread that does as it is told ---- */

enum order { REST, INSIDE, TWICE, END, END_SILENTLY };

struct puppet {
    pthread_t thread;
    pthread_mutex_t lock;
    pthread_cond_t told;
    enum order wanted, done; /* under lock */
};

static bool obey(struct puppet *puppet, enum order now, enum order then)
{
    if (then == END_SILENTLY)
        return false;
    for (; now > (then == END ? REST : then); now--)
        leave();
    for (; now < then && then != END; now++)
        enter();
    if (then == END)
        rcu_unregister_thread();
    puppet->done = then;
    pthread_cond_broadcast(&puppet->told);
    return then != END;
}

static void *play(void *argument)
{
    struct puppet *puppet = argument;
    bool goes_on = true;

    rcu_register_thread();
    rest();
    pthread_mutex_lock(&puppet->lock);
    while (goes_on) {
        if (puppet->wanted == puppet->done)
            pthread_cond_wait(&puppet->told, &puppet->lock);
        else
            goes_on = obey(puppet, puppet->done > END ? REST : puppet->done, puppet->wanted);
    }
    pthread_mutex_unlock(&puppet->lock);
    return NULL;
}

static void tell(struct puppet *puppet, enum order wanted)
{
    pthread_mutex_lock(&puppet->lock);
    puppet->wanted = wanted;
    pthread_cond_broadcast(&puppet->told);
    while (wanted < END && puppet->done != wanted)
        pthread_cond_wait(&puppet->told, &puppet->lock);
    pthread_mutex_unlock(&puppet->lock);
}

static void make(struct puppet *puppet)
{
    *puppet = (struct puppet){ .done = END_SILENTLY };
    pthread_mutex_init(&puppet->lock, NULL);
    pthread_cond_init(&puppet->told, NULL);
    puppet->thread = started(play, puppet);
    tell(puppet, REST);
}

static void end(struct puppet *puppet, enum order how)
{
    tell(puppet, how);
    pthread_join(puppet->thread, NULL);
}

static struct puppet a, b;

/* ---- Grace periods ---- */

static atomic_int syncing, synced;

static void *synchronize(void *argument)
{
    atomic_fetch_add(&syncing, 1);
    synchronize_rcu();
    atomic_fetch_add(&synced, 1);
    return argument;
}

/* A thread that waits for a grace period, and has had time to begin it. */
static pthread_t synchronizing(void)
{
    pthread_t thread;

    syncing = synced = 0;
    thread = started(synchronize, NULL);
    while (!syncing)
        usleep(1000);
    linger();
    return thread;
}

/* Whether a grace period that is begun now ends only after the puppet has left. */
static bool waits_for(struct puppet *puppet)
{
    pthread_t thread = synchronizing();
    bool early = synced > 0;

    tell(puppet, REST);
    pthread_join(thread, NULL);
    return !early;
}

static void test_sections(void)
{
    struct puppet c;
    pthread_t thread;

    synchronize_rcu();
    tell(&a, INSIDE);
    check("a grace period waits for a section", waits_for(&a));
    /* One that began later may hold it up, another one after that may not. */
    tell(&a, INSIDE);
    thread = synchronizing();
    tell(&b, INSIDE);
    tell(&a, REST);
    linger();
    make(&c);
    tell(&c, INSIDE);
    tell(&b, REST);
    pthread_join(thread, NULL);
    end(&c, END);
    check("sections one after another do not hold up a grace period", true);
}

static void test_sharing(void)
{
    pthread_t threads[50];

    tell(&a, INSIDE);
    synced = 0;
    for (int i = 0; i < 50; i++)
        threads[i] = started(synchronize, NULL);
    linger();
    check("50 grace periods wait", synced == 0);
    tell(&a, REST);
    for (int i = 0; i < 50; i++)
        pthread_join(threads[i], NULL);
    check("50 grace periods end", synced == 50);
}

#ifdef QSBR

static void test_flavour(void)
{
    pthread_t thread;

    rcu_unregister_thread();
    rcu_register_thread();
    check("a thread that registers is online", rcu_read_ongoing());
    rcu_read_lock();
    rcu_read_unlock();
    synchronize_rcu();
    check("a thread that has waited is online again", rcu_read_ongoing());
    thread = synchronizing();
    check("a grace period waits for a thread that is online", synced == 0);
    /* More than once, where it has not begun yet. */
    for (rcu_quiescent_state(); !synced; rcu_quiescent_state())
        usleep(1000);
    pthread_join(thread, NULL);
    rcu_barrier();
    check("a thread is online after a barrier", rcu_read_ongoing());
    rcu_thread_offline();
    check("a thread is offline", !rcu_read_ongoing());
    rcu_thread_online();
    rcu_thread_offline();
}

#else

static atomic_int unregistered;

static void *read_unregistered(void *argument)
{
    rcu_read_lock();
    unregistered = 1;
    while (unregistered == 1)
        usleep(1000);
    rcu_read_unlock();
    return argument;
}

static void test_flavour(void)
{
    pthread_t reader, thread;

    tell(&a, TWICE);
    tell(&a, INSIDE);
    check("a grace period waits for the outer section", waits_for(&a));
    rcu_read_lock();
    rcu_read_lock();
    rcu_read_unlock();
    check("a section is going on", rcu_read_ongoing());
    rcu_read_unlock();
    check("no section is going on", !rcu_read_ongoing());
    if (is_control)
        return;
    unregistered = 0;
    reader = started(read_unregistered, NULL);
    while (!unregistered)
        usleep(1000);
    thread = synchronizing();
    check("a grace period waits for a reader that has not registered", synced == 0);
    unregistered = 2;
    pthread_join(reader, NULL);
    pthread_join(thread, NULL);
}

#endif

/* ---- Callbacks ---- */

struct item {
    struct rcu_head head;
    int number;
};

static atomic_int ran, out_of_order;

static struct item *item_of(struct rcu_head *head)
{
    return (struct item *)((char *)head - offsetof(struct item, head));
}

static void note(struct rcu_head *head)
{
    struct item *item = item_of(head);

    out_of_order += item->number >= 0 && item->number != atomic_load(&ran);
    atomic_fetch_add(&ran, 1);
    free(item);
}

static struct rcu_head *item(int number)
{
    struct item *item = malloc(sizeof *item);

    item->number = number;
    return &item->head;
}

static void post(int from, int to)
{
    for (; from < to; from++)
        call_rcu(item(from), note);
}

static void call_again(struct rcu_head *head)
{
    free(item_of(head));
    call_rcu(item(-1), note);
}

static void read_and_wait(struct rcu_head *head)
{
    rcu_read_lock();
    rcu_read_unlock();
    synchronize_rcu();
    note(head);
}

static void *post_many(void *argument)
{
    rcu_register_thread();
    for (int i = 0; i < 5000; i++)
        call_rcu(item(-1), note);
    rcu_unregister_thread();
    return argument;
}

static void test_callbacks(void)
{
    pthread_t threads[4];

    tell(&a, INSIDE);
    ran = out_of_order = 0;
    post(0, 5000);
    linger();
    check("callbacks wait for a section", ran == 0);
    tell(&a, REST);
    rcu_barrier();
    check("a barrier waits for 5000 callbacks", ran == 5000);
    check("callbacks run in order", out_of_order == 0);
    ran = 0;
    call_rcu(item(-1), call_again);
    rcu_barrier();
    rcu_barrier();
    check("a callback may queue another", ran == 1);
    call_rcu(item(-1), read_and_wait);
    rcu_barrier();
    check("a callback may read and wait", ran == 2);
    ran = 0;
    for (int i = 0; i < 4; i++)
        threads[i] = started(post_many, NULL);
    for (int i = 0; i < 20; i++)
        rcu_barrier();
    for (int i = 0; i < 4; i++)
        pthread_join(threads[i], NULL);
    rcu_barrier();
    check("20000 callbacks of 4 threads run", ran == 20000);
}

static atomic_int kept_waiting;

static void set(struct rcu_head *head)
{
    item_of(head)->number = 1;
}

/* Each barrier waits for its own caller's callback. */
static void *barriers(void *argument)
{
    for (int i = 0; i < 50; i++) {
        struct item mine = { .number = 0 };

        call_rcu(&mine.head, set);
        rcu_barrier();
        kept_waiting += mine.number == 1;
    }
    return argument;
}

static void test_barriers(void)
{
    pthread_t threads[4];

    kept_waiting = 0;
    for (int i = 0; i < 4; i++)
        threads[i] = started(barriers, NULL);
    for (int i = 0; i < 4; i++)
        pthread_join(threads[i], NULL);
    check("barriers of 4 threads wait", kept_waiting == 200);
    ran = 0;
    enter();
    post(0, 1);
#ifndef QSBR
    rcu_barrier();
    check("a barrier within a section returns", ran == 0);
#endif
    leave();
    rcu_barrier();
    check("a barrier after the section waits", ran == 1);
}

static atomic_int has_waited;

static void *wait_and_sleep(void *argument)
{
    rcu_barrier();
    synchronize_rcu();
    has_waited = 1;
    sleep(100); /* cancelled here */
    return argument;
}

static void test_cancellation(void)
{
    pthread_t thread;
    void *result;

    tell(&a, INSIDE);
    ran = has_waited = 0;
    post(0, 1);
    thread = started(wait_and_sleep, NULL);
    linger();
    pthread_cancel(thread);
    linger();
    tell(&a, REST);
    pthread_join(thread, &result);
    check("a thread is cancelled after its wait, and not in it", result == PTHREAD_CANCELED && has_waited);
    rcu_barrier();
    synchronize_rcu();
    check("waits go on after a cancellation", ran == 1);
}

/* ---- Threads that come and go ---- */

static void *come_and_go(void *argument)
{
    rcu_register_thread();
    rcu_unregister_thread();
    return argument;
}

/* A hundred at a time, and more in all than may be registered at one time. */
static void test_places(void)
{
    pthread_t threads[100];

    for (int i = 0; i < 17000; i++) {
        if (i >= 100)
            pthread_join(threads[i % 100], NULL);
        threads[i % 100] = started(come_and_go, NULL);
    }
    for (int i = 0; i < 100; i++)
        pthread_join(threads[i], NULL);
    check("17000 threads come and go", true);
}

static void test_many_threads(void)
{
    static struct puppet many[300];

    for (int i = 0; i < 300; i++)
        make(&many[i]);
    for (int i = 0; i < 300; i += 299) {
        tell(&many[i], INSIDE);
        check("a grace period waits for each of 300 threads", waits_for(&many[i]));
    }
    for (int i = 0; i < 300; i++)
        end(&many[i], END);
    synchronize_rcu();
}

static void test_silent_ends(void)
{
    end(&b, END_SILENTLY);
    synchronize_rcu();
    make(&b);
    tell(&b, INSIDE);
    end(&b, END_SILENTLY);
    synchronize_rcu();
    make(&b);
    check("threads may end without unregistering, inside a section too", true);
}

/* ---- Polls: of the drop-in they are looked up, since 0.13's headers have none ---- */

#ifdef LIBURCU
#ifdef QSBR
#define POLL(name) "urcu_qsbr_" name
#elif defined(RCU_MB)
#define POLL(name) "urcu_mb_" name
#else
#define POLL(name) "urcu_memb_" name
#endif

static unsigned long start_poll(void)
{
    return ((unsigned long (*)(void))dlsym(RTLD_DEFAULT, POLL("start_poll_synchronize_rcu")))();
}

static bool poll_state(unsigned long state)
{
    return ((bool (*)(unsigned long))dlsym(RTLD_DEFAULT, POLL("poll_state_synchronize_rcu")))(state);
}
#endif

static void test_polls(void)
{
    tell(&a, INSIDE);
    __auto_type first = start_poll();
    linger();
    __auto_type second = start_poll();
    check("a poll waits for a section", !poll_state(first) && !poll_state(second));
    tell(&a, REST);
    while (!poll_state(second))
        usleep(1000);
    check("a poll is over", poll_state(first));
}

/* ---- Fork ---- */

/* The exit status of a child, which an alarm ends after 20 seconds. */
static bool is_fine(pid_t child)
{
    int status = 1;

    waitpid(child, &status, 0);
    return WIFEXITED(status) && WEXITSTATUS(status) == 0;
}

static void live_on(void)
{
    bool is_right;

    alarm(20);
    synchronize_rcu(); /* the section of a is not here */
    rcu_barrier();
    is_right = ran == 100; /* the callbacks are copies, which run here too */
    call_rcu(item(-1), note);
    rcu_barrier();
    __auto_type state = start_poll();
    while (!poll_state(state))
        usleep(1000);
    _exit(!is_right || ran != 101);
}

static void *post_and_wait(void *argument)
{
    post_many(NULL);
    rcu_barrier();
    return argument;
}

static int forks(int many)
{
    int fine = 0;
    pid_t child;

    while (many-- > 0) {
        if ((child = fork()) == 0) {
            alarm(20);
            rcu_barrier();
            synchronize_rcu();
            _exit(0);
        }
        fine += is_fine(child);
    }
    return fine;
}

static atomic_int fine_in_callback;

static void fork_within(struct rcu_head *head)
{
    pid_t child = fork();

    if (child == 0) {
        alarm(20);
        rcu_read_lock();
        rcu_read_unlock();
        synchronize_rcu();
        _exit(0);
    }
    fine_in_callback = is_fine(child);
    free(item_of(head));
}

static void *wait_for_all(void *argument)
{
    rcu_barrier();
    return argument;
}

/* How many threads post and wait beside forks. Under the address sanitizer none: its child may find a lock of the
 * sanitizer's taken. */
#ifdef __SANITIZE_ADDRESS__
enum { AMID = 0 };
#else
enum { AMID = 3 };
#endif

static void test_forks(void)
{
    pthread_t threads[3];
    pid_t child;

    tell(&a, INSIDE);
    ran = 0;
    post(0, 100);
    threads[0] = started(wait_for_all, NULL);
    linger();
    if ((child = fork()) == 0)
        live_on();
    check("a forked child goes on alone", is_fine(child));
    check("the parent's callbacks still wait", ran == 0);
    tell(&a, REST);
    pthread_join(threads[0], NULL);
    check("the parent's callbacks run", ran == 100);
    for (int i = 0; i < AMID; i++)
        threads[i] = started(post_and_wait, NULL);
    check("20 forks amid callbacks and barriers", forks(AMID ? 20 : 0) == (AMID ? 20 : 0));
    for (int i = 0; i < AMID; i++)
        pthread_join(threads[i], NULL);
    call_rcu(item(-1), fork_within);
    rcu_barrier();
    check("a callback may fork", fine_in_callback);
}

#ifdef LIBURCU
#include "workers.h"
#else
static void test_liburcu(void)
{
}
#endif

int main(int count, char **words)
{
    is_control = count > 1 && strcmp(words[1], "control") == 0;
    rcu_register_thread();
    rest();
    make(&a);
    make(&b);
    test_sections();
    test_sharing();
    test_flavour();
    test_callbacks();
    test_barriers();
    test_cancellation();
    test_many_threads();
    test_places();
    test_liburcu();
    if (!is_control) {
        test_silent_ends();
        test_polls();
        test_forks();
    }
    end(&a, END);
    end(&b, END);
    rcu_unregister_thread();
    printf("%d passed, %d failed\n", passed, failed);
    return failed > 0;
}
