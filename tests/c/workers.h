/* Of waiting.c: what liburcu has besides, call_rcu_data, defer_rcu and the calls around a fork. */

static atomic_int chain_left;
static pthread_t chain_thread;

/* Queues itself again. */
static void chain(struct rcu_head *head)
{
    chain_thread = pthread_self();
    if (atomic_fetch_sub(&chain_left, 1) > 1)
        call_rcu(head, chain);
    else
        free(item_of(head));
}

static void *let_go(void *puppet)
{
    linger();
    tell(puppet, REST);
    return NULL;
}

static atomic_int after_barrier;

static void *barrier_aside(void *argument)
{
    rcu_barrier();
    after_barrier = atomic_load(&ran);
    return argument;
}

static void test_own_worker(struct call_rcu_data *worker)
{
    pthread_t thread;

    ran = out_of_order = 0;
    post(0, 1000);
    rcu_barrier();
    check("1000 callbacks run in a worker of one's own", ran == 1000 && out_of_order == 0);
    chain_left = 1;
    call_rcu(item(-1), chain);
    rcu_barrier();
    check("they run in its thread", chain_left == 0 && pthread_equal(chain_thread, get_call_rcu_thread(worker)));
    tell(&a, INSIDE);
    post(1000, 2000);
    after_barrier = 0;
    thread = started(barrier_aside, NULL);
    linger();
    check("a barrier waits for that worker", after_barrier == 0);
    tell(&a, REST);
    pthread_join(thread, NULL);
    check("a barrier has waited for that worker", after_barrier == 2000);
}

static atomic_int slow_at, slow_begun;

static void be_slow(struct rcu_head *head)
{
    slow_at = 1;
    slow_begun++;
    linger();
    linger();
    free(item_of(head));
    slow_at = 2;
}

static void *barrier_beside_slow(void *argument)
{
    while (slow_at == 0)
        usleep(1000);
    return barrier_aside(argument);
}

/* A worker goes away with callbacks left; a barrier comes while the last one runs that it runs itself. */
static void test_freed_worker(struct call_rcu_data *worker)
{
    pthread_t of_worker = get_call_rcu_thread(worker), thread, barrier;

    tell(&a, INSIDE);
    chain_left = 50;
    call_rcu(item(-1), chain);
    post(2000, 3000);
    linger();
    slow_at = 0;
    call_rcu(item(-1), be_slow);
    set_thread_call_rcu_data(NULL);
    barrier = started(barrier_beside_slow, NULL);
    thread = started(let_go, &a);
    call_rcu_data_free(worker);
    pthread_join(thread, NULL);
    pthread_join(barrier, NULL);
    check("a thread of a freed worker can be joined", pthread_join(of_worker, NULL) == 0);
    for (int i = 0; i < 60; i++)
        rcu_barrier();
    check("a callback that queues itself goes on elsewhere", chain_left == 0);
    check("what a freed worker has left runs as well", ran == 3000 && out_of_order == 0);
}

static void test_processors(void)
{
    struct call_rcu_data *standard = get_default_call_rcu_data();

    check("the standard worker is there", standard && get_call_rcu_data() == standard);
    call_rcu_data_free(standard);
    check("no worker of a processor", get_cpu_call_rcu_data(0) == NULL);
    check("workers of processors", create_all_cpu_call_rcu_data(0) == 0 && get_cpu_call_rcu_data(0));
    check("a worker of a processor that has one", set_cpu_call_rcu_data(0, standard) == -EEXIST);
    check("a worker of no processor", set_cpu_call_rcu_data(-1, NULL) == -EINVAL && !get_cpu_call_rcu_data(-1));
    ran = 0;
    post(0, 1000);
    rcu_barrier();
    check("1000 callbacks run with workers of processors", ran == 1000);
    free_all_cpu_call_rcu_data();
    check("no worker of a processor any more", get_cpu_call_rcu_data(0) == NULL);
}

static void add(void *number)
{
    atomic_fetch_add((atomic_int *)number, 1);
}

static void test_deferred(void)
{
    atomic_int deferred = 0;

    check("a thread that defers", rcu_defer_register_thread() == 0);
    tell(&a, INSIDE);
    for (int i = 0; i < 100; i++)
        defer_rcu(add, &deferred);
    linger();
    check("deferred calls wait", deferred == 0);
    tell(&a, REST);
    rcu_defer_barrier();
    check("deferred calls run", deferred == 100);
    defer_rcu(add, &deferred);
    rcu_defer_barrier_thread();
    check("one's own deferred calls run", deferred == 101);
    rcu_defer_unregister_thread();
}

static void test_fork_calls(void)
{
    pid_t child;

    slow_at = 0;
    call_rcu(item(-1), be_slow);
    while (!slow_at)
        usleep(1000);
    call_rcu_before_fork();
    check("no callback runs before a fork", slow_at == 2);
    call_rcu_after_fork_parent();
    ran = 0;
    post(0, 100);
    call_rcu_before_fork();
    if ((child = fork()) == 0) {
        alarm(20);
        call_rcu_after_fork_child();
        post(ran, ran + 1);
        rcu_barrier();
        _exit(ran != 101);
    }
    call_rcu_after_fork_parent();
    check("a child after the calls of a fork", is_fine(child));
    rcu_barrier();
    check("the parent after them", ran == 100);
}

static void *free_worker(void *worker)
{
    call_rcu_data_free(worker);
    return NULL;
}

static void call_slow(int times)
{
    call_rcu(item(-1), be_slow);
    while (slow_begun < times)
        usleep(1000);
}

/* A fork is coming while a worker ends, in its last batch. */
static void test_freed_beside_fork(void)
{
    struct call_rcu_data *worker = create_call_rcu_data(0, -1);
    pthread_t of_worker = get_call_rcu_thread(worker), thread;

    set_thread_call_rcu_data(worker);
    slow_begun = 0;
    call_slow(1);
    thread = started(free_worker, worker);
    call_slow(2);
    set_thread_call_rcu_data(NULL);
    call_rcu_before_fork();
    check("a fork waits for a worker that ends", slow_at == 2);
    call_rcu_after_fork_parent();
    pthread_join(thread, NULL);
    check("a worker that ended beside a fork can be joined", pthread_join(of_worker, NULL) == 0);
}

/* Workers are freed while another thread waits for barriers, which start each worker that does not run. */
static void test_freed_beside_barriers(void)
{
    struct call_rcu_data *worker;
    pthread_t of_worker, thread;

    ran = out_of_order = 0;
    for (int i = 0; i < 50; i++) {
        worker = create_call_rcu_data(0, -1);
        of_worker = get_call_rcu_thread(worker);
        set_thread_call_rcu_data(worker);
        post(ran, ran + 10);
        set_thread_call_rcu_data(NULL);
        thread = started(barrier_aside, NULL);
        call_rcu_data_free(worker);
        pthread_join(thread, NULL);
        pthread_join(of_worker, NULL);
        rcu_barrier();
    }
    check("workers are freed beside barriers", ran == 500 && out_of_order == 0);
}

static void test_liburcu(void)
{
    struct call_rcu_data *worker = create_call_rcu_data(0, -1);

    set_thread_call_rcu_data(worker);
    check("a worker of one's own", get_thread_call_rcu_data() == worker && get_call_rcu_data() == worker);
    test_own_worker(worker);
    test_freed_worker(worker);
    test_processors();
    test_deferred();
    test_fork_calls();
    test_freed_beside_barriers();
    test_freed_beside_fork();
}
