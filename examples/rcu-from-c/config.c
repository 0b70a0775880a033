/* A configuration that threads read while it is replaced: config [REPLACEMENTS]
 *
 *     ./install "$HOME/robiniagolf"
 *     export PKG_CONFIG_PATH=$HOME/robiniagolf/lib/pkgconfig
 *     cc examples/rcu-from-c/config.c $(pkg-config --cflags --libs robiniagolf) -o config
 *
 * Each old one is freed once no reader can hold it. The last line is 'replaced N freed N'. */
#include <robiniagolf/rcu.h>

#include <pthread.h>
#include <stdatomic.h>
#include <stdio.h>
#include <stdlib.h>

enum { READERS = 3 };

struct config {
    struct robiniagolf_head head;
    unsigned long low, high; /* high is always twice low */
};

static _Atomic(struct config *) current;
static atomic_bool over;
static atomic_ulong wrong;
static unsigned long freed; /* by the thread of the library alone */

static struct config *make(unsigned long low)
{
    struct config *config = malloc(sizeof *config);

    if (!config)
        exit(2);
    config->low = low;
    config->high = 2 * low;
    return config;
}

static void free_config(struct robiniagolf_head *head)
{
    struct config *config = (struct config *)((char *)head - offsetof(struct config, head));

    config->low = config->high + 1;
    free(config);
    freed++;
}

static void *use(void *unused)
{
    struct config *config;

    robiniagolf_memb_register_thread();
    while (!atomic_load(&over)) {
        robiniagolf_memb_read_lock();
        config = atomic_load(&current); /* whole until the unlock */
        if (config->high != 2 * config->low)
            atomic_fetch_add(&wrong, 1);
        robiniagolf_memb_read_unlock();
    }
    robiniagolf_memb_unregister_thread();
    return unused;
}

static void replace(struct config *config)
{
    struct config *old = atomic_exchange(&current, config); /* first it is taken away, */

    robiniagolf_memb_call_rcu(&old->head, free_config); /* and freed after a grace period */
}

int main(int count, char **words)
{
    unsigned long many = count > 1 ? strtoul(words[1], NULL, 10) : 100000;
    pthread_t threads[READERS];

    atomic_store(&current, make(1));
    for (int i = 0; i < READERS; i++)
        if (pthread_create(&threads[i], NULL, use, NULL))
            return 2;
    for (unsigned long i = 2; i < many + 2; i++)
        replace(make(i));
    atomic_store(&over, true);
    for (int i = 0; i < READERS; i++)
        pthread_join(threads[i], NULL);
    robiniagolf_memb_barrier(); /* all of them are freed, and nothing runs any more */
    printf("replaced %lu freed %lu\n", many, freed);
    free(atomic_load(&current));
    return wrong > 0 || freed != many;
}
