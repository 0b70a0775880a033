/* What the benchmark holds the live library against: liburcu's flavours where they are installed, pthread_rwlock, and
   the bare steps of a section and of a grace period. Built by bench/live. Usage: peers PEER KIND COUNT THREADS. */

#define _GNU_SOURCE
#include <pthread.h>
#include <sched.h>
#include <stdatomic.h>
#include <stdint.h>
#include <stdio.h>
#include <stdlib.h>
#include <string.h>
#include <time.h>

#ifdef HAS_URCU
#define _LGPL_SOURCE /* its small functions inline */
#include <urcu/urcu-mb.h>
#include <urcu/urcu-memb.h>
#include <urcu/urcu-qsbr.h>
#include <urcu/rculfhash.h>
#include <urcu/rculist.h>
#endif

static unsigned long count;
static int threads;

/* One thread's work, `count` times. */
typedef void work(void);

/* The bare steps: one load and two exchanges, each word in a line of its own. */
static _Alignas(128) atomic_ulong present;
static struct {
	_Alignas(128) atomic_ulong word;
} slots[256];
static atomic_uint claimed;

static void bare_section(void)
{
	atomic_ulong *word = &slots[atomic_fetch_add(&claimed, 1)].word;
	for (unsigned long i = 0; i < count; i++) {
		atomic_exchange(word, 1 + (atomic_load(&present) << 16));
		atomic_exchange(word, 0);
	}
}

static void bare_nested(void)
{
	atomic_ulong *word = &slots[atomic_fetch_add(&claimed, 1)].word;
	atomic_exchange(word, 1);
	for (unsigned long i = 0; i < count; i++) {
		atomic_exchange(word, 2);
		atomic_exchange(word, 1);
	}
}

/* The bare steps of a grace period, two readers in 256 slots: a lock, the number odd, a flip, each group word and the
   slots whose bit is set, a flip back, the same again, the number even. Nobody is in the way. */
static _Alignas(128) atomic_ulong number;
static _Alignas(128) atomic_ulong groups[4];
static pthread_mutex_t grace = PTHREAD_MUTEX_INITIALIZER;

static unsigned long bare_scan(void)
{
	unsigned long in_the_way = 0;
	for (unsigned long g = 0; g < 4; g++)
		for (unsigned long bits = atomic_load(&groups[g]); bits; bits &= bits - 1)
			in_the_way |= atomic_load(&slots[64 * g + (unsigned long) __builtin_ctzl(bits)].word) & 0xffff;
	return in_the_way;
}

static void bare_synchronize(void)
{
	atomic_store(&groups[0], 3);
	for (unsigned long i = 0; i < count; i++) {
		unsigned long cookie = (atomic_load(&number) + 3) & ~1ul;
		pthread_mutex_lock(&grace);
		unsigned long seq = atomic_load(&number);
		if (seq < cookie) {
			unsigned long phase = atomic_load(&present);
			atomic_exchange(&number, seq + 1);
			atomic_exchange(&present, phase ^ 1);
			while (bare_scan())
				sched_yield();
			atomic_exchange(&present, phase);
			while (bare_scan())
				sched_yield();
			atomic_exchange(&number, seq + 2);
		}
		pthread_mutex_unlock(&grace);
	}
}

/* A record of four words, and a chain of records, each in a line of its own. */
struct record {
	_Alignas(64) _Atomic(struct record *) next;
	atomic_ulong words[4];
};
static struct record records[1000];
static _Atomic(struct record *) first;
static _Thread_local volatile unsigned long sink;

static void link_records(void)
{
	for (int i = 0; i < 1000; i++) {
		struct record *record = &records[i];
		for (int k = 0; k < 4; k++)
			atomic_store(&record->words[k], i);
		atomic_store(&record->next, atomic_load(&first));
		atomic_store(&first, record);
	}
}

static unsigned long words_of(struct record *record)
{
	unsigned long sum = 0;
	for (int k = 0; k < 4; k++)
		sum ^= atomic_load_explicit(&record->words[k], memory_order_relaxed);
	return sum;
}

static void bare_read(void)
{
	atomic_ulong *word = &slots[atomic_fetch_add(&claimed, 1)].word;
	for (unsigned long i = 0; i < count; i++) {
		atomic_exchange(word, 1 + (atomic_load(&present) << 16));
		sink = words_of(atomic_load(&first));
		atomic_exchange(word, 0);
	}
}

static void bare_further_read(void)
{
	struct record *record = atomic_load(&first);
	for (unsigned long i = 0; i < count; i++)
		sink = words_of(record);
}

static void bare_walk(void)
{
	struct record *at = atomic_load(&first);
	for (unsigned long i = 0; i < count; i++)
		at = at ? atomic_load(&at->next) : atomic_load(&first);
	sink = (unsigned long) at;
}

static pthread_rwlock_t lock = PTHREAD_RWLOCK_INITIALIZER;

static void rwlock_section(void)
{
	for (unsigned long i = 0; i < count; i++) {
		pthread_rwlock_rdlock(&lock);
		pthread_rwlock_unlock(&lock);
	}
}

#ifdef HAS_URCU
#define FLAVOUR(name)                                                                                                  \
	static void name##_section(void)                                                                               \
	{                                                                                                              \
		urcu_##name##_register_thread();                                                                       \
		for (unsigned long i = 0; i < count; i++) {                                                            \
			urcu_##name##_read_lock();                                                                     \
			urcu_##name##_read_unlock();                                                                   \
		}                                                                                                      \
		urcu_##name##_unregister_thread();                                                                     \
	}                                                                                                              \
	static void name##_nested(void)                                                                                \
	{                                                                                                              \
		urcu_##name##_register_thread();                                                                       \
		urcu_##name##_read_lock();                                                                             \
		for (unsigned long i = 0; i < count; i++) {                                                            \
			urcu_##name##_read_lock();                                                                     \
			urcu_##name##_read_unlock();                                                                   \
		}                                                                                                      \
		urcu_##name##_read_unlock();                                                                           \
		urcu_##name##_unregister_thread();                                                                     \
	}                                                                                                              \
	static void name##_read(void)                                                                                  \
	{                                                                                                              \
		urcu_##name##_register_thread();                                                                       \
		for (unsigned long i = 0; i < count; i++) {                                                            \
			urcu_##name##_read_lock();                                                                     \
			sink = words_of(atomic_load_explicit(&first, memory_order_consume));                           \
			urcu_##name##_read_unlock();                                                                   \
		}                                                                                                      \
		urcu_##name##_unregister_thread();                                                                     \
	}                                                                                                              \
	static void *name##_idle(void *ready)                                                                          \
	{                                                                                                              \
		urcu_##name##_register_thread();                                                                       \
		name##_leave();                                                                                        \
		pthread_barrier_wait(ready);                                                                           \
		pthread_barrier_wait(ready);                                                                           \
		urcu_##name##_unregister_thread();                                                                     \
		return NULL;                                                                                           \
	}                                                                                                              \
	/* With two readers that are registered and in no section. */                                                  \
	static void name##_synchronize(void)                                                                           \
	{                                                                                                              \
		pthread_barrier_t ready;                                                                               \
		pthread_t readers[2];                                                                                  \
		pthread_barrier_init(&ready, NULL, 3);                                                                 \
		for (int i = 0; i < 2; i++)                                                                            \
			pthread_create(&readers[i], NULL, name##_idle, &ready);                                        \
		pthread_barrier_wait(&ready);                                                                          \
		for (unsigned long i = 0; i < count; i++)                                                              \
			urcu_##name##_synchronize_rcu();                                                               \
		pthread_barrier_wait(&ready);                                                                          \
		for (int i = 0; i < 2; i++)                                                                            \
			pthread_join(readers[i], NULL);                                                                \
	}

static void mb_leave(void)
{
}
static void memb_leave(void)
{
}
static void qsbr_leave(void)
{
	urcu_qsbr_thread_offline();
}
FLAVOUR(mb)
FLAVOUR(memb)
FLAVOUR(qsbr)

/* The headers declare these of the first flavour alone. */
void urcu_memb_call_rcu(struct rcu_head *head, void (*callback)(struct rcu_head *head));
void urcu_memb_barrier(void);
void urcu_qsbr_call_rcu(struct rcu_head *head, void (*callback)(struct rcu_head *head));
void urcu_qsbr_barrier(void);

/* A place for each thread that updates, in a line of its own. */
struct node {
	struct rcu_head head;
	unsigned long words[4];
};
static struct {
	_Alignas(128) struct node *node;
} places[16];

/* About as many nodes wait to be freed as a pool of 65,536 records lets wait; an updater looks now and then. */
#define MOST_WAITING 60000
#define LOOK_EVERY 1000
static _Alignas(128) atomic_ulong retired;
static _Alignas(128) atomic_ulong freed; /* the one thread of call_rcu stores it */

static struct node *new_node(unsigned long word)
{
	struct node *node = malloc(sizeof *node);
	for (int k = 0; k < 4; k++)
		node->words[k] = word;
	return node;
}

static void free_node(struct rcu_head *head)
{
	free(caa_container_of(head, struct node, head));
	atomic_store_explicit(&freed, atomic_load_explicit(&freed, memory_order_relaxed) + 1, memory_order_relaxed);
}

static int are_many(void)
{
	return atomic_load(&retired) > atomic_load(&freed) + MOST_WAITING;
}

static unsigned long look_into(struct node *node)
{
	return node ? node->words[0] ^ node->words[1] ^ node->words[2] ^ node->words[3] : 0;
}

#define RECLAIM(name)                                                                                                  \
	static void name##_replace(int place, unsigned long word)                                                      \
	{                                                                                                              \
		struct node *old = rcu_xchg_pointer(&places[place].node, new_node(word));                              \
		urcu_##name##_call_rcu(&old->head, free_node);                                                         \
	}                                                                                                              \
	/* Waits while as many are waiting as a full pool has. */                                                      \
	static void name##_replace_some(int place, unsigned long word)                                                 \
	{                                                                                                              \
		static _Thread_local unsigned mine;                                                                    \
		name##_replace(place, word);                                                                           \
		if (++mine % LOOK_EVERY)                                                                               \
			return;                                                                                        \
		atomic_fetch_add(&retired, LOOK_EVERY);                                                                \
		if (!are_many())                                                                                       \
			return;                                                                                        \
		name##_leave();                                                                                        \
		while (are_many())                                                                                     \
			sched_yield();                                                                                 \
		name##_enter();                                                                                        \
	}                                                                                                              \
	static void name##_queue(void)                                                                                 \
	{                                                                                                              \
		urcu_##name##_register_thread();                                                                       \
		places[0].node = new_node(0);                                                                          \
		for (unsigned long i = 0; i < count; i++)                                                              \
			name##_replace(0, i);                                                                          \
		urcu_##name##_unregister_thread();                                                                     \
	}                                                                                                              \
	static void name##_retire_all(void)                                                                            \
	{                                                                                                              \
		name##_queue();                                                                                        \
		urcu_##name##_barrier();                                                                               \
	}                                                                                                              \
	static void name##_retire(void)                                                                                \
	{                                                                                                              \
		urcu_##name##_register_thread();                                                                       \
		places[0].node = new_node(0);                                                                          \
		for (unsigned long i = 0; i < count; i++)                                                              \
			name##_replace_some(0, i);                                                                     \
		urcu_##name##_unregister_thread();                                                                     \
		urcu_##name##_barrier();                                                                               \
	}                                                                                                              \
	static void name##_barrier(void)                                                                               \
	{                                                                                                              \
		urcu_##name##_register_thread();                                                                       \
		places[0].node = new_node(0);                                                                          \
		for (unsigned long i = 0; i < count; i++) {                                                            \
			name##_replace(0, i);                                                                          \
			urcu_##name##_barrier();                                                                       \
		}                                                                                                      \
		urcu_##name##_unregister_thread();                                                                     \
	}                                                                                                              \
	/* Reads the places in turn, and updates its own once in 100 times. */                                         \
	static void name##_mix(void)                                                                                   \
	{                                                                                                              \
		int place = atomic_fetch_add(&claimed, 1);                                                             \
		urcu_##name##_register_thread();                                                                       \
		rcu_set_pointer(&places[place].node, new_node(0));                                                     \
		for (unsigned long i = 0; i < count; i++) {                                                            \
			if (i % 100 == 0) {                                                                            \
				name##_replace_some(place, i);                                                         \
				name##_announce();                                                                     \
				continue;                                                                              \
			}                                                                                              \
			urcu_##name##_read_lock();                                                                     \
			sink = look_into(rcu_dereference(places[i % threads].node));                                   \
			urcu_##name##_read_unlock();                                                                   \
		}                                                                                                      \
		urcu_##name##_unregister_thread();                                                                     \
		urcu_##name##_barrier();                                                                               \
	}

static void mb_enter(void)
{
}
static void memb_enter(void)
{
}
static void qsbr_enter(void)
{
	urcu_qsbr_thread_online();
}
static void mb_announce(void)
{
}
static void memb_announce(void)
{
}
static void qsbr_announce(void)
{
	urcu_qsbr_quiescent_state();
}
RECLAIM(mb)
RECLAIM(memb)
RECLAIM(qsbr)

/* A list of nodes of four words: a step along 1,000 of them, one put in front, and one that is taken out too. */
struct item {
	struct cds_list_head link;
	unsigned long words[4];
};
static CDS_LIST_HEAD(items);

static struct item *add_item(unsigned long word)
{
	struct item *item = malloc(sizeof *item);
	for (int k = 0; k < 4; k++)
		item->words[k] = word;
	cds_list_add_rcu(&item->link, &items);
	return item;
}

static void list_push(void)
{
	for (unsigned long i = 0; i < count; i++)
		add_item(i);
}

static void list_cut(void)
{
	for (unsigned long i = 0; i < count; i++)
		cds_list_del_rcu(&add_item(i)->link);
}

static void mb_walk(void)
{
	for (int i = 0; i < 1000; i++)
		add_item(i);
	urcu_mb_register_thread();
	urcu_mb_read_lock();
	struct cds_list_head *at = &items;
	for (unsigned long i = 0; i < count; i++)
		at = rcu_dereference(at->next);
	sink = (unsigned long) at;
	urcu_mb_read_unlock();
	urcu_mb_unregister_thread();
}

/* A hash table of entries by their keys, of this many buckets for good, and the keys that are looked up. */
struct entry {
	struct cds_lfht_node node;
	struct rcu_head head;
	unsigned long key, value;
};
static struct cds_lfht *table;
static pthread_once_t once = PTHREAD_ONCE_INIT;

#define SMALL 1024 /* keys, and buckets */
#define MANY 65535 /* keys */
#define LARGE 4096 /* buckets */
#define OTHERS (1ul << 20) /* from here on no key is there */
#define GROWING 10000 /* keys of a table that grows */
#define BELOW_GROWING 8191
#define STRIDE 40503 /* odd: from key to key, all of a power of two */

static atomic_int over;

static unsigned long nanoseconds(void)
{
	struct timespec now;
	clock_gettime(CLOCK_MONOTONIC, &now);
	return 1000000000ul * now.tv_sec + now.tv_nsec;
}

static int has_key(struct cds_lfht_node *node, const void *key)
{
	return caa_container_of(node, struct entry, node)->key == *(const unsigned long *) key;
}

/* Ours takes no hash, but the key; so does this. */
static struct entry *find(unsigned long key)
{
	struct cds_lfht_iter found;
	cds_lfht_lookup(table, key, has_key, &key, &found);
	struct cds_lfht_node *node = cds_lfht_iter_get_node(&found);
	return node ? caa_container_of(node, struct entry, node) : NULL;
}

static struct entry *add_entry(unsigned long key)
{
	struct entry *entry = malloc(sizeof *entry);
	entry->key = entry->value = key;
	cds_lfht_add_unique(table, key, has_key, &key, &entry->node);
	return entry;
}

static void free_entry(struct rcu_head *head)
{
	free(caa_container_of(head, struct entry, head));
}

extern const struct rcu_flavor_struct urcu_mb_flavor, urcu_memb_flavor, urcu_qsbr_flavor;

#define TABLE(name)                                                                                                    \
	static void name##_fill(unsigned long buckets, unsigned long keys)                                             \
	{                                                                                                              \
		table = cds_lfht_new_flavor(buckets, buckets, 2 * buckets, 0, &urcu_##name##_flavor, NULL);            \
		urcu_##name##_register_thread();                                                                       \
		urcu_##name##_read_lock();                                                                             \
		for (unsigned long key = 0; key < keys; key++)                                                         \
			add_entry(key);                                                                                \
		urcu_##name##_read_unlock();                                                                           \
		urcu_##name##_unregister_thread();                                                                     \
	}                                                                                                              \
	static void name##_fill_small(void)                                                                            \
	{                                                                                                              \
		name##_fill(SMALL, SMALL);                                                                             \
	}                                                                                                              \
	static void name##_fill_large(void)                                                                            \
	{                                                                                                              \
		name##_fill(LARGE, MANY);                                                                              \
	}                                                                                                              \
	static void name##_look_up(unsigned long mask, unsigned long from)                                             \
	{                                                                                                              \
		urcu_##name##_register_thread();                                                                       \
		for (unsigned long i = 0; i < count; i++) {                                                            \
			urcu_##name##_read_lock();                                                                     \
			struct entry *entry = find(((i * STRIDE) & mask) ^ from);                                      \
			sink = entry ? entry->value : 0;                                                               \
			urcu_##name##_read_unlock();                                                                   \
		}                                                                                                      \
		urcu_##name##_unregister_thread();                                                                     \
	}                                                                                                              \
	static void name##_hit(void)                                                                                   \
	{                                                                                                              \
		pthread_once(&once, name##_fill_small);                                                                \
		name##_look_up(SMALL - 1, 0);                                                                          \
	}                                                                                                              \
	static void name##_miss(void)                                                                                  \
	{                                                                                                              \
		pthread_once(&once, name##_fill_small);                                                                \
		name##_look_up(SMALL - 1, OTHERS);                                                                     \
	}                                                                                                              \
	static void name##_hit_large(void)                                                                             \
	{                                                                                                              \
		pthread_once(&once, name##_fill_large);                                                                \
		name##_look_up(MANY, 0);                                                                               \
	}                                                                                                              \
	static void name##_miss_large(void)                                                                            \
	{                                                                                                              \
		pthread_once(&once, name##_fill_large);                                                                \
		name##_look_up(MANY, OTHERS);                                                                          \
	}                                                                                                              \
	static void name##_through(void)                                                                               \
	{                                                                                                              \
		pthread_once(&once, name##_fill_small);                                                                \
		urcu_##name##_register_thread();                                                                       \
		for (unsigned long i = 0; i < count;) {                                                                \
			struct cds_lfht_iter at;                                                                       \
			struct entry *entry;                                                                           \
			urcu_##name##_read_lock();                                                                     \
			cds_lfht_for_each_entry (table, &at, entry, node) {                                            \
				sink = entry->value;                                                                   \
				i++;                                                                                   \
			}                                                                                              \
			urcu_##name##_read_unlock();                                                                   \
		}                                                                                                      \
		urcu_##name##_unregister_thread();                                                                     \
	}                                                                                                              \
	static void name##_fill_none(void)                                                                             \
	{                                                                                                              \
		name##_fill(LARGE, 0);                                                                                 \
	}                                                                                                              \
	/* Each of the threads has keys of its own, one after another. */                                              \
	static void name##_insert(void)                                                                                \
	{                                                                                                              \
		pthread_once(&once, name##_fill_none);                                                                 \
		unsigned long hand = atomic_fetch_add(&claimed, 1);                                                    \
		urcu_##name##_register_thread();                                                                       \
		for (unsigned long i = 0; i < count; i++) {                                                            \
			urcu_##name##_read_lock();                                                                     \
			add_entry(hand * count + i);                                                                   \
			urcu_##name##_read_unlock();                                                                   \
		}                                                                                                      \
		urcu_##name##_unregister_thread();                                                                     \
	}                                                                                                              \
	/* An entry is looked for by its key, as ours is. */                                                           \
	static void name##_remove(void)                                                                                \
	{                                                                                                              \
		name##_fill_small();                                                                                   \
		urcu_##name##_register_thread();                                                                       \
		for (unsigned long i = 0; i < count; i++) {                                                            \
			urcu_##name##_read_lock();                                                                     \
			add_entry(i ^ OTHERS);                                                                         \
			struct entry *entry = find(i ^ OTHERS);                                                        \
			cds_lfht_del(table, &entry->node);                                                             \
			urcu_##name##_read_unlock();                                                                   \
			urcu_##name##_call_rcu(&entry->head, free_entry);                                              \
		}                                                                                                      \
		urcu_##name##_unregister_thread();                                                                     \
	}                                                                                                              \
	/* By turns to twice as many buckets, and back. */                                                             \
	static void name##_resize(unsigned long times)                                                                 \
	{                                                                                                              \
		urcu_##name##_register_thread();                                                                       \
		for (unsigned long i = 0; i < times && !atomic_load(&over); i++)                                       \
			cds_lfht_resize(table, i % 2 ? SMALL : 2 * SMALL);                                             \
		urcu_##name##_unregister_thread();                                                                     \
	}                                                                                                              \
	static void name##_grow(void)                                                                                  \
	{                                                                                                              \
		name##_fill(SMALL, GROWING);                                                                           \
		name##_resize(count);                                                                                  \
	}                                                                                                              \
	static void *name##_grow_on(void *it)                                                                          \
	{                                                                                                              \
		name##_resize(-1ul);                                                                                   \
		return it;                                                                                             \
	}                                                                                                              \
	static void name##_hit_while_growing(void)                                                                     \
	{                                                                                                              \
		pthread_t growing;                                                                                     \
		name##_fill(SMALL, GROWING);                                                                           \
		pthread_create(&growing, NULL, name##_grow_on, NULL);                                                  \
		name##_look_up(BELOW_GROWING, 0);                                                                      \
		atomic_store(&over, 1);                                                                                \
		pthread_join(growing, NULL);                                                                           \
	}                                                                                                              \
	/* Writes the time of the slowest lookup, in billionths of the time of all. */                                 \
	static void name##_slowest_while_growing(void)                                                                 \
	{                                                                                                              \
		pthread_t growing;                                                                                     \
		unsigned long longest = 0;                                                                             \
		name##_fill(SMALL, GROWING);                                                                           \
		pthread_create(&growing, NULL, name##_grow_on, NULL);                                                  \
		urcu_##name##_register_thread();                                                                       \
		unsigned long began = nanoseconds();                                                                   \
		for (unsigned long i = 0; i < count; i++) {                                                            \
			unsigned long before = nanoseconds();                                                          \
			urcu_##name##_read_lock();                                                                     \
			sink = find((i * STRIDE) & BELOW_GROWING)->value;                                              \
			urcu_##name##_read_unlock();                                                                   \
			unsigned long took = nanoseconds() - before;                                                   \
			longest = took > longest ? took : longest;                                                     \
		}                                                                                                      \
		printf("%.0f\n", 1e9 * longest / (nanoseconds() - began));                                             \
		urcu_##name##_unregister_thread();                                                                     \
		atomic_store(&over, 1);                                                                                \
		pthread_join(growing, NULL);                                                                           \
	}

TABLE(mb)
TABLE(memb)
TABLE(qsbr)

/* Polls came with liburcu 0.14. */
#if __has_include(<urcu/urcu-poll.h>)
#define HAS_POLL
#define POLL(name)                                                                                                     \
	static void name##_poll(void)                                                                                  \
	{                                                                                                              \
		struct urcu_gp_poll_state state = urcu_##name##_start_poll_synchronize_rcu();                          \
		for (unsigned long i = 0; i < count; i++)                                                              \
			urcu_##name##_poll_state_synchronize_rcu(state);                                               \
	}

POLL(mb)
POLL(memb)
POLL(qsbr)
#endif

static void qsbr_announcement(void)
{
	urcu_qsbr_register_thread();
	for (unsigned long i = 0; i < count; i++) {
		urcu_qsbr_read_lock();
		urcu_qsbr_read_unlock();
		urcu_qsbr_quiescent_state();
	}
	urcu_qsbr_unregister_thread();
}
#endif

static const struct {
	const char *peer, *kind;
	work *run;
} works[] = {
	{ "bare", "section", bare_section },
	{ "bare", "nested", bare_nested },
	{ "bare", "read", bare_read },
	{ "bare", "further-read", bare_further_read },
	{ "bare", "walk", bare_walk },
	{ "bare", "synchronize", bare_synchronize },
	{ "rwlock", "section", rwlock_section },
#ifdef HAS_URCU
	{ "mb", "section", mb_section },
	{ "mb", "read", mb_read },
	{ "mb", "nested", mb_nested },
	{ "mb", "synchronize", mb_synchronize },
	{ "memb", "section", memb_section },
	{ "memb", "read", memb_read },
	{ "memb", "nested", memb_nested },
	{ "memb", "synchronize", memb_synchronize },
	{ "qsbr", "section", qsbr_section },
	{ "qsbr", "read", qsbr_read },
	{ "qsbr", "announcement", qsbr_announcement },
	{ "qsbr", "synchronize", qsbr_synchronize },
	{ "mb", "walk", mb_walk },
	{ "mb", "push", list_push },
	{ "mb", "cut", list_cut },
	{ "mb", "queue", mb_queue },
	{ "mb", "retire", mb_retire },
	{ "mb", "retire-boxed", mb_retire },
	{ "mb", "barrier", mb_barrier },
	{ "mb", "mix", mb_mix },
	{ "mb-unlimited", "retire", mb_retire_all },
	{ "mb-unlimited", "retire-boxed", mb_retire_all },
	{ "memb", "queue", memb_queue },
	{ "memb", "retire", memb_retire },
	{ "memb", "retire-boxed", memb_retire },
	{ "memb", "barrier", memb_barrier },
	{ "memb", "mix", memb_mix },
	{ "memb-unlimited", "retire", memb_retire_all },
	{ "memb-unlimited", "retire-boxed", memb_retire_all },
	{ "qsbr", "queue", qsbr_queue },
	{ "qsbr", "retire", qsbr_retire },
	{ "qsbr", "retire-boxed", qsbr_retire },
	{ "qsbr", "barrier", qsbr_barrier },
	{ "qsbr", "mix", qsbr_mix },
	{ "qsbr-unlimited", "retire", qsbr_retire_all },
	{ "qsbr-unlimited", "retire-boxed", qsbr_retire_all },
	{ "mb", "hit", mb_hit },
	{ "mb", "miss", mb_miss },
	{ "mb", "hit-large", mb_hit_large },
	{ "mb", "miss-large", mb_miss_large },
	{ "mb", "insert", mb_insert },
	{ "mb", "remove", mb_remove },
	{ "mb", "through", mb_through },
	{ "memb", "hit", memb_hit },
	{ "memb", "miss", memb_miss },
	{ "memb", "hit-large", memb_hit_large },
	{ "memb", "miss-large", memb_miss_large },
	{ "memb", "insert", memb_insert },
	{ "memb", "remove", memb_remove },
	{ "memb", "through", memb_through },
	{ "qsbr", "hit", qsbr_hit },
	{ "qsbr", "miss", qsbr_miss },
	{ "qsbr", "hit-large", qsbr_hit_large },
	{ "qsbr", "miss-large", qsbr_miss_large },
	{ "qsbr", "insert", qsbr_insert },
	{ "qsbr", "remove", qsbr_remove },
	{ "qsbr", "through", qsbr_through },
	{ "mb", "grow", mb_grow },
	{ "mb", "hit-while-growing", mb_hit_while_growing },
	{ "mb", "slowest-while-growing", mb_slowest_while_growing },
	{ "memb", "grow", memb_grow },
	{ "memb", "hit-while-growing", memb_hit_while_growing },
	{ "memb", "slowest-while-growing", memb_slowest_while_growing },
	{ "qsbr", "grow", qsbr_grow },
#endif
#ifdef HAS_POLL
	{ "mb", "poll", mb_poll },
	{ "memb", "poll", memb_poll },
	{ "qsbr", "poll", qsbr_poll },
#endif
};

static void *run(void *it)
{
	(*(work **)it)();
	return NULL;
}

int main(int argc, char **argv)
{
	if (argc != 5) {
		for (size_t i = 0; i < sizeof works / sizeof *works; i++)
			printf("%s %s\n", works[i].peer, works[i].kind);
		return 0;
	}
	count = strtoul(argv[3], NULL, 10);
	threads = atoi(argv[4]);
	link_records();
	for (size_t i = 0; i < sizeof works / sizeof *works; i++) {
		if (strcmp(argv[1], works[i].peer) || strcmp(argv[2], works[i].kind))
			continue;
		work *it = works[i].run;
		pthread_t running[16];
		for (int k = 0; k < threads; k++)
			pthread_create(&running[k], NULL, run, &it);
		for (int k = 0; k < threads; k++)
			pthread_join(running[k], NULL);
		return 0;
	}
	return 2;
}
