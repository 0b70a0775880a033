/* One side of what bench/c measures: from_c KIND COUNT THREADS. It is built over the library for C, and with LIBURCU
   over a flavour of liburcu's, whose functions it calls and does not inline. It prints the nanoseconds of the clock on
   the wall that one operation of a thread takes. */

#define _GNU_SOURCE
#include <pthread.h>
#include <stdatomic.h>
#include <stdint.h>
#include <stdio.h>
#include <stdlib.h>
#include <string.h>
#include <time.h>

#ifdef LIBURCU
#include LIBURCU
#define CALL(name) rcu_##name
#define SYNCHRONIZE synchronize_rcu
#else
#include <robiniagolf/rcu.h>
#ifdef QSBR
#define CALL(name) robiniagolf_qsbr_##name
#else
#define CALL(name) robiniagolf_memb_##name
#endif
#define SYNCHRONIZE CALL(synchronize_rcu)
#endif

enum { MOST_THREADS = 16, IDLE_READERS = 2 };

static unsigned long count;
static pthread_barrier_t start;

/* One thread's work, `count` times. */
typedef void work(void);

static void sections(void)
{
	for (unsigned long i = 0; i < count; i++) {
		CALL(read_lock)();
		CALL(read_unlock)();
	}
}

static void grace_periods(void)
{
	for (unsigned long i = 0; i < count; i++)
		SYNCHRONIZE();
}

#ifdef QSBR
static void announcements(void)
{
	for (unsigned long i = 0; i < count; i++)
		CALL(quiescent_state)();
}
#endif

#ifndef LIBURCU
/* A reader of one's own by its handle, in the general-purpose flavour. */
static struct robiniagolf_memb_domain domain;
static struct robiniagolf_memb_grace grace;
static pthread_mutex_t registering = PTHREAD_MUTEX_INITIALIZER;

static void handles(void)
{
	struct robiniagolf_memb_reader reader = {0};

	pthread_mutex_lock(&registering);
	if (!domain.full && robiniagolf_memb_domain_new(&domain, &grace, 64) != ROBINIAGOLF_RCU_DONE)
		abort();
	if (robiniagolf_memb_reader_register(&domain, &reader) != ROBINIAGOLF_RCU_DONE)
		abort();
	pthread_mutex_unlock(&registering);
	for (unsigned long i = 0; i < count; i++) {
		robiniagolf_memb_reader_lock(&reader);
		robiniagolf_memb_reader_unlock(&reader);
	}
	robiniagolf_memb_reader_unregister(&reader);
}

/* The same steps and nothing around them: one load and two exchanges, each word in a line of its own. */
static _Alignas(128) _Atomic uint64_t phase;
static struct {
	_Alignas(128) _Atomic uint64_t word;
} slots[MOST_THREADS];
static atomic_uint claimed;

static void bare_steps(void)
{
	_Atomic uint64_t *word = &slots[atomic_fetch_add(&claimed, 1)].word;

	for (unsigned long i = 0; i < count; i++) {
		atomic_store(word, 1 + (atomic_load(&phase) << 32));
		atomic_store(word, 0);
	}
}
#endif

static const struct kind {
	const char *name;
	work *work;
	int reads; /* whether its threads are registered */
	int idle;  /* readers beside it that are in no section */
} kinds[] = {
	{"section", sections, 1, 0},
	{"grace-period", grace_periods, 0, IDLE_READERS},
#ifdef QSBR
	{"announcement", announcements, 1, 0},
#endif
#ifndef LIBURCU
	{"handle", handles, 0, 0},
	{"bare", bare_steps, 0, 0},
#endif
};

static double now(void)
{
	struct timespec time;

	clock_gettime(CLOCK_MONOTONIC, &time);
	return time.tv_sec * 1e9 + time.tv_nsec;
}

/* A reader that is in no section until the measurement is over. */
static void *idles(void *over)
{
	CALL(register_thread)();
#ifdef QSBR
	CALL(thread_offline)();
#endif
	pthread_barrier_wait(&start);
	pthread_mutex_lock(over);
	pthread_mutex_unlock(over);
	CALL(unregister_thread)();
	return NULL;
}

static void *works(void *argument)
{
	const struct kind *kind = argument;
	double *took = malloc(sizeof *took);

	if (kind->reads)
		CALL(register_thread)();
	pthread_barrier_wait(&start);
	double began = now();
	kind->work();
	*took = (now() - began) / (double)count;
	if (kind->reads)
		CALL(unregister_thread)();
	return took;
}

/* The longest time of a thread, for one operation. */
static double measure(const struct kind *kind, int threads)
{
	pthread_mutex_t over = PTHREAD_MUTEX_INITIALIZER;
	pthread_t idle[IDLE_READERS], workers[MOST_THREADS];
	double longest = 0;

	pthread_mutex_lock(&over);
	pthread_barrier_init(&start, NULL, threads + kind->idle);
	for (int i = 0; i < kind->idle; i++)
		pthread_create(&idle[i], NULL, idles, &over);
	for (int i = 0; i < threads; i++)
		pthread_create(&workers[i], NULL, works, (void *)kind);
	for (int i = 0; i < threads; i++) {
		void *took;

		pthread_join(workers[i], &took);
		if (*(double *)took > longest)
			longest = *(double *)took;
		free(took);
	}
	pthread_mutex_unlock(&over);
	for (int i = 0; i < kind->idle; i++)
		pthread_join(idle[i], NULL);
	return longest;
}

int main(int argc, char **argv)
{
	int threads = argc == 4 ? atoi(argv[3]) : 0;

	if (threads < 1 || threads > MOST_THREADS || (count = strtoul(argv[2], NULL, 10)) == 0) {
		fprintf(stderr, "usage: from_c KIND COUNT THREADS\n");
		return 2;
	}
	for (size_t i = 0; i < sizeof kinds / sizeof *kinds; i++)
		if (strcmp(kinds[i].name, argv[1]) == 0) {
			printf("%.3f\n", measure(&kinds[i], threads));
			return 0;
		}
	fprintf(stderr, "from_c: there is no %s\n", argv[1]);
	return 2;
}
