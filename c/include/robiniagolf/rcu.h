/* Robiniagolf's RCU for C99: readers that take no lock, and grace periods that wait for them.
 *
 * It has two flavours. Grace periods of memb wait for read-side sections. Grace periods of qsbr wait for a quiescent
 * state of each reader that is online. It has two layers. Most programs want the waiting part. Below it lie the
 * handles, whose calls are proved. docs/C.md tells what is proved of each, and what C has to keep to.
 *
 *     robiniagolf_memb_register_thread();
 *     robiniagolf_memb_read_lock();
 *     struct config *config = atomic_load(&current);              the reader: seq_cst, within the section
 *     use(config);
 *     robiniagolf_memb_read_unlock();
 *
 *     struct config *old = atomic_exchange(&current, new);        the updater: seq_cst, before the grace period
 *     robiniagolf_memb_synchronize_rcu();
 *     free(old);                                                  no section can hold it any more */
#ifndef ROBINIAGOLF_RCU_H
#define ROBINIAGOLF_RCU_H

#include <stdbool.h>
#include <stddef.h>
#include <stdint.h>

#ifdef __cplusplus
extern "C" {
#endif

/* ---- The waiting part ------------------------------------------------------------------------------------------
 *
 * The first call makes one domain of its flavour for the whole program. These calls may lock, wait, allocate and start
 * a thread. Where they can't go on they say so on standard error and abort. That happens without memory for a reader,
 * with more than 16,192 threads, and at a wait within the caller's own section. */

/* Makes the calling thread a reader, of qsbr an online one. A thread that is registered already stays so, and a thread
 * that ends is unregistered. A memb thread may leave this out: its first lock does it. */
void robiniagolf_memb_register_thread(void);
void robiniagolf_qsbr_register_thread(void);

/* Ends what the thread has open, and gives its slot back. */
void robiniagolf_memb_unregister_thread(void);
void robiniagolf_qsbr_unregister_thread(void);

/* Begin and end a read-side section, which nests. They take no lock and never wait, but for a first lock that registers
 * the thread. A registered thread may also have a section in a signal handler. The two of qsbr do nothing: there a
 * thread is in a section while it is online. */
void robiniagolf_memb_read_lock(void);
void robiniagolf_memb_read_unlock(void);
void robiniagolf_qsbr_read_lock(void);
void robiniagolf_qsbr_read_unlock(void);

/* Whether the thread is in a section; of qsbr, whether it is online. */
int robiniagolf_memb_read_ongoing(void);
int robiniagolf_qsbr_read_ongoing(void);

/* Of qsbr alone. quiescent_state says that the thread holds nothing that it has read. thread_offline says the same, and
 * that the thread reads nothing until thread_online. A thread announces quiescent states often, and goes offline before
 * it blocks. */
void robiniagolf_qsbr_quiescent_state(void);
void robiniagolf_qsbr_thread_offline(void);
void robiniagolf_qsbr_thread_online(void);

/* Waits until each section has ended that was open when it was called. The caller is in no section. A qsbr thread may
 * be online all the same, and holds nothing that it has read. */
void robiniagolf_memb_synchronize_rcu(void);
void robiniagolf_qsbr_synchronize_rcu(void);

/* The place of a callback, inside what it is to free. Its fields are the library's until the callback is called. */
struct robiniagolf_head {
    struct robiniagolf_head *next;
    void (*call)(struct robiniagolf_head *head);
};

/* One thread of the library calls call(head) after a grace period. It calls what one thread gave it in the order in
 * which that thread gave it. call_rcu never fails or allocates, waits for no grace period, and may be called in a
 * section or by a callback. A callback may read and wait. The first call_rcu starts the library's thread, under a lock;
 * where it can't, a later one tries again. */
void robiniagolf_memb_call_rcu(struct robiniagolf_head *head, void (*call)(struct robiniagolf_head *head));
void robiniagolf_qsbr_call_rcu(struct robiniagolf_head *head, void (*call)(struct robiniagolf_head *head));

/* Waits until each callback has returned that was given to call_rcu before. Within a section or a callback it says on
 * standard error that it does not wait. */
void robiniagolf_memb_barrier(void);
void robiniagolf_qsbr_barrier(void);

/* A grace period without waiting: start asks for one, and poll tells whether it is over. */
struct robiniagolf_poll {
    unsigned long number;
};
struct robiniagolf_poll robiniagolf_memb_start_poll_synchronize_rcu(void);
struct robiniagolf_poll robiniagolf_qsbr_start_poll_synchronize_rcu(void);
bool robiniagolf_memb_poll_state_synchronize_rcu(struct robiniagolf_poll state);
bool robiniagolf_qsbr_poll_state_synchronize_rcu(struct robiniagolf_poll state);

/* ---- The handles -----------------------------------------------------------------------------------------------
 *
 * No call of a handle waits, locks, prints or starts a thread. Each answers one of the numbers below. Nothing checks
 * what they ask of their caller:
 *
 * - A handle is all zeros (it keeps nothing), or as the last call with it left it, and of the kind that the call names.
 *   Nothing else writes it, and after it was copied only the copy, or only the original, is used.
 * - One call at a time has a handle. Another thread may use it after a lock, a thread's start or join, or a seq_cst
 *   atomic has handed it over. So a domain in which several threads register lies under a lock of the caller's.
 * - A signal handler may lock and unlock the reader of the thread that it interrupts, in any call of that reader but
 *   register and unregister. It closes what it opens.
 * - No pointer is null. malloc and free are of one allocator, which aligns blocks as C asks.
 * - In a forked child the readers of other threads may be ended and unregistered. docs/C.md tells more of it. */

struct robiniagolf_memb_domain { bool full; void *kept; }; /* what readers register with */
struct robiniagolf_memb_grace { bool full; void *kept; };  /* the grace periods of that domain */
struct robiniagolf_memb_reader { bool full; void *kept; }; /* a slot of that domain */
struct robiniagolf_qsbr_domain { bool full; void *kept; };
struct robiniagolf_qsbr_grace { bool full; void *kept; };
struct robiniagolf_qsbr_reader { bool full; void *kept; };

enum robiniagolf_status {
    ROBINIAGOLF_RCU_DONE = 0,       /* done; of poll and step: each section that was open at the ask has ended */
    ROBINIAGOLF_RCU_GO_ON = 1,      /* not yet: call again */
    ROBINIAGOLF_RCU_IN_THE_WAY = 2, /* not yet: a section stands in the way, so pause before the next call */
    ROBINIAGOLF_RCU_MEMORY = 3,     /* malloc refused */
    ROBINIAGOLF_RCU_EMPTY = 4,      /* the handle keeps nothing */
    ROBINIAGOLF_RCU_IN_USE = 5,     /* the handle keeps something already */
    ROBINIAGOLF_RCU_NO_SLOT = 6,    /* every slot of the domain was found claimed */
    ROBINIAGOLF_RCU_BUSY = 7,       /* a lock of the reader is open; of online: it is online */
    ROBINIAGOLF_RCU_NOT_OPEN = 8,   /* no lock is open; of a qsbr reader: it is offline */
    ROBINIAGOLF_RCU_NEST_FULL = 9,  /* 2147483647 locks are open */
    ROBINIAGOLF_RCU_EXHAUSTED = 10, /* no sequence numbers are left (2^62 was reached) */
    ROBINIAGOLF_RCU_BAD_CONFIG = 11 /* slots not in 1..256 */
};

/* Makes a domain of this many slots, and its grace periods: DONE, MEMORY, IN_USE (either), BAD_CONFIG. */
uint32_t robiniagolf_memb_domain_new(struct robiniagolf_memb_domain *domain, struct robiniagolf_memb_grace *grace,
                                     size_t slots);
uint32_t robiniagolf_qsbr_domain_new(struct robiniagolf_qsbr_domain *domain, struct robiniagolf_qsbr_grace *grace,
                                     size_t slots);

/* Empties a handle: DONE, EMPTY. Readers and the other handle go on. What they share is freed with the last of them. */
uint32_t robiniagolf_memb_domain_free(struct robiniagolf_memb_domain *domain);
uint32_t robiniagolf_qsbr_domain_free(struct robiniagolf_qsbr_domain *domain);
uint32_t robiniagolf_memb_grace_free(struct robiniagolf_memb_grace *grace);
uint32_t robiniagolf_qsbr_grace_free(struct robiniagolf_qsbr_grace *grace);

/* Claims a slot for the reader; a qsbr reader is offline then: DONE, MEMORY, EMPTY (the domain), IN_USE (the reader),
 * NO_SLOT. */
uint32_t robiniagolf_memb_reader_register(struct robiniagolf_memb_domain *domain,
                                          struct robiniagolf_memb_reader *reader);
uint32_t robiniagolf_qsbr_reader_register(struct robiniagolf_qsbr_domain *domain,
                                          struct robiniagolf_qsbr_reader *reader);

/* Gives the slot back, and empties the handle; an online qsbr reader goes offline first: DONE, EMPTY, BUSY. */
uint32_t robiniagolf_memb_reader_unregister(struct robiniagolf_memb_reader *reader);
uint32_t robiniagolf_qsbr_reader_unregister(struct robiniagolf_qsbr_reader *reader);

/* lock opens one more lock: DONE, EMPTY, NEST_FULL; of qsbr also NOT_OPEN (the reader is offline). unlock closes the
 * last one: DONE, EMPTY, NOT_OPEN. */
uint32_t robiniagolf_memb_reader_lock(struct robiniagolf_memb_reader *reader);
uint32_t robiniagolf_qsbr_reader_lock(struct robiniagolf_qsbr_reader *reader);
uint32_t robiniagolf_memb_reader_unlock(struct robiniagolf_memb_reader *reader);
uint32_t robiniagolf_qsbr_reader_unlock(struct robiniagolf_qsbr_reader *reader);

/* Ends all that is open, for a thread that is gone; a qsbr reader goes offline: DONE, EMPTY. */
uint32_t robiniagolf_memb_reader_end(struct robiniagolf_memb_reader *reader);
uint32_t robiniagolf_qsbr_reader_end(struct robiniagolf_qsbr_reader *reader);

/* How many locks are open; 0 of an empty handle. */
uint64_t robiniagolf_memb_reader_depth(struct robiniagolf_memb_reader *reader);
uint64_t robiniagolf_qsbr_reader_depth(struct robiniagolf_qsbr_reader *reader);

/* Of qsbr alone. online: DONE, EMPTY, BUSY (it is online already). offline and quiescent: DONE, EMPTY, BUSY (a lock is
 * open), NOT_OPEN (it is offline). is_online: DONE (it is online), NOT_OPEN (it is offline), EMPTY. */
uint32_t robiniagolf_qsbr_reader_online(struct robiniagolf_qsbr_reader *reader);
uint32_t robiniagolf_qsbr_reader_offline(struct robiniagolf_qsbr_reader *reader);
uint32_t robiniagolf_qsbr_reader_quiescent(struct robiniagolf_qsbr_reader *reader);
uint32_t robiniagolf_qsbr_reader_is_online(struct robiniagolf_qsbr_reader *reader);

/* Writes the cookie of a grace period that begins from now on: DONE, EMPTY, EXHAUSTED (the cookie is as it was). */
uint32_t robiniagolf_memb_grace_ask(struct robiniagolf_memb_grace *grace, uint64_t *cookie);
uint32_t robiniagolf_qsbr_grace_ask(struct robiniagolf_qsbr_grace *grace, uint64_t *cookie);

/* Whether that grace period is over: DONE, GO_ON, EMPTY. Somebody has to take its steps. */
uint32_t robiniagolf_memb_grace_poll(struct robiniagolf_memb_grace *grace, uint64_t cookie);
uint32_t robiniagolf_qsbr_grace_poll(struct robiniagolf_qsbr_grace *grace, uint64_t cookie);

/* Takes the next step of the grace period that is going, or begins one, unless the cookie is reached: DONE, GO_ON,
 * IN_THE_WAY, EMPTY, EXHAUSTED. Steps of any caller lead to the cookies of all. */
uint32_t robiniagolf_memb_grace_step(struct robiniagolf_memb_grace *grace, uint64_t cookie);
uint32_t robiniagolf_qsbr_grace_step(struct robiniagolf_qsbr_grace *grace, uint64_t cookie);

#ifdef __cplusplus
}
#endif

#endif
