/* The handles of one flavour for a test: -DFLAVOUR=memb or -DFLAVOUR=qsbr -DQSBR. */
#ifndef FLAVOUR_H
#define FLAVOUR_H

#include <robiniagolf/rcu.h>

#define JOIN_(a, b, c) a##b##_##c
#define JOIN(a, b, c) JOIN_(a, b, c)
#define CALL(name) JOIN(robiniagolf_, FLAVOUR, name)
#define DOMAIN struct CALL(domain)
#define GRACE struct CALL(grace)
#define READER struct CALL(reader)

enum {
    DONE = ROBINIAGOLF_RCU_DONE,
    GO_ON = ROBINIAGOLF_RCU_GO_ON,
    IN_THE_WAY = ROBINIAGOLF_RCU_IN_THE_WAY,
    MEMORY = ROBINIAGOLF_RCU_MEMORY,
    EMPTY = ROBINIAGOLF_RCU_EMPTY,
    IN_USE = ROBINIAGOLF_RCU_IN_USE,
    NO_SLOT = ROBINIAGOLF_RCU_NO_SLOT,
    BUSY = ROBINIAGOLF_RCU_BUSY,
    NOT_OPEN = ROBINIAGOLF_RCU_NOT_OPEN,
    NEST_FULL = ROBINIAGOLF_RCU_NEST_FULL,
    BAD_CONFIG = ROBINIAGOLF_RCU_BAD_CONFIG
};

/* A section that a grace period waits for: of qsbr, a time online with a lock open. */
static inline uint32_t enter(READER *reader)
{
#ifdef QSBR
    robiniagolf_qsbr_reader_online(reader);
#endif
    return CALL(reader_lock)(reader);
}

static inline uint32_t leave(READER *reader)
{
    uint32_t said = CALL(reader_unlock)(reader);

#ifdef QSBR
    robiniagolf_qsbr_reader_offline(reader);
#endif
    return said;
}

/* Takes steps until they are over, or a section stands in the way. */
static inline uint32_t go_on(GRACE *grace, uint64_t cookie)
{
    uint32_t said;

    do
        said = CALL(grace_step)(grace, cookie);
    while (said == GO_ON);
    return said;
}

#endif
