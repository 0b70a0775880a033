/* Refuses one memory request of a process. Loaded by LD_PRELOAD, it counts the calls of malloc and realloc, by
 * which alone the heap of a Rattle program gets memory, refuses the one of the number REFUSE_AT, and then writes a byte
 * to the open file REFUSE_TELL.
 *
 * It declares what it calls itself, since the kit's compiler comes without headers. */

typedef __SIZE_TYPE__ size_t;

extern char *getenv(const char *name);
extern long atol(const char *text);
extern long write(int file, const void *bytes, size_t count);
extern void *dlsym(void *handle, const char *name);
extern int *__errno_location(void);

#define RTLD_NEXT ((void *)-1L)
#define ENOMEM 12
#define FIND(name) next = next ? next : (__typeof__(next))dlsym(RTLD_NEXT, name)

static long left; /* 0 where no later request is refused */
static int tell;

__attribute__((constructor)) static void begin(void) {
    const char *at = getenv("REFUSE_AT"), *file = getenv("REFUSE_TELL");
    if (at && file) {
        left = atol(at);
        tell = (int)atol(file);
    }
}

static int is_refused(void) {
    if (left == 0 || --left != 0)
        return 0;
    if (write(tell, "!", 1) != 1)
        __builtin_trap();
    *__errno_location() = ENOMEM;
    return 1;
}

void *malloc(size_t size) {
    static void *(*next)(size_t);
    FIND("malloc");
    return is_refused() ? 0 : next(size);
}

void *realloc(void *block, size_t size) {
    static void *(*next)(void *, size_t);
    FIND("realloc");
    return is_refused() ? 0 : next(block, size);
}
