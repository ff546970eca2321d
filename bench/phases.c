/* Is loaded before a program, and tells when its parts begin and end. At the end it writes a line to the descriptor that PHASES_TELLS tells: the
 * nanoseconds from the end of the input until the first thread is started, from there until the last one is joined, and from there on. Of a program
 * that starts no thread the first number is all, and the others are 0.
 *
 * It has no header and links against nothing, so that the compiler of the Rattle toolchain can build it. */

typedef unsigned long size;
typedef unsigned long thread;
struct time {
    long seconds, nanoseconds;
};

extern void *dlsym(void *library, const char *name);
extern char *getenv(const char *name);
extern long atol(const char *digits);
extern int clock_gettime(int clock, struct time *now);
extern int dprintf(int descriptor, const char *format, ...);

#define NEXT_LIBRARY ((void *)-1L)
#define MONOTONIC 1

static long is_read, is_started, is_joined;
static int is_told;
static int (*start)(thread *, const void *, void *(*)(void *), void *);
static int (*join)(thread, void **);
static long (*take)(int, void *, size);
static void (*leave)(int);

static long now(void) {
    struct time it;
    clock_gettime(MONOTONIC, &it);
    return it.seconds * 1000000000 + it.nanoseconds;
}

static void tell(void) {
    long ended = now();
    if (is_told) return;
    is_told = 1;
    if (!is_started) is_started = is_joined = ended;
    dprintf((int)atol(getenv("PHASES_TELLS")), "%ld %ld %ld\n", is_started - is_read, is_joined - is_started, ended - is_joined);
}

__attribute__((constructor)) static void begin(void) {
    start = (int (*)(thread *, const void *, void *(*)(void *), void *))dlsym(NEXT_LIBRARY, "pthread_create");
    join = (int (*)(thread, void **))dlsym(NEXT_LIBRARY, "pthread_join");
    take = (long (*)(int, void *, size))dlsym(NEXT_LIBRARY, "read");
    leave = (void (*)(int))dlsym(NEXT_LIBRARY, "_exit");
    is_read = now();
}

__attribute__((destructor)) static void end(void) { tell(); }

long read(int descriptor, void *bytes, size count) {
    long came = take(descriptor, bytes, count);
    if (descriptor == 0) is_read = now();
    return came;
}

int pthread_create(thread *made, const void *how, void *(*body)(void *), void *with) {
    if (!is_started) is_started = now();
    return start(made, how, body, with);
}

int pthread_join(thread which, void **answer) {
    int ended = join(which, answer);
    is_joined = now();
    return ended;
}

void _exit(int status) {
    tell();
    leave(status);
    for (;;) {}
}
