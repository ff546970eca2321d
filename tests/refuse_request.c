/* Is loaded before a program, and refuses one of its requests for memory: the one whose number, from 1, the variable
 * REFUSE tells. At that request one byte is written to the descriptor that REFUSE_TELLS tells: 't' where it is made
 * to start a thread, and 'm' where it is any other. Nothing is written where fewer requests are made.
 *
 * It has no header and links against nothing, so that the compiler of the Rattle toolchain can build it. */

typedef unsigned long size;
typedef unsigned long thread;

extern void *__libc_malloc(size bytes);
extern void *__libc_calloc(size count, size bytes);
extern void *__libc_realloc(void *block, size bytes);
extern void *__libc_memalign(size alignment, size bytes);
extern void *dlsym(void *library, const char *name);
extern char *getenv(const char *name);
extern long atol(const char *digits);
extern int *__errno_location(void);
extern long write(int descriptor, const void *bytes, size count);

#define NEXT_LIBRARY ((void *)-1L)
#define NO_MEMORY 12

static long refused;
static long descriptor;
static long requests;
static int (*start)(thread *, const void *, void *(*)(void *), void *);
/* Where the program asks for all its memory but that for threads: from where the first request came. */
static void *allocator;
static _Thread_local int is_starting __attribute__((tls_model("initial-exec")));

__attribute__((constructor)) static void begin(void) {
    start = (int (*)(thread *, const void *, void *(*)(void *), void *))dlsym(NEXT_LIBRARY, "pthread_create");
    descriptor = atol(getenv("REFUSE_TELLS"));
    requests = 0;
    refused = atol(getenv("REFUSE"));
}

/* Counts a request, and tells whether it is refused. */
static int is_refused(int is_for_thread) {
    if (!refused || __atomic_add_fetch(&requests, 1, __ATOMIC_SEQ_CST) != refused)
        return 0;
    write((int)descriptor, is_starting || is_for_thread ? "t" : "m", 1);
    *__errno_location() = NO_MEMORY;
    return 1;
}

void *malloc(size bytes) {
    void *from = __builtin_return_address(0);
    if (refused && !allocator)
        allocator = from;
    return is_refused(from != allocator) ? 0 : __libc_malloc(bytes);
}

void *calloc(size count, size bytes) { return is_refused(0) ? 0 : __libc_calloc(count, bytes); }

void *realloc(void *block, size bytes) { return is_refused(0) ? 0 : __libc_realloc(block, bytes); }

void *memalign(size alignment, size bytes) { return is_refused(0) ? 0 : __libc_memalign(alignment, bytes); }

void *aligned_alloc(size alignment, size bytes) { return memalign(alignment, bytes); }

int posix_memalign(void **block, size alignment, size bytes) {
    *block = memalign(alignment, bytes);
    return *block ? 0 : NO_MEMORY;
}

int pthread_create(thread *started, const void *attributes, void *(*body)(void *), void *argument) {
    is_starting = 1;
    int status = start(started, attributes, body, argument);
    is_starting = 0;
    return status;
}
