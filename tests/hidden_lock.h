/* Hides from the thread sanitizer how the loop of c/realm_threads.c hands work over, so that it knows of no order but the one that
   tests/call_edges.c tells. This is put before that file, which itself is not instrumented: what a thread does between lock and
   unlock, and where it performs work besides its body, is not seen. */
#include <pthread.h>
#include "proved_calls.h"

void AnnotateIgnoreSyncBegin(const char *file, int line);
void AnnotateIgnoreSyncEnd(const char *file, int line);
void AnnotateIgnoreReadsBegin(const char *file, int line);
void AnnotateIgnoreReadsEnd(const char *file, int line);
void AnnotateIgnoreWritesBegin(const char *file, int line);
void AnnotateIgnoreWritesEnd(const char *file, int line);

static inline void hide(void) {
    AnnotateIgnoreSyncBegin(__FILE__, __LINE__);
    AnnotateIgnoreReadsBegin(__FILE__, __LINE__);
    AnnotateIgnoreWritesBegin(__FILE__, __LINE__);
}

static inline void show(void) {
    AnnotateIgnoreWritesEnd(__FILE__, __LINE__);
    AnnotateIgnoreReadsEnd(__FILE__, __LINE__);
    AnnotateIgnoreSyncEnd(__FILE__, __LINE__);
}

static inline int hidden_lock(pthread_mutex_t *lock) {
    hide();
    return pthread_mutex_lock(lock);
}

static inline int hidden_unlock(pthread_mutex_t *lock) {
    int status = pthread_mutex_unlock(lock);
    show();
    return status;
}

#define hidden(call) ({ hide(); uint32_t answered = (call); show(); answered; })

#define pthread_mutex_lock hidden_lock
#define pthread_mutex_unlock hidden_unlock
#define proved_realm_work_perform(work) hidden((proved_realm_work_perform)(work))
#define proved_realm_work_finish(work, verdict) hidden((proved_realm_work_finish)(work, verdict))
