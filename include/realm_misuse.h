/* What a call answers that is not used as its page says. Nothing is changed then and nothing is lost: each handle holds what it
   held. The numbers are the same for runs, works, events and tasks. */
#ifndef REALM_MISUSE_H
#define REALM_MISUSE_H

/* The version of the headers, as realm_version() tells that of the library. */
#define REALM_VERSION "0.3.0"

enum realm_misuse {
    REALM_MISUSE_WRONG = 11,        /* the handle holds another kind of thing than the call asks for, or a fault is said of work without a body */
    REALM_MISUSE_EMPTY = 12,        /* the handle is empty */
    REALM_MISUSE_USED_UP = 13,      /* what the handle held is used up or freed, or no call gave this number */
    REALM_MISUSE_OTHER_RUN = 14,    /* the work is of another run, two handles are of different tables of events, or a datum is of another runtime */
    REALM_MISUSE_RANGE = 15,        /* the graph has no such operation, the table no such event, or the number is beyond its range */
    REALM_MISUSE_UNPERFORMED = 16,  /* the work that is put back was not performed */
    REALM_MISUSE_WORK_OUT = 17,     /* work of the run is out: taken, and not put back */
    REALM_MISUSE_IN_USE = 18,       /* another call works on the handle, or this one was given it twice */
    REALM_MISUSE_REPORTED = 19,     /* the run has given its report */
    REALM_MISUSE_PERFORMED = 20,    /* the work was performed before */
    REALM_MISUSE_FILLED = 21,       /* the handle that is to be filled holds something */
    REALM_MISUSE_OTHER_THREAD = 23, /* a closed table is used by another thread than the one that closed it */
    REALM_MISUSE_FORGOTTEN = 24,    /* realm_run_all overlooked operations that could be taken, an error of its own; it performed them at its end. A wait
                                       overlooked tasks, an error of its own */
    REALM_MISUSE_NO_BODY = 25,      /* a call of the graph has a word that is not in the table, or a task has no body */
    REALM_MISUSE_CALLS_LEFT = 26,   /* a call is left whose body was not run, and a report has none for it */
    REALM_MISUSE_IN_BODY = 27,      /* the body of a task calls the runtime that runs it */
    REALM_MISUSE_OVERLAP = 28,      /* a byte of the datum is in another datum of the runtime */
    REALM_MISUSE_MEET = 29,         /* two uses of a task are of one datum, but for different tiles */
    REALM_MISUSE_NEEDED = 30        /* a task that was inserted with the datum has not ended, or, where it is to be cut, is of the present window */
};
#endif
