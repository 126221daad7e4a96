/* Who answers alike: the library and its two peers. */
#ifndef CALLS_H
#define CALLS_H

#include "lists.h"

struct calls {
    const char *name;
    run_call *run;
    claim_call *claim;
};

enum { LIBRARY, LEAPING, TICKING, ANSWERING };

extern const struct calls calls[ANSWERING];

/* Does nothing: after each measured call, the place where a count of its instructions ends. */
void call_made(void);

#endif
