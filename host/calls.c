/* Elsewhere than the benchmark, so that no call of these is inlined there. */
#include "calls.h"

#include "peer.h"
#include "zsrm.h"

const struct calls calls[ANSWERING] = {
    {"library", zsrm_run, zsrm_claim},
    {"leaping peer", leaping_run, leaping_claim},
    {"ticking peer", ticking_run, ticking_claim},
};

void call_made(void) {
}
