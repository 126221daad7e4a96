/* The stack that each call needs: the call is made on a painted stack of its own, and the lowest
   byte that lost its paint is looked for. Arguments and return address are counted in. */
#define _XOPEN_SOURCE 700
#include <stdio.h>
#include <string.h>
#include <ucontext.h>

#include "shapes.h"
#include "zsrm.h"

enum { SIZE = 1 << 18, PAINT = 0xA5 };

static uint8_t area[SIZE];
static ucontext_t here, there;
static struct lists in;
static volatile uint32_t result;

static void nothing(void) {
    result = 0;
}

static void run(void) {
    result = zsrm_run(in.mode, in.tasks, in.tasks_len, in.jobs, in.jobs_len, in.horizon,
                      in.schedule, in.schedule_len);
}

static void claim(void) {
    result = zsrm_claim(in.mode, in.tasks, in.tasks_len, in.jobs, in.jobs_len, in.horizon,
                        in.schedule, in.schedule_len);
}

static size_t used(void (*f)(void)) {
    size_t untouched = 0;
    memset(area, PAINT, SIZE);
    getcontext(&there);
    there.uc_stack.ss_sp = area;
    there.uc_stack.ss_size = SIZE;
    there.uc_link = &here;
    makecontext(&there, f, 0);
    swapcontext(&here, &there);
    while (untouched < SIZE && area[untouched] == PAINT)
        untouched++;
    return SIZE - untouched;
}

static size_t more(size_t a, size_t b) {
    return a > b ? a : b;
}

static size_t of_run, of_claim;

/* What either call needs for the lists that stand there; a claim is made of the run's schedule. */
static void measure(void) {
    of_run = more(of_run, used(run));
    of_claim = more(of_claim, used(claim));
}

/* The benchmark's inputs, and shapes that are made to need much: overruns, equal jobs, refusals. */
int main(void) {
    static const uint32_t sizes[][2] = {{3, 9}, {16, 64}}, horizons[] = {1024, 16384};
    size_t base = used(nothing);
    for (uint32_t mode = 0; mode <= 2; mode++) { /* mode 2 is refused */
        for (int k = 0; k < SHAPES; k++) {
            shapes[k].build(&in, mode);
            measure();
        }
        for (int k = 0; k < 4; k++) {
            spread(&in, mode, sizes[k / 2][0], sizes[k / 2][1], horizons[k % 2]);
            measure();
        }
    }
    if (of_run == SIZE || of_claim == SIZE) {
        printf("stack: more than %d bytes\n", SIZE);
        return 1;
    }
    printf("stack: zsrm_run %lu bytes, zsrm_claim %lu bytes\n", (unsigned long)(of_run - base),
           (unsigned long)(of_claim - base));
    return 0;
}
