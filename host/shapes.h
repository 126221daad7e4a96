/* Inputs of several sizes for the benchmark and the stack measurement. */
#ifndef SHAPES_H
#define SHAPES_H

#include "lists.h"

struct shape {
    const char *name;
    void (*build)(struct lists *in, uint32_t mode);
};

enum { SHAPES = 5 };

/* The last three are as large as is accepted. */
extern const struct shape shapes[SHAPES];

/* Every task has as many jobs, one to a period, which arrive one after the other in the period's
   first half, not in the tasks' order. The nominal times fill three quarters of a period, and two
   jobs in five overrun to twice theirs: a little more than there is. The more critical a task, the
   lower its priority; the offsets Z lie in the period's third quarter. The number of tasks is no
   multiple of 7. */
void spread(struct lists *in, uint32_t mode, uint32_t tasks, uint32_t jobs, uint32_t horizon);

#endif
