/* Random numbers, random lists that are accepted, and damage to lists. */
#ifndef DRAW_H
#define DRAW_H

#include "lists.h"

void set_seed(uint64_t seed);

/* A number below n; from least to most; 1 with the chance 1 / n. */
uint32_t below(uint32_t n);
uint32_t between(uint32_t least, uint32_t most);
int one_in(uint32_t n);

uint32_t one_of(const uint32_t *values, size_t n);
#define ONE_OF(values) one_of(values, sizeof(values) / sizeof *(values))

/* Whole tasks and jobs in the lists. */
uint32_t tasks_in(const struct lists *in);
uint32_t jobs_in(const struct lists *in);

/* A few tasks and jobs and some ticks; about as many tasks and jobs as are accepted; or a horizon
   to 16384 with arrivals all over it. */
enum extent { SHORT, FULL, LONG };

void draw_lists(struct lists *in, enum extent extent);

/* Another task with the numbers of the first: jobs of both are tied throughout. */
void add_twin(struct lists *in);

/* Damage that is meant for one refusal number, 1 to 10; another may come first, or none. */
void damage(struct lists *in, uint32_t number);

#endif
