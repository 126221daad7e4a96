/* What both peers begin with: sets, bytes, and the lists read and checked. */
#ifndef PEER_INPUT_H
#define PEER_INPUT_H

#include <stddef.h>
#include <stdint.h>

#include "zsrm.h"

/* The claim check's answer at tick 0; one more for each tick. */
enum { NOT_LEGAL = 65536 };

/* ---- Sets of numbers below 64 ---- */

typedef uint64_t set;

static inline set only(uint32_t k) {
    return (set)1 << k;
}

static inline int has(set s, uint32_t k) {
    return (s >> k & 1) != 0;
}

/* The two below are for sets that are not empty. */

static inline uint32_t least(set s) {
#ifdef __GNUC__
    return (uint32_t)__builtin_ctzll(s);
#else
    uint32_t k = 0;
    while (!has(s, k))
        k++;
    return k;
#endif
}

static inline set without_least(set s) {
    return s & (s - 1);
}

/* ---- Little-endian numbers ---- */

static inline uint32_t get16(const uint8_t *at) {
    return at[0] | (uint32_t)at[1] << 8;
}

static inline uint32_t get32(const uint8_t *at) {
    return at[0] | (uint32_t)at[1] << 8 | (uint32_t)at[2] << 16 | (uint32_t)at[3] << 24;
}

static inline void put16(uint8_t *at, uint32_t x) {
    at[0] = (uint8_t)x;
    at[1] = (uint8_t)(x >> 8);
}

/* ---- The lists ---- */

struct task {
    uint32_t period, nominal, overload, criticality, priority, slack;
    uint32_t job_count;
    uint32_t soonest; /* the least arrival that a further job may have */
};

struct job {
    uint32_t task, arrival, time;
};

struct input {
    uint32_t task_count, job_count;
    struct task tasks[ZSRM_MOST_TASKS];
    const uint8_t *jobs;
};

static inline struct job job_at(const uint8_t *jobs, uint32_t j) {
    const uint8_t *at = jobs + ZSRM_JOB_BYTES * j;
    struct job job = {get32(at), get32(at + 4), get32(at + 8)};
    return job;
}

/* The refusal, or 0 with the input read. The jobs stay where they are. */
uint32_t read_input(struct input *in, uint32_t mode, const uint8_t *tasks, size_t tasks_len,
                    const uint8_t *jobs, size_t jobs_len, uint32_t horizon, size_t schedule_len);

#endif
