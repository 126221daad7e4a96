/* Input lists as bytes, and calls on copies of them that stand between guard bytes. */
#ifndef LISTS_H
#define LISTS_H

#include <stddef.h>
#include <stdint.h>

/* Room for one task, one job and some entries more than are accepted. */
enum {
    TASKS_ROOM = 28 * 18,
    JOBS_ROOM = 12 * 66,
    SCHEDULE_ROOM = 2 * 16384 + 16
};

struct lists {
    uint32_t mode, horizon;
    size_t tasks_len, jobs_len, schedule_len;
    uint8_t tasks[TASKS_ROOM], jobs[JOBS_ROOM], schedule[SCHEDULE_ROOM];
};

/* What a call left behind. `kept`: every byte outside the schedule is as it was. */
struct outcome {
    uint32_t result;
    int kept;
    uint8_t schedule[SCHEDULE_ROOM];
};

/* The k-th number of a list, four or two bytes wide. */
uint32_t get32(const uint8_t *list, size_t k);
uint32_t get16(const uint8_t *list, size_t k);
void put32(uint8_t *list, size_t k, uint32_t x);
void put16(uint8_t *list, size_t k, uint32_t x);

/* No tasks, no jobs, horizon 0. */
void clear(struct lists *in, uint32_t mode);
void add_task(struct lists *in, const uint32_t fields[7]);
void add_job(struct lists *in, uint32_t task, uint32_t arrival, uint32_t time);

/* This horizon, and a schedule of its length filled with a value that no call writes. */
void set_horizon(struct lists *in, uint32_t horizon);

/* Calls with the arguments of zsrm_run and of zsrm_claim. */
typedef uint32_t run_call(uint32_t mode, const uint8_t *tasks, size_t tasks_len,
                          const uint8_t *jobs, size_t jobs_len, uint32_t horizon,
                          uint8_t *schedule, size_t schedule_len);
typedef uint32_t claim_call(uint32_t mode, const uint8_t *tasks, size_t tasks_len,
                            const uint8_t *jobs, size_t jobs_len, uint32_t horizon,
                            const uint8_t *schedule, size_t schedule_len);

/* The answer on copies of the lists, at an odd or even address as `shift` says (0..7). */
void lend_run(run_call *run, const struct lists *in, size_t shift, struct outcome *out);
void lend_claim(claim_call *claim, const struct lists *in, size_t shift, struct outcome *out);

#endif
