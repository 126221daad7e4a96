/* Lists as bytes, and guarded calls. */
#include "lists.h"

#include <string.h>

enum { GUARD = 32, SHIFTS = 8, GUARD_BYTE = 0xA5, UNWRITTEN = 0xEE };

uint32_t get32(const uint8_t *list, size_t k) {
    return get16(list, 2 * k) + (get16(list, 2 * k + 1) << 16);
}

uint32_t get16(const uint8_t *list, size_t k) {
    return list[2 * k] + ((uint32_t)list[2 * k + 1] << 8);
}

void put32(uint8_t *list, size_t k, uint32_t x) {
    put16(list, 2 * k, x & 0xFFFF);
    put16(list, 2 * k + 1, x >> 16);
}

void put16(uint8_t *list, size_t k, uint32_t x) {
    list[2 * k] = (uint8_t)(x & 0xFF);
    list[2 * k + 1] = (uint8_t)(x >> 8 & 0xFF);
}

void clear(struct lists *in, uint32_t mode) {
    in->mode = mode;
    in->tasks_len = 0;
    in->jobs_len = 0;
    set_horizon(in, 0);
}

void add_task(struct lists *in, const uint32_t fields[7]) {
    for (size_t k = 0; k < 7; k++)
        put32(in->tasks + in->tasks_len, k, fields[k]);
    in->tasks_len += 28;
}

void add_job(struct lists *in, uint32_t task, uint32_t arrival, uint32_t time) {
    put32(in->jobs + in->jobs_len, 0, task);
    put32(in->jobs + in->jobs_len, 1, arrival);
    put32(in->jobs + in->jobs_len, 2, time);
    in->jobs_len += 12;
}

void set_horizon(struct lists *in, uint32_t horizon) {
    in->horizon = horizon;
    in->schedule_len = 2 * (size_t)horizon;
    memset(in->schedule, UNWRITTEN, in->schedule_len);
}

/* ---- Guarded calls ---- */

static uint8_t tasks_room[GUARD + SHIFTS + TASKS_ROOM + GUARD];
static uint8_t jobs_room[GUARD + SHIFTS + JOBS_ROOM + GUARD];
static uint8_t schedule_room[GUARD + SHIFTS + SCHEDULE_ROOM + GUARD];

static uint8_t *put_in(uint8_t *room, size_t shift, const uint8_t *list, size_t len) {
    uint8_t *lent = room + GUARD + shift;
    memset(lent - GUARD, GUARD_BYTE, GUARD);
    memcpy(lent, list, len);
    memset(lent + len, GUARD_BYTE, GUARD);
    return lent;
}

static int guards_stand(const uint8_t *lent, size_t len) {
    const uint8_t *before = lent - GUARD, *after = lent + len;
    for (size_t k = 0; k < GUARD; k++)
        if (before[k] != GUARD_BYTE || after[k] != GUARD_BYTE)
            return 0;
    return 1;
}

static int untouched(const uint8_t *lent, const uint8_t *list, size_t len) {
    return guards_stand(lent, len) && memcmp(lent, list, len) == 0;
}

struct lent {
    uint8_t *tasks, *jobs, *schedule;
};

static struct lent lend(const struct lists *in, size_t shift) {
    struct lent lent;
    lent.tasks = put_in(tasks_room, shift, in->tasks, in->tasks_len);
    lent.jobs = put_in(jobs_room, (shift + 3) % SHIFTS, in->jobs, in->jobs_len);
    lent.schedule = put_in(schedule_room, (shift + 6) % SHIFTS, in->schedule, in->schedule_len);
    return lent;
}

static void take_back(const struct lists *in, struct lent lent, struct outcome *out) {
    out->kept = untouched(lent.tasks, in->tasks, in->tasks_len) &&
                untouched(lent.jobs, in->jobs, in->jobs_len) &&
                guards_stand(lent.schedule, in->schedule_len);
    memcpy(out->schedule, lent.schedule, in->schedule_len);
}

void lend_run(run_call *run, const struct lists *in, size_t shift, struct outcome *out) {
    struct lent lent = lend(in, shift);
    out->result = run(in->mode, lent.tasks, in->tasks_len, lent.jobs, in->jobs_len, in->horizon,
                      lent.schedule, in->schedule_len);
    take_back(in, lent, out);
}

void lend_claim(claim_call *claim, const struct lists *in, size_t shift, struct outcome *out) {
    struct lent lent = lend(in, shift);
    out->result = claim(in->mode, lent.tasks, in->tasks_len, lent.jobs, in->jobs_len, in->horizon,
                        lent.schedule, in->schedule_len);
    take_back(in, lent, out);
}
