/* Refusals 1 to 10, each list gone through once. */
#include "peer_input.h"

static inline int outside(uint32_t x, uint32_t low, uint32_t high) {
    return x < low || x > high;
}

/* 3, 4, or 0 for a task that passes. */
static inline uint32_t read_task(struct task *task, const uint8_t *at) {
    uint32_t deadline = get32(at + 4);
    task->period = get32(at);
    task->nominal = get32(at + 8);
    task->overload = get32(at + 12);
    task->criticality = get32(at + 16);
    task->priority = get32(at + 20);
    task->slack = get32(at + 24);
    task->job_count = 0;
    task->soonest = 0;
    if (outside(task->period, 1, ZSRM_MOST_TICKS) || outside(deadline, 1, ZSRM_MOST_TICKS) ||
        outside(task->nominal, 1, ZSRM_MOST_TICKS) || outside(task->overload, 1, ZSRM_MOST_TICKS) ||
        task->criticality > ZSRM_MOST_CRITICALITY || task->priority > ZSRM_MOST_PRIORITY ||
        task->slack > ZSRM_MOST_TICKS)
        return ZSRM_REFUSED_TASK_RANGE;
    if (task->nominal > task->overload || deadline > task->period || task->slack > deadline)
        return ZSRM_REFUSED_TASK_ORDER;
    return 0;
}

static uint32_t read_tasks(struct input *in, const uint8_t *tasks, size_t len) {
    if (len == 0 || len > ZSRM_MOST_TASKS * ZSRM_TASK_BYTES || len % ZSRM_TASK_BYTES != 0)
        return ZSRM_REFUSED_TASKS_LENGTH;
    in->task_count = (uint32_t)(len / ZSRM_TASK_BYTES);
    for (uint32_t k = 0; k < in->task_count; k++) {
        uint32_t number = read_task(&in->tasks[k], tasks + ZSRM_TASK_BYTES * k);
        if (number != 0)
            return number + 256 * k;
    }
    return 0;
}

/* 6, 7, 8, or 0 for a job that passes and is counted. `above`: the arrival of the job above it. */
static inline uint32_t count_job(struct input *in, struct job job, uint32_t above) {
    struct task *task;
    if (job.task >= in->task_count)
        return ZSRM_REFUSED_JOB_RANGE;
    task = &in->tasks[job.task];
    if (job.arrival > ZSRM_MOST_TICKS || job.time > task->overload)
        return ZSRM_REFUSED_JOB_RANGE;
    if (job.arrival < above)
        return ZSRM_REFUSED_JOB_ORDER;
    if (job.arrival < task->soonest)
        return ZSRM_REFUSED_TOO_SOON;
    task->soonest = job.arrival + task->period;
    task->job_count++;
    return 0;
}

static uint32_t count_jobs(struct input *in, const uint8_t *jobs, size_t len) {
    uint32_t above = 0;
    if (len > ZSRM_MOST_JOBS * ZSRM_JOB_BYTES || len % ZSRM_JOB_BYTES != 0)
        return ZSRM_REFUSED_JOBS_LENGTH;
    in->jobs = jobs;
    in->job_count = (uint32_t)(len / ZSRM_JOB_BYTES);
    for (uint32_t j = 0; j < in->job_count; j++) {
        struct job job = job_at(jobs, j);
        uint32_t number = count_job(in, job, above);
        if (number != 0)
            return number + 256 * j;
        above = job.arrival;
    }
    return 0;
}

uint32_t read_input(struct input *in, uint32_t mode, const uint8_t *tasks, size_t tasks_len,
                    const uint8_t *jobs, size_t jobs_len, uint32_t horizon, size_t schedule_len) {
    uint32_t refusal;
    if (mode != ZSRM_MODE_S && mode != ZSRM_MODE_SE)
        return ZSRM_REFUSED_MODE;
    if ((refusal = read_tasks(in, tasks, tasks_len)) != 0)
        return refusal;
    if ((refusal = count_jobs(in, jobs, jobs_len)) != 0)
        return refusal;
    if (horizon > ZSRM_MOST_TICKS)
        return ZSRM_REFUSED_HORIZON;
    if (schedule_len != ZSRM_ENTRY_BYTES * (size_t)horizon)
        return ZSRM_REFUSED_SCHEDULE_LENGTH;
    return 0;
}
