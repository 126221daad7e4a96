/* What is drawn: lists at the edges that matter, and damage to them. */
#include "draw.h"

enum { MOST_TIME = 16384 };

static uint64_t state = 20240607;

void set_seed(uint64_t seed) {
    state = seed | 1;
}

/* xorshift64* */
uint32_t below(uint32_t n) {
    state ^= state >> 12;
    state ^= state << 25;
    state ^= state >> 27;
    return (uint32_t)((state * UINT64_C(2685821657736338717) >> 32) % n);
}

uint32_t between(uint32_t least, uint32_t most) {
    return least + below(most - least + 1);
}

int one_in(uint32_t n) {
    return below(n) == 0;
}

uint32_t one_of(const uint32_t *values, size_t n) {
    return values[below((uint32_t)n)];
}

uint32_t tasks_in(const struct lists *in) {
    return (uint32_t)(in->tasks_len / 28);
}

uint32_t jobs_in(const struct lists *in) {
    return (uint32_t)(in->jobs_len / 12);
}

static uint32_t task_field(const struct lists *in, uint32_t task, uint32_t field) {
    return get32(in->tasks, 7 * task + field);
}

/* ---- Good lists ---- */

/* Few levels, so that ties are frequent; now and then the whole range. */
static uint32_t level(uint32_t most) {
    return one_in(8) ? below(most + 1) : below(3);
}

static void draw_task(struct lists *in, uint32_t longest) {
    uint32_t task[7];
    task[0] = between(1, longest);
    task[1] = one_in(2) ? task[0] : between(1, task[0]);
    task[3] = between(1, one_in(4) ? longest : 1 + longest / 4);
    task[2] = one_in(3) ? between(1, task[3]) : between(1, 1 + task[3] / 2);
    task[2] = task[2] < task[3] ? task[2] : task[3];
    task[4] = level(255);
    task[5] = level(63);
    task[6] = one_in(3) ? between(0, task[1]) : between(0, task[1] / 4);
    add_task(in, task);
}

void add_twin(struct lists *in) {
    uint32_t task[7];
    for (uint32_t k = 0; k < 7; k++)
        task[k] = task_field(in, 0, k);
    add_task(in, task);
}

static void draw_tasks(struct lists *in, uint32_t tasks, uint32_t longest) {
    draw_task(in, longest);
    while (tasks_in(in) < tasks) {
        if (one_in(4))
            add_twin(in);
        else
            draw_task(in, longest);
    }
}

/* Execution times at the edges that matter: none, nominal, just over it, all. */
static uint32_t draw_time(const struct lists *in, uint32_t task) {
    uint32_t nominal = task_field(in, task, 2), overload = task_field(in, task, 3);
    uint32_t just_over = nominal < overload ? nominal + 1 : overload;
    uint32_t edges[] = {0, nominal, just_over, overload, overload};
    return one_in(3) ? between(0, overload) : ONE_OF(edges);
}

/* Of two tasks drawn, the one that may come sooner: many jobs are then alive together. A pause of
   less than `pause` ticks stands before one in three. */
static void draw_jobs(struct lists *in, uint32_t jobs, uint32_t pause) {
    uint32_t next[16] = {0}, now = 0;
    for (uint32_t j = 0; j < jobs; j++) {
        uint32_t task = below(tasks_in(in)), other = below(tasks_in(in));
        task = next[other] < next[task] ? other : task;
        now = next[task] > now ? next[task] : now;
        now += one_in(3) ? below(pause) : 0;
        if (now > MOST_TIME)
            return;
        next[task] = now + task_field(in, task, 0);
        add_job(in, task, now, draw_time(in, task));
    }
}

/* A third of the jobs, at half the pause each, come to two thirds of the horizon. */
static void draw_long(struct lists *in) {
    static const uint32_t longest[] = {64, 512, 2048, 8192};
    uint32_t horizon = one_in(2) ? MOST_TIME : between(MOST_TIME / 2, MOST_TIME);
    uint32_t tasks = between(2, 16), jobs = between(8, 64);
    draw_tasks(in, tasks, ONE_OF(longest));
    draw_jobs(in, jobs, 4 * horizon / jobs);
    set_horizon(in, horizon);
}

void draw_lists(struct lists *in, enum extent extent) {
    clear(in, below(2));
    if (extent == LONG) {
        draw_long(in);
    } else if (extent == FULL) {
        draw_tasks(in, between(12, 16), 100);
        draw_jobs(in, between(50, 64), 5);
        set_horizon(in, between(200, 500));
    } else {
        draw_tasks(in, between(1, 4), 12);
        draw_jobs(in, below(9), 5);
        set_horizon(in, below(one_in(4) ? 50 : 25));
    }
}

/* ---- Damage ---- */

/* Another length, to one entry more than the list may have; what is added is noise. */
static size_t other_length(uint8_t *list, size_t len, size_t entry, size_t most) {
    size_t other = one_in(2) ? below((uint32_t)most + 1) : len / entry * entry + below(5);
    for (size_t k = len; k < other; k++)
        list[k] = (uint8_t)below(256);
    return other;
}

static uint32_t too_large(uint32_t most) {
    uint32_t values[] = {most + 1, most + 2, 65536 + below(most + 1), 0x80000000, 0xFFFFFFFF};
    return ONE_OF(values);
}

static void damage_task_range(struct lists *in, uint32_t task) {
    static const uint32_t most[7] = {16384, 16384, 16384, 16384, 255, 63, 16384};
    uint32_t field = below(7);
    put32(in->tasks, 7 * task + field, field < 4 && one_in(2) ? 0 : too_large(most[field]));
}

/* C over Co, D over T or Z over D. */
static void damage_task_order(struct lists *in, uint32_t task) {
    static const uint32_t less[] = {2, 1, 6}, more[] = {3, 0, 1};
    uint32_t k = below(3);
    put32(in->tasks, 7 * task + less[k], task_field(in, task, more[k]) + 1 + below(2));
}

static void damage_job_range(struct lists *in, uint32_t job) {
    uint32_t task = get32(in->jobs, 3 * job), tasks = tasks_in(in), field = below(3);
    if (field == 0)
        put32(in->jobs, 3 * job, one_in(2) ? tasks : too_large(tasks));
    else if (field == 1)
        put32(in->jobs, 3 * job + 1, too_large(MOST_TIME));
    else
        put32(in->jobs, 3 * job + 2, task < tasks ? task_field(in, task, 3) + 1 + below(2) : 1);
}

/* An arrival just before another's, or a little less than a period after it. */
static void damage_job_order(struct lists *in, uint32_t job, int soon) {
    uint32_t above = below(job + 1), task = get32(in->jobs, 3 * above);
    uint32_t arrival = get32(in->jobs, 3 * above + 1);
    uint32_t apart = soon && task < tasks_in(in) ? task_field(in, task, 0) : 0;
    put32(in->jobs, 3 * job + 1, arrival + apart - (arrival + apart > 0));
    if (soon)
        put32(in->jobs, 3 * job, task);
}

static void damage_jobs(struct lists *in, uint32_t number) {
    if (jobs_in(in) == 0)
        return;
    if (number == 6)
        damage_job_range(in, below(jobs_in(in)));
    else
        damage_job_order(in, below(jobs_in(in)), number == 8);
}

void damage(struct lists *in, uint32_t number) {
    if (number == 1)
        in->mode = 2 + (one_in(2) ? below(3) : below(0xFFFFFFFE));
    else if (number == 2)
        in->tasks_len = other_length(in->tasks, in->tasks_len, 28, 28 * 17 + 1);
    else if (number == 3 && tasks_in(in) > 0)
        damage_task_range(in, below(tasks_in(in)));
    else if (number == 4 && tasks_in(in) > 0)
        damage_task_order(in, below(tasks_in(in)));
    else if (number == 5)
        in->jobs_len = other_length(in->jobs, in->jobs_len, 12, 12 * 65 + 1);
    else if (number >= 6 && number <= 8)
        damage_jobs(in, number);
    else if (number == 9)
        in->horizon = too_large(MOST_TIME);
    else if (number == 10)
        in->schedule_len = other_length(in->schedule, in->schedule_len, 2, 60);
}
