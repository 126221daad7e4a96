/* The inputs that are measured. */
#include "shapes.h"

/* Document 01's list A with the middle execution time 10: an overrun. */
static void list_a(struct lists *in, uint32_t mode) {
    static const uint32_t tasks[2][7] = {{8, 8, 4, 4, 1, 2, 4}, {20, 16, 5, 10, 2, 1, 10}};
    clear(in, mode);
    add_task(in, tasks[0]);
    add_task(in, tasks[1]);
    add_job(in, 0, 0, 4);
    add_job(in, 1, 0, 10);
    add_job(in, 0, 8, 4);
    set_horizon(in, 18);
}

/* Three tasks of periods 20, 10 and 40 for 80 ticks, some jobs over their nominal time. */
static void three_tasks(struct lists *in, uint32_t mode) {
    static const uint32_t tasks[3][7] = {
        {20, 20, 4, 8, 3, 2, 12}, {10, 10, 3, 4, 2, 3, 6}, {40, 40, 6, 6, 1, 1, 30}};
    clear(in, mode);
    for (int i = 0; i < 3; i++)
        add_task(in, tasks[i]);
    for (uint32_t t = 0; t < 80; t += 10) {
        add_job(in, 1, t, t % 30 == 0 ? 4 : 3);
        if (t % 20 == 0)
            add_job(in, 0, t, t == 40 ? 8 : 4);
        if (t % 40 == 0)
            add_job(in, 2, t, 6);
    }
    set_horizon(in, 80);
}

/* Sixteen tasks with four jobs each, every job of `time` ticks. Task i has criticality `step` * i
   and zero-slack offset `slack` * i; priorities run the other way: zero slack decides often. */
static void sixteen_tasks(struct lists *in, uint32_t mode, uint32_t time, uint32_t step,
                          uint32_t slack) {
    clear(in, mode);
    for (uint32_t i = 0; i < 16; i++) {
        const uint32_t task[7] = {4096, 4096, 256, 512, step * i, 63 - 4 * i, slack * i};
        add_task(in, task);
    }
    for (uint32_t j = 0; j < 64; j++)
        add_job(in, j % 16, j / 16 * 4096, time);
    set_horizon(in, 16384);
}

static void all_nominal(struct lists *in, uint32_t mode) {
    sixteen_tasks(in, mode, 256, 15, 256);
}

static void all_overload(struct lists *in, uint32_t mode) {
    sixteen_tasks(in, mode, 512, 15, 256);
}

/* One criticality and zero-slack offset 0: every job alive is past zero slack, and more are alive
   from round to round. */
static void all_equal(struct lists *in, uint32_t mode) {
    sixteen_tasks(in, mode, 512, 0, 0);
}

const struct shape shapes[SHAPES] = {
    {"2 tasks, 3 jobs, 18 ticks", list_a},
    {"3 tasks, 14 jobs, 80 ticks", three_tasks},
    {"16 tasks, 64 jobs, 16384 ticks", all_nominal},
    {"the same, all jobs overrunning", all_overload},
    {"the same, equal and no slack", all_equal},
};

void spread(struct lists *in, uint32_t mode, uint32_t tasks, uint32_t jobs, uint32_t horizon) {
    uint32_t period = horizon * tasks / jobs, nominal = 3 * period / (4 * tasks);
    clear(in, mode);
    for (uint32_t i = 0; i < tasks; i++) {
        const uint32_t slack = period / 2 + i * period / (4 * tasks);
        const uint32_t task[7] = {period, period, nominal, 2 * nominal, 15 * i, 63 - 3 * i, slack};
        add_task(in, task);
    }
    for (uint32_t j = 0; j < jobs; j++) {
        uint32_t round = j / tasks, k = j % tasks;
        add_job(in, 7 * k % tasks, round * period + k * period / (2 * tasks),
                j % 5 < 2 ? 2 * nominal : nominal);
    }
    set_horizon(in, horizon);
}
