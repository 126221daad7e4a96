/* A tick-by-tick simulator of document 01, in its order. It shares nothing with the library. */
#include "simulator.h"

enum {
    TASK_FIELDS = 7,
    JOB_FIELDS = 3,
    MOST_TASKS = 16,
    MOST_JOBS = 64,
    MOST_TIME = 16384,
    MOST_CRITICALITY = 255,
    MOST_PRIORITY = 63,
    IDLE = 65535,
    NOT_LEGAL = 65536
};

enum task_field { T, D, C, CO, CRITICALITY, PRIORITY, Z };
enum job_field { TASK, ARRIVAL, TIME };

static uint32_t number_at(const uint8_t *list, size_t k) {
    const uint8_t *b = list + 4 * k;
    return b[0] | (uint32_t)b[1] << 8 | (uint32_t)b[2] << 16 | (uint32_t)b[3] << 24;
}

static uint32_t of_task(const uint8_t *tasks, size_t i, enum task_field field) {
    return number_at(tasks, TASK_FIELDS * i + field);
}

static uint32_t of_job(const uint8_t *jobs, size_t j, enum job_field field) {
    return number_at(jobs, JOB_FIELDS * j + field);
}

static uint32_t entry_at(const uint8_t *schedule, uint32_t t) {
    return schedule[2 * t] | (uint32_t)schedule[2 * t + 1] << 8;
}

static void put_entry(uint8_t *schedule, uint32_t t, uint32_t entry) {
    schedule[2 * t] = (uint8_t)(entry % 256);
    schedule[2 * t + 1] = (uint8_t)(entry / 256);
}

/* ---- Refusal numbers ---- */

/* 3, 4, or 0 for a task that passes. */
static uint32_t refusal_of_task(const uint8_t *tasks, size_t i) {
    for (int field = T; field <= CO; field++) {
        uint32_t time = of_task(tasks, i, (enum task_field)field);
        if (time < 1 || time > MOST_TIME)
            return 3;
    }
    if (of_task(tasks, i, CRITICALITY) > MOST_CRITICALITY ||
        of_task(tasks, i, PRIORITY) > MOST_PRIORITY || of_task(tasks, i, Z) > MOST_TIME)
        return 3;
    if (of_task(tasks, i, C) > of_task(tasks, i, CO) ||
        of_task(tasks, i, D) > of_task(tasks, i, T) || of_task(tasks, i, Z) > of_task(tasks, i, D))
        return 4;
    return 0;
}

/* 1 where the preceding job of the same task, if any, arrived less than T before. */
static int too_soon(const uint8_t *tasks, const uint8_t *jobs, size_t j) {
    uint32_t task = of_job(jobs, j, TASK);
    for (size_t k = j; k-- > 0;) {
        if (of_job(jobs, k, TASK) == task)
            return of_job(jobs, j, ARRIVAL) - of_job(jobs, k, ARRIVAL) < of_task(tasks, task, T);
    }
    return 0;
}

/* 6, 7, 8, or 0 for a job that passes, the jobs above it having passed. */
static uint32_t refusal_of_job(const uint8_t *tasks, size_t task_count, const uint8_t *jobs,
                               size_t j) {
    uint32_t task = of_job(jobs, j, TASK), arrival = of_job(jobs, j, ARRIVAL);
    uint32_t time = of_job(jobs, j, TIME);
    if (task >= task_count || arrival > MOST_TIME || time > of_task(tasks, task, CO))
        return 6;
    if (j > 0 && arrival < of_job(jobs, j - 1, ARRIVAL))
        return 7;
    if (too_soon(tasks, jobs, j))
        return 8;
    return 0;
}

static uint32_t refused(uint32_t number, size_t place) {
    return number + 256 * (uint32_t)place;
}

/* The first refusal in the order of the classes, or 0. */
static uint32_t refusal(uint32_t mode, const uint8_t *tasks, size_t tasks_len, const uint8_t *jobs,
                        size_t jobs_len, uint32_t horizon, size_t schedule_len) {
    size_t task_count = tasks_len / (4 * TASK_FIELDS);
    size_t job_count = jobs_len / (4 * JOB_FIELDS);
    if (mode > 1)
        return refused(1, 0);
    if (tasks_len % (4 * TASK_FIELDS) != 0 || task_count < 1 || task_count > MOST_TASKS)
        return refused(2, 0);
    for (size_t i = 0; i < task_count; i++) {
        uint32_t number = refusal_of_task(tasks, i);
        if (number != 0)
            return refused(number, i);
    }
    if (jobs_len % (4 * JOB_FIELDS) != 0 || job_count > MOST_JOBS)
        return refused(5, 0);
    for (size_t j = 0; j < job_count; j++) {
        uint32_t number = refusal_of_job(tasks, task_count, jobs, j);
        if (number != 0)
            return refused(number, j);
    }
    if (horizon > MOST_TIME)
        return refused(9, 0);
    if (schedule_len != 2 * (size_t)horizon)
        return refused(10, 0);
    return 0;
}

/* ---- The record ---- */

enum standing { NOT_ARRIVED, ALIVE, FINISHED, ENDED };

struct job {
    uint32_t arrival, time, zero, nominal, deadline; /* zero: arrival + Z; deadline: arrival + D */
    int criticality, priority;
    enum standing standing;
    uint32_t done, instant; /* instant: at which it finished, or the tick in which it was ended */
    uint32_t suspended, waited;
};

struct state {
    int ends; /* mode SE */
    uint32_t tick, count;
    struct job jobs[MOST_JOBS];
};

/* The jobs that arrive at this tick. One with nothing to do is finished as it arrives. */
static void arrive(struct state *s) {
    for (uint32_t j = 0; j < s->count; j++) {
        struct job *job = &s->jobs[j];
        if (job->arrival == s->tick) {
            job->standing = job->time == 0 ? FINISHED : ALIVE;
            job->instant = s->tick;
        }
    }
}

static void start(struct state *s, uint32_t mode, const uint8_t *tasks, const uint8_t *jobs,
                  size_t jobs_len) {
    s->ends = mode == 1;
    s->tick = 0;
    s->count = (uint32_t)(jobs_len / (4 * JOB_FIELDS));
    for (uint32_t j = 0; j < s->count; j++) {
        struct job *job = &s->jobs[j];
        uint32_t task = of_job(jobs, j, TASK);
        job->arrival = of_job(jobs, j, ARRIVAL);
        job->time = of_job(jobs, j, TIME);
        job->zero = job->arrival + of_task(tasks, task, Z);
        job->nominal = of_task(tasks, task, C);
        job->deadline = job->arrival + of_task(tasks, task, D);
        job->criticality = (int)of_task(tasks, task, CRITICALITY);
        job->priority = (int)of_task(tasks, task, PRIORITY);
        job->standing = NOT_ARRIVED;
        job->done = 0;
        job->instant = 0;
        job->suspended = 0;
        job->waited = 0;
    }
    arrive(s);
}

/* ---- One tick ---- */

/* Who may run in a tick: alive jobs of criticality `floor` or more are not suspended, and of these
   the ones of priority `top` are candidates. Both are -1 where no job sets them. */
struct choice {
    int floor, top;
};

static int past_zero_slack(const struct state *s, const struct job *job) {
    return job->standing == ALIVE && job->zero <= s->tick;
}

static struct choice choices(const struct state *s) {
    struct choice c = {-1, -1};
    for (uint32_t j = 0; j < s->count; j++) {
        const struct job *job = &s->jobs[j];
        if (past_zero_slack(s, job) && job->criticality > c.floor)
            c.floor = job->criticality;
    }
    for (uint32_t j = 0; j < s->count; j++) {
        const struct job *job = &s->jobs[j];
        if (job->standing == ALIVE && job->criticality >= c.floor && job->priority > c.top)
            c.top = job->priority;
    }
    return c;
}

static int is_candidate(const struct job *job, struct choice c) {
    return job->standing == ALIVE && job->criticality >= c.floor && job->priority == c.top;
}

static uint32_t lowest_candidate(const struct state *s, struct choice c) {
    for (uint32_t j = 0; j < s->count; j++)
        if (is_candidate(&s->jobs[j], c))
            return j;
    return IDLE;
}

/* SE: whoever is less critical than a job that is over in this tick is ended. */
static void end_jobs(struct state *s, uint32_t entry) {
    int over = -1;
    for (uint32_t j = 0; j < s->count; j++) {
        const struct job *job = &s->jobs[j];
        uint32_t done = job->done + (j == entry ? 1 : 0);
        if (past_zero_slack(s, job) && done > job->nominal && job->criticality > over)
            over = job->criticality;
    }
    for (uint32_t j = 0; j < s->count; j++) {
        struct job *job = &s->jobs[j];
        if (job->standing == ALIVE && job->criticality < over) {
            job->standing = ENDED;
            job->instant = s->tick;
        }
    }
}

/* What the tick costs the alive jobs that do not run in it: whoever is below the floor is suspended,
   and of these are all that it ends; any other waits for the job that runs. */
static void lose_tick(struct state *s, struct choice c, uint32_t entry) {
    for (uint32_t j = 0; j < s->count; j++) {
        struct job *job = &s->jobs[j];
        if (job->standing != ALIVE || j == entry)
            continue;
        if (job->criticality < c.floor)
            job->suspended++;
        else
            job->waited++;
    }
}

/* One tick with this entry, which is a candidate, or idle. */
static void advance(struct state *s, struct choice c, uint32_t entry) {
    lose_tick(s, c, entry);
    if (s->ends)
        end_jobs(s, entry);
    s->tick++;
    if (entry != IDLE) {
        struct job *job = &s->jobs[entry];
        job->done++;
        if (job->done == job->time) {
            job->standing = FINISHED;
            job->instant = s->tick;
        }
    }
    arrive(s);
}

/* ---- Legal schedules ---- */

/* 1 where this tick is a scheduling instant, `before` being the entry of the tick before. */
static int is_instant(const struct state *s, uint32_t before) {
    for (uint32_t j = 0; j < s->count; j++) {
        const struct job *job = &s->jobs[j];
        if (job->arrival == s->tick || job->zero == s->tick ||
            (job->standing == FINISHED && job->instant == s->tick))
            return 1;
    }
    return s->ends && before != IDLE && s->jobs[before].done == s->jobs[before].nominal;
}

static int may_change(const struct state *s, uint32_t before) {
    return s->tick == 0 || is_instant(s, before);
}

static int is_legal(const struct state *s, struct choice c, uint32_t before, uint32_t entry) {
    if (entry == IDLE ? c.top >= 0 : entry >= s->count || !is_candidate(&s->jobs[entry], c))
        return 0;
    return entry == before || may_change(s, before);
}

/* ---- The calls ---- */

uint32_t sim_run(uint32_t mode, const uint8_t *tasks, size_t tasks_len, const uint8_t *jobs,
                 size_t jobs_len, uint32_t horizon, uint8_t *schedule, size_t schedule_len) {
    struct state s;
    uint32_t no = refusal(mode, tasks, tasks_len, jobs, jobs_len, horizon, schedule_len);
    if (no != 0)
        return no;
    start(&s, mode, tasks, jobs, jobs_len);
    while (s.tick < horizon) {
        struct choice c = choices(&s);
        uint32_t entry = lowest_candidate(&s, c);
        put_entry(schedule, s.tick, entry);
        advance(&s, c, entry);
    }
    return 0;
}

uint32_t sim_claim(uint32_t mode, const uint8_t *tasks, size_t tasks_len, const uint8_t *jobs,
                   size_t jobs_len, uint32_t horizon, const uint8_t *schedule,
                   size_t schedule_len) {
    struct state s;
    uint32_t before = IDLE;
    uint32_t no = refusal(mode, tasks, tasks_len, jobs, jobs_len, horizon, schedule_len);
    if (no != 0)
        return no;
    start(&s, mode, tasks, jobs, jobs_len);
    while (s.tick < horizon) {
        struct choice c = choices(&s);
        uint32_t entry = entry_at(schedule, s.tick);
        if (!is_legal(&s, c, before, entry))
            return NOT_LEGAL + s.tick;
        advance(&s, c, entry);
        before = entry;
    }
    return 0;
}

/* ---- Verdicts ---- */

static struct sim_fate fate_of(const struct state *s, const struct job *job) {
    struct sim_fate fate = {SIM_OPEN, 0, 0, 0, job->suspended, job->waited};
    if (job->standing == ENDED)
        fate.verdict = SIM_ENDED;
    else if (job->standing == FINISHED)
        fate.verdict = job->instant <= job->deadline ? SIM_MET : SIM_LATE;
    else if (job->standing == ALIVE && s->tick >= job->deadline)
        fate.verdict = SIM_LATE;
    fate.has_instant = job->standing == ENDED || job->standing == FINISHED;
    fate.instant = fate.has_instant ? job->instant : 0;
    if (fate.verdict == SIM_LATE)
        fate.late = (fate.has_instant ? fate.instant : s->tick) - job->deadline;
    return fate;
}

void sim_fates(uint32_t mode, const uint8_t *tasks, const uint8_t *jobs, size_t jobs_len,
               uint32_t horizon, struct sim_fate *fates) {
    struct state s;
    start(&s, mode, tasks, jobs, jobs_len);
    while (s.tick < horizon) {
        struct choice c = choices(&s);
        advance(&s, c, lowest_candidate(&s, c));
    }
    for (uint32_t j = 0; j < s.count; j++)
        fates[j] = fate_of(&s, &s.jobs[j]);
}

/* ---- For the random test ---- */

static uint32_t drawn_candidate(const struct state *s, struct choice c,
                                uint32_t (*draw)(uint32_t n)) {
    uint32_t candidates[MOST_JOBS], n = 0;
    for (uint32_t j = 0; j < s->count; j++)
        if (is_candidate(&s->jobs[j], c))
            candidates[n++] = j;
    return n == 0 ? (uint32_t)IDLE : candidates[draw(n)];
}

void sim_draw(uint32_t mode, const uint8_t *tasks, const uint8_t *jobs, size_t jobs_len,
              uint32_t horizon, uint8_t *schedule, uint32_t (*draw)(uint32_t n)) {
    struct state s;
    uint32_t before = IDLE;
    start(&s, mode, tasks, jobs, jobs_len);
    while (s.tick < horizon) {
        struct choice c = choices(&s);
        uint32_t entry = may_change(&s, before) ? drawn_candidate(&s, c, draw) : before;
        put_entry(schedule, s.tick, entry);
        advance(&s, c, entry);
        before = entry;
    }
}
