/* The peer that leaps. A leap ends where a job arrives, where a job that came reaches arrival + Z,
   where the job that runs finishes or, in SE, reaches C, or at the horizon. Within a leap nothing
   changes but the ticks done: whoever is ended is so in its first tick, and was suspended.

   Every job has a place, by priority and then by number: of a set of places the least is the job
   that a run takes. Who is alive, past zero slack and not suspended is kept from leap to leap, so
   that a leap looks at the jobs past zero slack alone. */
#include "peer.h"

#include <string.h>

#include "peer_input.h"

enum { NEVER = 65535 };

/* ---- The plan ---- */

struct arrival {
    uint16_t tick, place;
};

struct work {
    uint16_t burst; /* ticks until it finishes or, in SE, reaches C */
    uint16_t rest;  /* ticks from there to its finish */
    uint16_t zero;  /* arrival + Z */
    uint8_t number, task;
};

struct plan {
    const struct task *tasks;
    uint32_t task_count, job_count;
    struct arrival arrivals[ZSRM_MOST_JOBS + 1]; /* by number; at the end, never */
    struct work work[ZSRM_MOST_JOBS];            /* by place */
    set of_task[ZSRM_MOST_TASKS];                /* the places of its jobs */
    set no_less[ZSRM_MOST_TASKS];                /* of jobs as critical or more; at first empty */
    uint32_t zeros[ZSRM_MOST_JOBS + 1];          /* room for those of the state */
};

/* The first place of each priority; index 0 is the highest, 63. */
static inline void first_places(const struct input *in, uint32_t first[ZSRM_MOST_PRIORITY + 1]) {
    set found = 0;
    uint32_t place = 0;
    memset(first, 0, sizeof *first * (ZSRM_MOST_PRIORITY + 1));
    for (uint32_t k = 0; k < in->task_count; k++) {
        uint32_t below = ZSRM_MOST_PRIORITY - in->tasks[k].priority;
        first[below] += in->tasks[k].job_count;
        found |= only(below);
    }
    for (; found != 0; found = without_least(found)) {
        uint32_t count = first[least(found)];
        first[least(found)] = place;
        place += count;
    }
}

static void make_plan(struct plan *plan, const struct input *in, uint32_t mode) {
    uint32_t next[ZSRM_MOST_PRIORITY + 1];
    first_places(in, next);
    plan->tasks = in->tasks;
    plan->task_count = in->task_count;
    plan->job_count = in->job_count;
    memset(plan->of_task, 0, sizeof plan->of_task);
    memset(plan->no_less, 0, sizeof plan->no_less);
    for (uint32_t j = 0; j < in->job_count; j++) {
        struct job job = job_at(in->jobs, j);
        const struct task *task = &in->tasks[job.task];
        uint32_t place = next[ZSRM_MOST_PRIORITY - task->priority]++;
        int overruns = mode == ZSRM_MODE_SE && job.time > task->nominal;
        struct work *work = &plan->work[place];
        work->burst = (uint16_t)(overruns ? task->nominal : job.time);
        work->rest = (uint16_t)(overruns ? job.time - task->nominal : 0);
        work->zero = (uint16_t)(job.arrival + task->slack);
        work->number = (uint8_t)j;
        work->task = (uint8_t)job.task;
        plan->arrivals[j].tick = (uint16_t)job.arrival;
        plan->arrivals[j].place = (uint16_t)place;
        plan->of_task[job.task] |= only(place);
    }
    plan->arrivals[in->job_count].tick = NEVER;
    plan->zeros[0] = 64u * NEVER;
}

/* Found when it is first asked for, as few tasks may have a job past zero slack. */
static inline set no_less_than(struct plan *plan, uint32_t task) {
    set found = plan->no_less[task];
    if (found != 0)
        return found;
    for (uint32_t k = 0; k < plan->task_count; k++)
        if (plan->tasks[k].criticality >= plan->tasks[task].criticality)
            found |= plan->of_task[k];
    return plan->no_less[task] = found;
}

/* ---- The state ---- */

/* The zeros are the instants arrival + Z to come of the jobs that came, each as 64 times the
   instant plus the job's place: ascending, and at their end never. */
struct state {
    set alive;
    set past;    /* alive and past zero slack */
    set reached; /* SE: their ticks done are C or more, and they have more to do */
    set beyond;  /* SE: their ticks done exceed C */
    set open;    /* whom no job past zero slack suspends, alive or not */
    const struct arrival *arrival; /* the next */
    uint32_t *zero, *zeros_end;
};

static inline struct state at_start(struct plan *plan) {
    struct state s = {0, 0, 0, 0, ~(set)0, plan->arrivals, plan->zeros, plan->zeros};
    return s;
}

static inline void arrive(struct plan *plan, struct state *s, uint32_t tick) {
    for (; s->arrival->tick == tick; s->arrival++) {
        uint32_t i = s->arrival->place, zero = 64u * plan->work[i].zero + i;
        uint32_t *at = s->zeros_end++;
        if (plan->work[i].burst > 0)
            s->alive |= only(i);
        for (; at > s->zero && at[-1] > zero; at--)
            at[0] = at[-1];
        at[0] = zero;
        *s->zeros_end = 64u * NEVER;
    }
}

static inline void pass_zero_slack(struct plan *plan, struct state *s, uint32_t tick) {
    for (; *s->zero / 64 == tick; s->zero++) {
        uint32_t i = *s->zero % 64;
        if (has(s->alive, i)) {
            s->past |= only(i);
            s->open &= no_less_than(plan, plan->work[i].task);
        }
    }
}

/* Where a job that is not alive reaches arrival + Z a run need not stop. A claim must: it may
   change there. */
static inline void skip_dead(struct state *s) {
    while (s->zero < s->zeros_end && !has(s->alive, *s->zero % 64))
        s->zero++;
}

static inline uint32_t lesser(uint32_t a, uint32_t b) {
    return a < b ? a : b;
}

/* The next instant that the clock brings, at most the horizon. */
static inline uint32_t next_instant(const struct state *s, uint32_t horizon) {
    return lesser(lesser(s->arrival->tick, *s->zero / 64), horizon);
}

static inline void finish(const struct plan *plan, struct state *s, uint32_t i) {
    s->alive &= ~only(i);
    if (!has(s->past, i))
        return;
    s->past &= ~only(i);
    s->open = ~(set)0;
    for (set past = s->past; past != 0; past = without_least(past))
        s->open &= plan->no_less[plan->work[least(past)].task];
}

/* SE: the job at place i runs. Whoever is less critical than a job that is over is ended. */
static inline void end_jobs(const struct plan *plan, struct state *s, uint32_t i) {
    s->beyond |= s->reached & only(i);
    for (set over = s->past & s->beyond; over != 0; over = without_least(over))
        s->alive &= plan->no_less[plan->work[least(over)].task];
    s->past &= s->alive;
}

/* The job at place i runs to its next instant, but at most so many ticks. Gives how many. */
static inline uint32_t leap(struct plan *plan, struct state *s, uint32_t i, uint32_t most) {
    struct work *work = &plan->work[i];
    uint32_t ticks = lesser(work->burst, most);
    end_jobs(plan, s, i);
    work->burst = (uint16_t)(work->burst - ticks);
    if (work->burst == 0 && work->rest == 0) {
        finish(plan, s, i);
    } else if (work->burst == 0) {
        s->reached |= only(i);
        work->burst = work->rest;
        work->rest = 0;
    }
    return ticks;
}

/* ---- The run ---- */

enum { ONE = ZSRM_ENTRY_BYTES, FOUR = 4 * ONE, EIGHT = 8 * ONE };

/* Fewer than eight entries, as the eight are. Two fours may overlap. */
static inline void fill_few(uint8_t *at, const uint64_t eight[2], uint32_t ticks) {
    uint8_t *end = at + ONE * ticks;
    if (ticks >= 4) {
        memcpy(at, eight, FOUR);
        memcpy(end - FOUR, eight, FOUR);
        return;
    }
    for (; at < end; at += ONE)
        memcpy(at, eight, ONE);
}

/* So many times the entry. The last eight may lie over those before them. */
static inline void fill(uint8_t *at, uint32_t entry, uint32_t ticks) {
    uint8_t *end = at + ONE * ticks;
    uint16_t one; /* whose bytes are the entry's */
    uint64_t eight[2];
    put16((uint8_t *)&one, entry);
    eight[0] = eight[1] = one * UINT64_C(0x0001000100010001);
    if (ticks < 8) {
        fill_few(at, eight, ticks);
        return;
    }
    for (; end - at > 4 * EIGHT; at += 4 * EIGHT) {
        memcpy(at, eight, EIGHT);
        memcpy(at + EIGHT, eight, EIGHT);
        memcpy(at + 2 * EIGHT, eight, EIGHT);
        memcpy(at + 3 * EIGHT, eight, EIGHT);
    }
    for (; end - at > EIGHT; at += EIGHT)
        memcpy(at, eight, EIGHT);
    memcpy(end - EIGHT, eight, EIGHT);
}

/* Among equals the job that ran goes on, and it is the least: an equal with a lower number came no
   later, so was suspended till then; but whoever suspends it leaves only by running, or ended by
   one who ends them both. */
uint32_t leaping_run(uint32_t mode, const uint8_t *tasks, size_t tasks_len, const uint8_t *jobs,
                     size_t jobs_len, uint32_t horizon, uint8_t *schedule, size_t schedule_len) {
    struct input in;
    struct plan plan;
    struct state s = at_start(&plan);
    uint32_t refusal =
        read_input(&in, mode, tasks, tasks_len, jobs, jobs_len, horizon, schedule_len);
    if (refusal != 0)
        return refusal;
    make_plan(&plan, &in, mode);
    for (uint32_t tick = 0, next; tick < horizon;) {
        arrive(&plan, &s, tick);
        pass_zero_slack(&plan, &s, tick);
        skip_dead(&s);
        next = next_instant(&s, horizon);
        do {
            set eligible = s.alive & s.open;
            uint32_t entry = ZSRM_IDLE, ticks = next - tick;
            if (eligible != 0) {
                entry = plan.work[least(eligible)].number;
                ticks = leap(&plan, &s, least(eligible), ticks);
            }
            fill(schedule + ZSRM_ENTRY_BYTES * tick, entry, ticks);
            tick += ticks;
        } while (tick < next);
    }
    return 0;
}

/* ---- The claim ---- */

static inline uint32_t priority_of(const struct plan *plan, uint32_t i) {
    return plan->tasks[plan->work[i].task].priority;
}

/* A candidate, or idle where there is none. */
static inline int may_stand(const struct plan *plan, set eligible, uint32_t entry) {
    uint32_t i;
    if (eligible == 0)
        return entry == ZSRM_IDLE;
    if (entry >= plan->job_count)
        return 0;
    i = plan->arrivals[entry].place;
    return has(eligible, i) && priority_of(plan, i) == priority_of(plan, least(eligible));
}

/* Of so many entries, at least one, how many are like the first before one is not. */
static inline uint32_t alike(const uint8_t *at, uint32_t ticks) {
    uint32_t k = 1;
    if (memcmp(at, at + ZSRM_ENTRY_BYTES, ZSRM_ENTRY_BYTES * (ticks - 1)) == 0)
        return ticks;
    while (get16(at + ZSRM_ENTRY_BYTES * k) == get16(at))
        k++;
    return k;
}

/* Each leap begins at a scheduling instant and has no other: only there the claim may change. */
uint32_t leaping_claim(uint32_t mode, const uint8_t *tasks, size_t tasks_len, const uint8_t *jobs,
                       size_t jobs_len, uint32_t horizon, const uint8_t *schedule,
                       size_t schedule_len) {
    struct input in;
    struct plan plan;
    struct state s = at_start(&plan);
    uint32_t refusal =
        read_input(&in, mode, tasks, tasks_len, jobs, jobs_len, horizon, schedule_len);
    if (refusal != 0)
        return refusal;
    make_plan(&plan, &in, mode);
    for (uint32_t tick = 0, next; tick < horizon;) {
        arrive(&plan, &s, tick);
        pass_zero_slack(&plan, &s, tick);
        next = next_instant(&s, horizon);
        do {
            const uint8_t *at = schedule + ZSRM_ENTRY_BYTES * tick;
            set eligible = s.alive & s.open;
            uint32_t ticks = next - tick, same;
            if (!may_stand(&plan, eligible, get16(at)))
                return NOT_LEGAL + tick;
            if (eligible != 0)
                ticks = leap(&plan, &s, plan.arrivals[get16(at)].place, ticks);
            same = alike(at, ticks);
            if (same < ticks)
                return NOT_LEGAL + tick + same;
            tick += ticks;
        } while (tick < next);
    }
    return 0;
}
