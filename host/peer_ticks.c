/* The peer that ticks: in each tick the rules, in one pass over the jobs alive for each of them. A
   set of jobs is a set of their numbers. */
#include "peer.h"
#include "peer_input.h"

struct place {
    uint16_t arrival, zero, time, nominal, done; /* zero: arrival + Z */
    uint8_t criticality, priority;
};

struct state {
    int ends; /* mode SE */
    uint32_t tick, count, came;
    set alive, past, candidates;
    struct place places[ZSRM_MOST_JOBS];
};

static void start(struct state *s, const struct input *in, uint32_t mode) {
    s->ends = mode == ZSRM_MODE_SE;
    s->tick = 0;
    s->count = in->job_count;
    s->came = 0;
    s->alive = 0;
    for (uint32_t j = 0; j < s->count; j++) {
        struct job job = job_at(in->jobs, j);
        const struct task *task = &in->tasks[job.task];
        struct place *place = &s->places[j];
        place->arrival = (uint16_t)job.arrival;
        place->zero = (uint16_t)(job.arrival + task->slack);
        place->time = (uint16_t)job.time;
        place->nominal = (uint16_t)task->nominal;
        place->done = 0;
        place->criticality = (uint8_t)task->criticality;
        place->priority = (uint8_t)task->priority;
    }
}

static inline void arrive(struct state *s) {
    for (; s->came < s->count && s->places[s->came].arrival == s->tick; s->came++)
        if (s->places[s->came].time > 0)
            s->alive |= only(s->came);
}

/* Finds who is past zero slack. Gives the greatest criticality among them, or 0. */
static inline uint32_t find_past(struct state *s) {
    uint32_t greatest = 0;
    s->past = 0;
    for (set rest = s->alive; rest != 0; rest = without_least(rest)) {
        const struct place *place = &s->places[least(rest)];
        if (place->zero <= s->tick) {
            s->past |= only(least(rest));
            if (place->criticality > greatest)
                greatest = place->criticality;
        }
    }
    return greatest;
}

/* Finds who has the highest priority among the jobs alive of that criticality or more. */
static inline void find_candidates(struct state *s, uint32_t criticality) {
    uint32_t top = 0;
    s->candidates = 0;
    for (set rest = s->alive; rest != 0; rest = without_least(rest)) {
        const struct place *place = &s->places[least(rest)];
        if (place->criticality >= criticality && place->priority >= top) {
            if (place->priority > top)
                s->candidates = 0;
            top = place->priority;
            s->candidates |= only(least(rest));
        }
    }
}

static inline void look(struct state *s) {
    arrive(s);
    find_candidates(s, find_past(s));
}

/* The greatest criticality among the jobs over in this tick, or 0. */
static inline uint32_t greatest_over(const struct state *s, uint32_t entry) {
    uint32_t greatest = 0;
    for (set rest = s->past; rest != 0; rest = without_least(rest)) {
        const struct place *place = &s->places[least(rest)];
        uint32_t done = place->done + (least(rest) == entry);
        if (done > place->nominal && place->criticality > greatest)
            greatest = place->criticality;
    }
    return greatest;
}

static inline void end_less(struct state *s, uint32_t criticality) {
    for (set rest = s->alive; rest != 0; rest = without_least(rest))
        if (s->places[least(rest)].criticality < criticality)
            s->alive &= ~only(least(rest));
}

static inline void advance(struct state *s, uint32_t entry) {
    uint32_t over = s->ends ? greatest_over(s, entry) : 0;
    if (over > 0)
        end_less(s, over);
    if (entry != ZSRM_IDLE && ++s->places[entry].done == s->places[entry].time)
        s->alive &= ~only(entry);
    s->tick++;
}

uint32_t ticking_run(uint32_t mode, const uint8_t *tasks, size_t tasks_len, const uint8_t *jobs,
                     size_t jobs_len, uint32_t horizon, uint8_t *schedule, size_t schedule_len) {
    struct input in;
    struct state s;
    uint32_t refusal =
        read_input(&in, mode, tasks, tasks_len, jobs, jobs_len, horizon, schedule_len);
    if (refusal != 0)
        return refusal;
    start(&s, &in, mode);
    while (s.tick < horizon) {
        uint32_t entry;
        look(&s);
        entry = s.candidates == 0 ? ZSRM_IDLE : least(s.candidates);
        put16(schedule + ZSRM_ENTRY_BYTES * s.tick, entry);
        advance(&s, entry);
    }
    return 0;
}

/* Whether this tick is a scheduling instant, that entry having stood in the tick before. */
static int is_instant(const struct state *s, uint32_t before) {
    if (before != ZSRM_IDLE) {
        const struct place *ran = &s->places[before];
        if (ran->done == ran->time || (s->ends && ran->done == ran->nominal))
            return 1;
    }
    for (uint32_t j = 0; j < s->came; j++)
        if (s->places[j].arrival == s->tick || s->places[j].zero == s->tick)
            return 1;
    return 0;
}

static inline int is_legal(const struct state *s, uint32_t before, uint32_t entry) {
    if (entry == ZSRM_IDLE ? s->candidates != 0 : entry >= s->count || !has(s->candidates, entry))
        return 0;
    return entry == before || s->tick == 0 || is_instant(s, before);
}

uint32_t ticking_claim(uint32_t mode, const uint8_t *tasks, size_t tasks_len, const uint8_t *jobs,
                       size_t jobs_len, uint32_t horizon, const uint8_t *schedule,
                       size_t schedule_len) {
    struct input in;
    struct state s;
    uint32_t before = ZSRM_IDLE;
    uint32_t refusal =
        read_input(&in, mode, tasks, tasks_len, jobs, jobs_len, horizon, schedule_len);
    if (refusal != 0)
        return refusal;
    start(&s, &in, mode);
    while (s.tick < horizon) {
        uint32_t entry = get16(schedule + ZSRM_ENTRY_BYTES * s.tick);
        look(&s);
        if (!is_legal(&s, before, entry))
            return NOT_LEGAL + s.tick;
        advance(&s, entry);
        before = entry;
    }
    return 0;
}
