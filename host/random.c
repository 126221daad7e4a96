/* Random lists, good and damaged: the answers of the library and of both peers against the
   simulator's, byte by byte.
   random [ROUNDS [SEED]] */
#include <stdio.h>
#include <stdlib.h>
#include <string.h>

#include "calls.h"
#include "draw.h"
#include "lists.h"
#include "simulator.h"

enum { ROUNDS = 200000, SHOWN = 10, IDLE = 65535, NOT_LEGAL = 65536, REFUSALS = 11, LATE = 8192 };
enum { FULL_EVERY = 400, LONG_EVERY = 5000 };

static struct lists in;
static struct outcome out;
static uint8_t run_of[SCHEDULE_ROOM]; /* the simulator's run of `in` */

/* Late is after tick 8192. */
static struct {
    unsigned long full, far, farthest;
    unsigned long done, refused[REFUSALS], ended, late_finished, late_ended;
    unsigned long legal, other_legal, not_legal, not_at_first, late_not_legal, claims_refused;
    unsigned long differ[ANSWERING];
} count;

/* ---- Showing ---- */

static void show_numbers(const char *name, const uint8_t *list, size_t len, size_t row) {
    printf("  %s, %lu bytes:", name, (unsigned long)len);
    for (size_t k = 0; 4 * k + 3 < len; k++)
        printf("%s %lu", k % row == 0 && k > 0 ? " |" : "", (unsigned long)get32(list, k));
    printf("\n");
}

static void show_schedule(const char *name, const uint8_t *schedule) {
    printf("  %s, %lu bytes:", name, (unsigned long)in.schedule_len);
    for (size_t t = 0; 2 * t + 1 < in.schedule_len; t++)
        printf(" %lu", (unsigned long)get16(schedule, t));
    printf("\n");
}

static void show_difference(int who, const char *call, uint32_t want, const uint8_t *schedule) {
    count.differ[who]++;
    if (count.differ[who] > SHOWN)
        return;
    printf("%s differs: %s %lu, simulator %lu%s\n", call, calls[who].name,
           (unsigned long)out.result, (unsigned long)want,
           out.kept ? "" : ", bytes outside the schedule changed");
    printf("  mode %lu, horizon %lu\n", (unsigned long)in.mode, (unsigned long)in.horizon);
    show_numbers("tasks", in.tasks, in.tasks_len, 7);
    show_numbers("jobs", in.jobs, in.jobs_len, 3);
    show_schedule("schedule before", in.schedule);
    show_schedule("its after", out.schedule);
    show_schedule("simulator's after", schedule);
}

static void compare(int who, const char *call, uint32_t want, const uint8_t *schedule) {
    if (out.result != want || !out.kept || memcmp(out.schedule, schedule, in.schedule_len) != 0)
        show_difference(who, call, want, schedule);
}

/* ---- Runs and claims ---- */

static void count_fates(void) {
    struct sim_fate fates[64];
    unsigned long ended = 0;
    sim_fates(in.mode, in.tasks, in.jobs, in.jobs_len, in.horizon, fates);
    for (uint32_t j = 0; j < jobs_in(&in); j++) {
        int late = fates[j].has_instant && fates[j].instant > LATE;
        ended += fates[j].verdict == SIM_ENDED;
        count.late_ended += late && fates[j].verdict == SIM_ENDED;
        count.late_finished += late && fates[j].verdict != SIM_ENDED;
    }
    count.ended += ended > 0;
}

/* The simulator's answer, which is the expected one. */
static uint32_t compare_run(void) {
    memcpy(run_of, in.schedule, in.schedule_len);
    uint32_t want = sim_run(in.mode, in.tasks, in.tasks_len, in.jobs, in.jobs_len, in.horizon,
                            run_of, in.schedule_len);
    for (int who = 0; who < ANSWERING; who++) {
        lend_run(calls[who].run, &in, below(8), &out);
        compare(who, "run", want, run_of);
    }
    if (want == 0) {
        count.done++;
        count_fates();
    } else if (want % 256 < REFUSALS) {
        count.refused[want % 256]++;
    }
    return want;
}

static void compare_claim(void) {
    uint32_t want = sim_claim(in.mode, in.tasks, in.tasks_len, in.jobs, in.jobs_len, in.horizon,
                              in.schedule, in.schedule_len);
    for (int who = 0; who < ANSWERING; who++) {
        lend_claim(calls[who].claim, &in, below(8), &out);
        compare(who, "claim", want, in.schedule);
    }
    if (want == 0) {
        count.legal++;
        count.other_legal += memcmp(in.schedule, run_of, in.schedule_len) != 0;
    } else if (want >= NOT_LEGAL) {
        count.not_legal++;
        count.not_at_first += want > NOT_LEGAL + 8;
        count.late_not_legal += want > NOT_LEGAL + LATE;
    } else {
        count.claims_refused++;
    }
}

/* Every entry a becomes b and b becomes a, from tick t on. */
static void exchange(uint32_t a, uint32_t b, uint32_t t) {
    for (; t < in.horizon; t++) {
        uint32_t entry = get16(in.schedule, t);
        put16(in.schedule, t, entry == a ? b : entry == b ? a : entry);
    }
}

static uint32_t some_entry(void) {
    return get16(in.schedule, below(in.horizon));
}

static void swap_ticks(uint32_t t, uint32_t u) {
    uint32_t entry = get16(in.schedule, t);
    put16(in.schedule, t, get16(in.schedule, u));
    put16(in.schedule, u, entry);
}

/* Another job, idle, the first numbers that are no job, or the right low byte alone. */
static void change_entry(uint32_t t) {
    uint32_t right = get16(in.schedule, t), n = jobs_in(&in);
    uint32_t others[] = {n, 63, 64, 65534, IDLE, right ^ 256, below(65536)};
    put16(in.schedule, t, n > 0 && one_in(2) ? below(n) : ONE_OF(others));
}

static void drop_entry(uint32_t t) {
    memmove(in.schedule + 2 * t, in.schedule + 2 * t + 2, 2 * (in.horizon - t - 1));
}

static void damage_somehow(void) {
    uint32_t t = below(in.horizon), kind = below(5), one = some_entry(), other = some_entry();
    if (kind == 0)
        exchange(one, other, one_in(2) ? 0 : t);
    else if (kind == 1)
        swap_ticks(t, below(in.horizon));
    else if (kind == 2)
        swap_ticks(t, t > 0 ? t - 1 : 0);
    else if (kind == 3)
        change_entry(t);
    else
        drop_entry(t);
}

/* Tries again where nothing changed, as when two idle ticks were swapped. */
static void damage_claim(void) {
    static uint8_t before[SCHEDULE_ROOM];
    memcpy(before, in.schedule, in.schedule_len);
    for (int tries = 0; tries < 4 && memcmp(before, in.schedule, in.schedule_len) == 0; tries++)
        damage_somehow();
}

/* The run itself, a legal schedule with other ties, and damaged ones of both. */
static void compare_claims(void) {
    memcpy(in.schedule, run_of, in.schedule_len);
    compare_claim();
    if (in.horizon == 0)
        return;
    damage_claim();
    compare_claim();
    sim_draw(in.mode, in.tasks, in.jobs, in.jobs_len, in.horizon, in.schedule, below);
    compare_claim();
    damage_claim();
    compare_claim();
}

static void draw_input(unsigned long round) {
    enum extent extent = round % LONG_EVERY == 0 ? LONG : one_in(FULL_EVERY) ? FULL : SHORT;
    draw_lists(&in, extent);
    count.full += extent == FULL;
    count.far += extent == LONG;
    count.farthest += in.horizon == 16384;
    for (uint32_t harm = extent != LONG && one_in(3) ? between(1, 2) : 0; harm > 0; harm--)
        damage(&in, between(1, 10));
}

static void show_counts(unsigned long rounds) {
    printf("random: %lu lists, %lu of full size\n", rounds, count.full);
    printf("random: %lu with a horizon over 8191, %lu of them with 16384\n", count.far,
           count.farthest);
    printf("run: %lu done, %lu of them with ended jobs\n", count.done, count.ended);
    printf("run: %lu jobs finish after tick 8192, %lu are ended after it\n", count.late_finished,
           count.late_ended);
    for (int k = 1; k < REFUSALS; k++)
        printf("run: refused %d: %lu\n", k, count.refused[k]);
    printf("claim: %lu legal, %lu of them other than the run\n", count.legal, count.other_legal);
    printf("claim: %lu not legal, %lu of them after tick 8, %lu after tick 8192\n",
           count.not_legal, count.not_at_first, count.late_not_legal);
    printf("claim: %lu refused\n", count.claims_refused);
    for (int who = 0; who < ANSWERING; who++)
        printf("random: %s: %lu differ\n", calls[who].name, count.differ[who]);
}

/* Every answer came, and every extent: else the lists that are drawn try less than they should. */
static int all_came(void) {
    const unsigned long kinds[] = {count.done,          count.ended,       count.full,
                                   count.far,           count.farthest,    count.late_finished,
                                   count.late_ended,    count.legal,       count.other_legal,
                                   count.not_legal,     count.not_at_first, count.late_not_legal,
                                   count.claims_refused};
    unsigned long none = 0;
    for (size_t k = 0; k < sizeof kinds / sizeof *kinds; k++)
        none += kinds[k] == 0;
    for (int k = 1; k < REFUSALS; k++)
        none += count.refused[k] == 0;
    if (none > 0)
        printf("random: %lu of these counts are 0\n", none);
    return none == 0;
}

static int all_agree(void) {
    unsigned long differ = 0;
    for (int who = 0; who < ANSWERING; who++)
        differ += count.differ[who];
    return differ == 0;
}

int main(int argc, char **argv) {
    unsigned long rounds = argc > 1 ? strtoul(argv[1], NULL, 10) : ROUNDS;
    if (argc > 2)
        set_seed(strtoul(argv[2], NULL, 10));
    for (unsigned long k = 0; k < rounds; k++) {
        draw_input(k);
        if (compare_run() == 0)
            compare_claims();
        else
            compare_claim();
    }
    show_counts(rounds);
    return !all_agree() || (rounds >= ROUNDS && !all_came());
}
