/* The library against its peers, on the same inputs.
   bench calls           makes every measured call once, in the order of the tables, for a count of
                         its instructions
   bench tables [FILE]   prints the tables; FILE: those counts, a line each. Without it, times
                         alone: processor time of one call, the best of several rounds. */
#include <stdio.h>
#include <stdlib.h>
#include <string.h>
#include <time.h>

#include "calls.h"
#include "shapes.h"
#include "simulator.h"

enum { ROUNDS = 5 };

static const double LEAST_SECONDS = 0.002; /* of one round */

static struct lists in;

/* ---- What is measured ---- */

struct measured {
    uint32_t tasks, jobs, horizon, mode;
    int is_claim; /* of the run's own schedule; else the run */
    double instructions[ANSWERING], microseconds[ANSWERING];
};

struct table {
    const char *title;
    size_t first, end;
};

enum { COMPARED, BY_HORIZON, BY_JOBS, TABLES };

static struct table tables[TABLES] = {
    {"Compared", 0, 0}, {"Growth over the horizon", 0, 0}, {"Growth over the jobs", 0, 0}};
static struct measured all[64];
static size_t count;

static void add(uint32_t tasks, uint32_t jobs, uint32_t horizon, int is_claim, uint32_t mode) {
    struct measured *m = &all[count++];
    m->tasks = tasks;
    m->jobs = jobs;
    m->horizon = horizon;
    m->is_claim = is_claim;
    m->mode = mode;
}

static void add_modes(uint32_t tasks, uint32_t jobs, uint32_t horizon) {
    for (int is_claim = 0; is_claim <= 1; is_claim++)
        for (uint32_t mode = 0; mode <= 1; mode++)
            add(tasks, jobs, horizon, is_claim, mode);
}

static void list_all(void) {
    tables[COMPARED].first = count;
    add_modes(3, 9, 1024);
    add_modes(3, 9, 16384);
    add_modes(16, 64, 1024);
    add_modes(16, 64, 16384);
    tables[COMPARED].end = tables[BY_HORIZON].first = count;
    for (int is_claim = 0; is_claim <= 1; is_claim++)
        for (uint32_t horizon = 1024; horizon <= 16384; horizon *= 2)
            add(16, 64, horizon, is_claim, 1);
    tables[BY_HORIZON].end = tables[BY_JOBS].first = count;
    for (int is_claim = 0; is_claim <= 1; is_claim++)
        for (uint32_t jobs = 4; jobs <= 64; jobs *= 2)
            add(4, jobs, 16384, is_claim, 1);
    tables[BY_JOBS].end = count;
}

/* The input with the run in its schedule, by the simulator: its calls are not counted. */
static void build(const struct measured *m) {
    spread(&in, m->mode, m->tasks, m->jobs, m->horizon);
    sim_run(in.mode, in.tasks, in.tasks_len, in.jobs, in.jobs_len, in.horizon, in.schedule,
            in.schedule_len);
}

static uint32_t call(const struct calls *who, int is_claim) {
    if (is_claim)
        return who->claim(in.mode, in.tasks, in.tasks_len, in.jobs, in.jobs_len, in.horizon,
                          in.schedule, in.schedule_len);
    return who->run(in.mode, in.tasks, in.tasks_len, in.jobs, in.jobs_len, in.horizon, in.schedule,
                    in.schedule_len);
}

/* ---- Measuring ---- */

static void make_calls(void) {
    for (size_t k = 0; k < count; k++) {
        build(&all[k]);
        for (int who = 0; who < ANSWERING; who++) {
            call(&calls[who], all[k].is_claim);
            call_made();
        }
    }
}

static int read_counts(const char *name) {
    FILE *file = fopen(name, "r");
    size_t found = 0;
    if (file == NULL)
        return 0;
    while (found < ANSWERING * count &&
           fscanf(file, "%lf", &all[found / ANSWERING].instructions[found % ANSWERING]) == 1)
        found++;
    fclose(file);
    return found == ANSWERING * count;
}

/* 1 where all give the simulator's run and accept it: otherwise the figures say nothing. */
static int agree(const struct measured *m) {
    static uint8_t expected[SCHEDULE_ROOM];
    build(m);
    memcpy(expected, in.schedule, in.schedule_len);
    for (int who = 0; who < ANSWERING; who++) {
        set_horizon(&in, in.horizon);
        if (call(&calls[who], 0) != 0 || memcmp(in.schedule, expected, in.schedule_len) != 0 ||
            call(&calls[who], 1) != 0) {
            printf("bench: the %s differs\n", calls[who].name);
            return 0;
        }
    }
    return 1;
}

static double seconds(const struct measured *m, int who, unsigned long times) {
    static volatile uint32_t sink;
    clock_t start = clock();
    for (unsigned long k = 0; k < times; k++)
        sink = call(&calls[who], m->is_claim);
    (void)sink;
    return (double)(clock() - start) / CLOCKS_PER_SEC;
}

/* Finding the numbers of calls is the warm-up. All take turns, so that they meet the same
   disturbances. */
static void time_calls(struct measured *m) {
    unsigned long times[ANSWERING];
    for (int who = 0; who < ANSWERING; who++) {
        m->microseconds[who] = 1e12;
        times[who] = 1;
        while (seconds(m, who, times[who]) < LEAST_SECONDS)
            times[who] *= 2;
    }
    for (int round = 0; round < ROUNDS; round++) {
        for (int who = 0; who < ANSWERING; who++) {
            double took = 1e6 * seconds(m, who, times[who]) / (double)times[who];
            if (took < m->microseconds[who])
                m->microseconds[who] = took;
        }
    }
}

/* ---- Printing ---- */

/* With commas between the thousands. */
static void print_whole(double x) {
    if (x >= 999.5) {
        double thousands = (double)((unsigned long)(x + 0.5) / 1000);
        print_whole(thousands);
        printf(",%03lu", (unsigned long)(x + 0.5) % 1000);
    } else {
        printf("%.0f", x);
    }
}

/* Three digits, or all before the point. */
static void print_cell(double x) {
    printf(" | ");
    if (x < 99.95)
        printf(x < 9.995 ? "%.2f" : "%.1f", x);
    else
        print_whole(x);
}

static void print_row(const struct measured *m, const double *figures, int per_tick) {
    printf("| %u tasks, %u jobs, ", (unsigned)m->tasks, (unsigned)m->jobs);
    print_whole(m->horizon);
    printf(" ticks | %s | %s", m->is_claim ? "claim" : "run", m->mode == 0 ? "S" : "SE");
    for (int who = 0; who < ANSWERING; who++)
        print_cell(figures[who]);
    print_cell(figures[LIBRARY] / figures[LEAPING]);
    print_cell(figures[LIBRARY] / figures[TICKING]);
    if (per_tick)
        print_cell(figures[TICKING] / m->horizon);
    printf(" |\n");
}

static void print_table(const struct table *table, int instructions) {
    printf("\n%s: %s.\n\n", table->title,
           instructions ? "instructions of a call" : "microseconds a call");
    printf("| Input | Call | Mode | library | leaping peer | ticking peer | library / leaping | "
           "library / ticking |%s\n|---|---|---|---|---|---|---|---|%s\n",
           instructions ? " ticking, a tick |" : "", instructions ? "---|" : "");
    for (size_t k = table->first; k < table->end; k++)
        print_row(&all[k], instructions ? all[k].instructions : all[k].microseconds, instructions);
}

int main(int argc, char **argv) {
    int counted;
    list_all();
    if (argc == 2 && strcmp(argv[1], "calls") == 0) {
        make_calls();
        return 0;
    }
    counted = argc == 3 && read_counts(argv[2]);
    for (size_t k = 0; k < count; k++) {
        if (!agree(&all[k]))
            return 1;
        time_calls(&all[k]);
    }
    for (int k = 0; k < TABLES; k++) {
        if (counted)
            print_table(&tables[k], 1);
        print_table(&tables[k], 0);
    }
    return argc == 3 && !counted;
}
