/* The library's two C calls at the edges of what they accept. What is expected is taken from
   document 01 or follows from it by hand; no simulator is asked. */
#include <stdio.h>
#include <string.h>

#include "lists.h"
#include "zsrm.h"

enum { S = 0, SE = 1, NOT_LEGAL = 65536, SHOWN = 10 };

static struct lists in;
static struct outcome out;
static unsigned checks, differ;
static unsigned group_checks, group_differ; /* both counts where the group began */

/* ---- Checking ---- */

static void check(int holds, const char *what, const char *fault, uint32_t got, uint32_t want) {
    checks++;
    if (holds)
        return;
    differ++;
    if (differ - group_differ <= SHOWN)
        printf("  %s: %s: %lu, expected %lu\n", what, fault, (unsigned long)got,
               (unsigned long)want);
}

static void end_group(const char *name) {
    printf("%s: %u checks, %u differ\n", name, checks - group_checks, differ - group_differ);
    group_checks = checks;
    group_differ = differ;
}

/* The schedule that a call leaves is this one, the other lists and the guard bytes as they were. */
static void check_bytes(const char *what, const uint8_t *schedule) {
    size_t k = 0;
    while (k < in.schedule_len && out.schedule[k] == schedule[k])
        k++;
    check(out.kept, what, "bytes outside the schedule kept", 0, 1);
    check(k == in.schedule_len, what, "schedule differs at byte", (uint32_t)k,
          (uint32_t)in.schedule_len);
}

/* The count of checks shifts the lists, so that they stand at every alignment. */
static size_t shift(void) {
    return checks % 8;
}

static void check_claim(const char *what, uint32_t want) {
    lend_claim(zsrm_claim, &in, shift(), &out);
    check(out.result == want, what, "claim", out.result, want);
    check_bytes(what, in.schedule);
}

/* Both calls refuse, and no byte changes. */
static void check_refused(const char *what, uint32_t number, uint32_t place) {
    uint32_t want = number + 256 * place;
    lend_run(zsrm_run, &in, shift(), &out);
    check(out.result == want, what, "run", out.result, want);
    check_bytes(what, in.schedule);
    check_claim(what, want);
    check(zsrm_refused(out.result) && !zsrm_not_legal(out.result), what, "a refusal", 0, 1);
    check(zsrm_refusal_number(out.result) == number, what, "number", out.result % 256, number);
    check(zsrm_refusal_place(out.result) == place, what, "place", out.result / 256, place);
}

/* The run gives this schedule, which is then a legal claim; it stays in the input. */
static void check_run(const char *what, const uint8_t *schedule) {
    lend_run(zsrm_run, &in, shift(), &out);
    check(out.result == 0, what, "run", out.result, 0);
    check_bytes(what, schedule);
    memcpy(in.schedule, schedule, in.schedule_len);
    check_claim(what, 0);
}

/* ---- Schedules as pictures: a digit is a job, a dot is idle ---- */

static uint8_t drawn[SCHEDULE_ROOM];

static const uint8_t *draw(const char *picture) {
    for (size_t t = 0; picture[t] != 0; t++)
        put16(drawn, t, picture[t] == '.' ? ZSRM_IDLE : (uint32_t)(picture[t] - '0'));
    return drawn;
}

static void check_picture(const char *what, const char *picture) {
    set_horizon(&in, (uint32_t)strlen(picture));
    check_run(what, draw(picture));
}

static void check_claimed(const char *what, const char *picture, uint32_t want) {
    set_horizon(&in, (uint32_t)strlen(picture));
    memcpy(in.schedule, draw(picture), in.schedule_len);
    check_claim(what, want);
    if (want >= NOT_LEGAL) {
        check(zsrm_not_legal(out.result) && !zsrm_refused(out.result), what, "not legal", 0, 1);
        check(zsrm_not_legal_tick(out.result) == want - NOT_LEGAL, what, "tick",
              zsrm_not_legal_tick(out.result), want - NOT_LEGAL);
    }
}

/* Where each tick has one candidate or none, every other value is not legal at its tick. */
static void check_each_entry(const char *what) {
    uint32_t jobs = (uint32_t)(in.jobs_len / 12);
    for (uint32_t t = 0; t < in.horizon; t++) {
        uint32_t right = get16(in.schedule, t);
        uint32_t wrong[] = {0, 1, 2, jobs, 63, 64, 65534, ZSRM_IDLE, right ^ 256, right ^ 32768};
        for (size_t k = 0; k < sizeof wrong / sizeof *wrong; k++) {
            if (wrong[k] == right)
                continue;
            put16(in.schedule, t, wrong[k]);
            check_claim(what, NOT_LEGAL + t);
        }
        put16(in.schedule, t, right);
    }
}

/* ---- Document 01's lists ---- */

/* List A with execution time c for job 1. */
static void list_a(uint32_t mode, uint32_t c) {
    static const uint32_t tasks[2][7] = {{8, 8, 4, 4, 1, 2, 4}, {20, 16, 5, 10, 2, 1, 10}};
    clear(&in, mode);
    add_task(&in, tasks[0]);
    add_task(&in, tasks[1]);
    add_job(&in, 0, 0, 4);
    add_job(&in, 1, 0, c);
    add_job(&in, 0, 8, 4);
    set_horizon(&in, 16);
}

/* Two equal tasks with a job each at 0: they are tied until one finishes. */
static void twins(uint32_t mode, uint32_t nominal, uint32_t zero_slack) {
    const uint32_t task[7] = {10, 10, nominal, 3, 1, 1, zero_slack};
    clear(&in, mode);
    add_task(&in, task);
    add_task(&in, task);
    add_job(&in, 0, 0, 3);
    add_job(&in, 1, 0, 3);
}

static void traced(void) {
    static const struct {
        const char *what;
        uint32_t mode, c;
        const char *picture;
    } rows[] = {
        {"case 1", S, 5, "0000111122122..."},
        {"case 2", S, 10, "000011112211111122"},
        {"case 3", S, 10, "0000111122111111"},
        {"case 4", S, 10, "000011112211111"},
        {"case 5", SE, 10, "0000111122111111.."},
        {"case 6", SE, 6, "000011112211...."},
        {"case 7", SE, 5, "0000111122122..."},
        {"case 8", S, 6, "00001111221122.."},
    };
    for (size_t k = 0; k < sizeof rows / sizeof *rows; k++) {
        list_a(rows[k].mode, rows[k].c);
        check_picture(rows[k].what, rows[k].picture);
        check_each_entry(rows[k].what);
    }
    list_a(SE, 10);
    add_job(&in, 0, 16, 4);
    check_picture("case 9", "00001111221111113333");
    check_each_entry("case 9");
    end_group("traced cases 1 to 9");
}

static void ties(void) {
    for (uint32_t mode = S; mode <= SE; mode++) {
        twins(mode, 3, 10);
        check_picture("case 10", "000111");
        check_claimed("case 10", "111000", 0);
        check_claimed("case 10", "010101", NOT_LEGAL + 1);
        check_claimed("switch in the second tick", "001011", NOT_LEGAL + 2);
        check_claimed("switch back too early", "110100", NOT_LEGAL + 2);
        check_claimed("switch after the instant", "000110", NOT_LEGAL + 5);
        check_claimed("idle among equals", "000.11", NOT_LEGAL + 3);
    }
    end_group("traced case 10, ties");
}

/* Which ticks allow a change among equals. */
static void instants(void) {
    static const uint32_t idler[7] = {10, 10, 1, 1, 1, 1, 10}, early[7] = {10, 10, 1, 1, 0, 0, 2};
    twins(S, 3, 10);
    add_task(&in, idler);
    add_job(&in, 2, 1, 0);
    check_picture("an arrival", "000111");
    check_claimed("an arrival", "011100", 0);
    check_claimed("an arrival", "001110", NOT_LEGAL + 2);
    twins(S, 3, 10);
    add_task(&in, early);
    add_job(&in, 2, 0, 0);
    check_picture("zero slack of a finished job", "000111");
    check_claimed("zero slack of a finished job", "001110", 0);
    check_claimed("zero slack of a finished job", "011100", NOT_LEGAL + 1);
    twins(S, 1, 10);
    check_picture("nominal time reached, S", "000111");
    check_claimed("nominal time reached, S", "010011", NOT_LEGAL + 1);
    twins(SE, 1, 10);
    check_picture("nominal time reached, SE", "000111");
    check_claimed("nominal time reached, SE", "010011", 0);
    check_claimed("nominal time reached before", "010101", NOT_LEGAL + 3);
    end_group("scheduling instants");
}

/* Whom an overrun ends, and that an ending allows no change among equals. */
static void overruns(void) {
    static const uint32_t low[7] = {10, 10, 3, 3, 0, 0, 10};
    for (uint32_t mode = S; mode <= SE; mode++) {
        twins(mode, 1, 10);
        add_task(&in, low);
        add_job(&in, 2, 0, 3);
        check_picture("before zero slack", "000111222.");
        twins(mode, 1, 0);
        add_task(&in, low);
        add_job(&in, 2, 0, 3);
        check_picture("past zero slack", mode == S ? "000111222." : "000111....");
        check_claimed("the ending tick", "001011....", NOT_LEGAL + 2);
        twins(mode, 1, 0);
        add_task(&in, low);
        add_job(&in, 2, 4, 3);
        check_picture("a later arrival", mode == S ? "000111222." : "000111....");
        twins(mode, 3, 0);
        add_task(&in, low);
        add_job(&in, 2, 0, 3);
        check_picture("nominal time kept", "000111222.");
    }
    end_group("overruns");
}

/* Priority 10 goes before 9 and criticality 10 before 9; a job of time 0 never runs. */
static void orders(void) {
    static const uint32_t quick[7] = {10, 10, 3, 3, 9, 10, 10}, dear[7] = {10, 10, 3, 3, 10, 9, 2};
    for (uint32_t mode = S; mode <= SE; mode++) {
        clear(&in, mode);
        add_task(&in, dear);
        add_task(&in, quick);
        add_job(&in, 0, 0, 3);
        add_job(&in, 1, 0, 3);
        add_job(&in, 0, 10, 0);
        add_job(&in, 1, 12, 1);
        check_picture("9 and 10", "110001......3.");
        check_each_entry("9 and 10");
    }
    end_group("number order, time 0");
}

/* ---- Refusals ---- */

static void traced_refusals(void) {
    list_a(S, 5);
    set_horizon(&in, 0);
    check_run("case 11", in.schedule);
    list_a(S, 5);
    put32(in.jobs, 7, 7);
    check_refused("case 12, arrival 7", 8, 2);
    put32(in.jobs, 7, 8);
    check_picture("case 12, arrival 8", "0000111122122...");
    list_a(S, 11);
    check_refused("case 13, c 11", 6, 1);
    list_a(S, 5);
    put32(in.tasks, 13, 17);
    check_refused("case 13, Z 17", 4, 1);
    end_group("traced cases 11 to 13");
}

static void modes(void) {
    static const uint32_t wrong[] = {2, 3, 255, 256, 257, 65536, 65537, 0x80000000, 0xFFFFFFFF};
    for (size_t k = 0; k < sizeof wrong / sizeof *wrong; k++) {
        list_a(wrong[k], 5);
        check_refused("mode", ZSRM_REFUSED_MODE, 0);
    }
    end_group("refusal 1");
}

/* Sixteen tasks whose every field is the most it may be, or the least. */
static void sixteen(int most) {
    static const uint32_t high[7] = {16384, 16384, 16384, 16384, 255, 63, 16384};
    static const uint32_t low[7] = {1, 1, 1, 1, 0, 0, 0};
    clear(&in, S);
    for (int i = 0; i < 16; i++)
        add_task(&in, most ? high : low);
    set_horizon(&in, 4);
}

static void task_ranges(void) {
    static const uint32_t over[7] = {16385, 16385, 16385, 16385, 256, 64, 16385};
    for (uint32_t i = 0; i < 16; i += 5) {
        for (uint32_t field = 0; field < 7; field++) {
            uint32_t wide[] = {over[field], 65536 + 1, 0x01000001, 0x80000001, 0xFFFFFFFF};
            for (size_t k = 0; k < sizeof wide / sizeof *wide; k++) {
                sixteen(1);
                put32(in.tasks, 7 * i + field, wide[k]);
                check_refused("field above its range", ZSRM_REFUSED_TASK_RANGE, i);
            }
            if (field > 3)
                continue;
            sixteen(0);
            put32(in.tasks, 7 * i + field, 0);
            check_refused("time of 0", ZSRM_REFUSED_TASK_RANGE, i);
        }
    }
    sixteen(1);
    check_picture("most everywhere", "....");
    sixteen(0);
    check_picture("least everywhere", "....");
    end_group("refusal 3");
}

static void task_orders(void) {
    static const struct {
        uint32_t field, wrong;
    } rows[] = {{0, 16383}, {1, 16383}, {3, 16383}};
    for (uint32_t i = 0; i < 16; i += 3) {
        for (size_t k = 0; k < 3; k++) {
            sixteen(1);
            put32(in.tasks, 7 * i + rows[k].field, rows[k].wrong);
            check_refused("C over Co, D over T, Z over D", ZSRM_REFUSED_TASK_ORDER, i);
        }
        sixteen(0);
        put32(in.tasks, 7 * i + 6, 2);
        check_refused("Z over D", ZSRM_REFUSED_TASK_ORDER, i);
        put32(in.tasks, 7 * i + 6, 1);
        check_picture("Z = D", "....");
    }
    end_group("refusal 4");
}

/* Task 0 has period 1 and job j comes at j, with one tick to do: job t runs in tick t. */
static void row_of_jobs(uint32_t jobs) {
    static const uint32_t task[7] = {1, 1, 1, 1, 0, 0, 0};
    clear(&in, SE);
    add_task(&in, task);
    for (uint32_t j = 0; j < jobs; j++)
        add_job(&in, 0, j, 1);
    set_horizon(&in, 66);
    for (uint32_t t = 0; t < 66; t++)
        put16(drawn, t, t < jobs ? t : ZSRM_IDLE);
}

static void job_ranges(void) {
    static const uint32_t wrong[3][5] = {
        {1, 16, 256, 65536, 0xFFFFFFFF},               /* no such task */
        {16385, 65536, 65600, 0x80000000, 0xFFFFFFFF}, /* arrival over 16384 */
        {2, 256, 65536, 0x80000001, 0xFFFFFFFF},       /* c over Co */
    };
    for (uint32_t j = 0; j < 64; j += 9) {
        for (uint32_t field = 0; field < 3; field++) {
            for (size_t k = 0; k < 5; k++) {
                row_of_jobs(64);
                put32(in.jobs, 3 * j + field, wrong[field][k]);
                check_refused("field of a job", ZSRM_REFUSED_JOB_RANGE, j);
            }
        }
    }
    row_of_jobs(3);
    add_job(&in, 0, 16384, 1);
    check_run("arrival 16384", drawn);
    end_group("refusal 6");
}

static void job_orders(void) {
    for (uint32_t j = 3; j < 64; j += 2) {
        row_of_jobs(64);
        put32(in.jobs, 3 * j + 1, j - 2);
        check_refused("arrival before the job above", ZSRM_REFUSED_JOB_ORDER, j);
        row_of_jobs(64);
        put32(in.jobs, 3 * j + 1, j - 1);
        check_refused("twice in one period", ZSRM_REFUSED_TOO_SOON, j);
    }
    /* The preceding job of the task need not be the job above it. */
    static const uint32_t task[7] = {5, 4, 1, 1, 0, 0, 4};
    clear(&in, S);
    add_task(&in, task);
    add_task(&in, task);
    add_job(&in, 0, 0, 1);
    add_job(&in, 1, 4, 1);
    add_job(&in, 0, 4, 1);
    set_horizon(&in, 8);
    check_refused("other tasks between", ZSRM_REFUSED_TOO_SOON, 2);
    put32(in.jobs, 7, 5);
    check_picture("T apart", "0...12..");
    end_group("refusals 7 and 8");
}

/* ---- Lengths ---- */

static void task_lengths(void) {
    for (size_t len = 0; len <= TASKS_ROOM; len++) {
        sixteen(0);
        memcpy(in.tasks + 448, in.tasks, TASKS_ROOM - 448);
        in.tasks_len = len;
        if (len % 28 != 0 || len == 0 || len > 448)
            check_refused("task bytes", ZSRM_REFUSED_TASKS_LENGTH, 0);
        else
            check_picture("task bytes", "....");
    }
    end_group("refusal 2: every task length to 18 tasks");
}

static void job_lengths(void) {
    row_of_jobs(66);
    for (size_t len = 0; len <= JOBS_ROOM; len++) {
        in.jobs_len = len;
        set_horizon(&in, 66);
        for (uint32_t t = 0; t < 66; t++)
            put16(drawn, t, t < len / 12 ? t : ZSRM_IDLE);
        if (len % 12 != 0 || len > 768)
            check_refused("job bytes", ZSRM_REFUSED_JOBS_LENGTH, 0);
        else
            check_run("job bytes", drawn);
    }
    end_group("refusal 5: every job length to 66 jobs");
}

static void schedule_lengths(void) {
    static const char *pictures[] = {"", "0", "00", "0000111122122..."};
    for (size_t k = 0; k < 4; k++) {
        list_a(S, 5);
        check_picture("horizon", pictures[k]);
        for (size_t len = 0; len <= 40; len++) {
            list_a(S, 5);
            set_horizon(&in, 20);
            in.horizon = (uint32_t)strlen(pictures[k]);
            in.schedule_len = len;
            if (len != 2 * strlen(pictures[k]))
                check_refused("schedule bytes", ZSRM_REFUSED_SCHEDULE_LENGTH, 0);
        }
    }
    list_a(S, 5);
    set_horizon(&in, 16385);
    in.horizon = 16384;
    check_refused("16384 ticks, one entry more", ZSRM_REFUSED_SCHEDULE_LENGTH, 0);
    in.schedule_len = 32767;
    check_refused("16384 ticks, one byte less", ZSRM_REFUSED_SCHEDULE_LENGTH, 0);
    end_group("refusal 10: schedule lengths");
}

static void horizons(void) {
    static const uint32_t wrong[] = {16385, 16386, 32768, 65536, 65552, 0x80000000, 0xFFFFFFFF};
    for (size_t k = 0; k < sizeof wrong / sizeof *wrong; k++) {
        for (size_t len = 0; len <= 34; len++) {
            list_a(S, 5);
            set_horizon(&in, 17);
            in.horizon = wrong[k];
            in.schedule_len = len;
            check_refused("horizon over 16384", ZSRM_REFUSED_HORIZON, 0);
        }
    }
    list_a(S, 5);
    set_horizon(&in, 16385);
    check_refused("horizon 16385 and its schedule", ZSRM_REFUSED_HORIZON, 0);
    end_group("refusal 9");
}

/* Sixteen tasks, sixty-four jobs, 16384 ticks without a pause: each job has 256 ticks in turn. */
static void full_size(void) {
    static const uint32_t task[7] = {4096, 4096, 256, 256, 255, 63, 4096};
    for (uint32_t mode = S; mode <= SE; mode++) {
        clear(&in, mode);
        for (uint32_t i = 0; i < 16; i++)
            add_task(&in, task);
        for (uint32_t j = 0; j < 64; j++)
            add_job(&in, j % 16, j / 16 * 4096, 256);
        set_horizon(&in, 16384);
        for (uint32_t t = 0; t < 16384; t++)
            put16(drawn, t, t / 256);
        check_run("full size", drawn);
        put16(in.schedule, 16383, 62);
        check_claim("full size, last entry wrong", NOT_LEGAL + 16383);
        put16(in.schedule, 0, 16);
        check_claim("full size, first entry wrong", NOT_LEGAL);
        add_job(&in, 0, 16384, 1);
        check_refused("65 jobs", ZSRM_REFUSED_JOBS_LENGTH, 0);
        add_task(&in, task);
        check_refused("17 tasks", ZSRM_REFUSED_TASKS_LENGTH, 0);
    }
    end_group("16 tasks, 64 jobs, 16384 ticks, and one more");
}

static void nothing_to_do(void) {
    for (uint32_t mode = S; mode <= SE; mode++) {
        list_a(mode, 5);
        in.jobs_len = 0;
        check_picture("no jobs", "....");
        check_claimed("no jobs", "..0.", NOT_LEGAL + 2);
        set_horizon(&in, 0);
        check_run("no jobs, no ticks", in.schedule);
        in.tasks_len = 0;
        check_refused("nothing at all", ZSRM_REFUSED_TASKS_LENGTH, 0);
    }
    end_group("zero lengths");
}

/* Both calls where every list of length 0 is a null pointer. */
static void check_null(const char *what, uint32_t want) {
    const uint8_t *tasks = in.tasks_len == 0 ? NULL : in.tasks;
    const uint8_t *jobs = in.jobs_len == 0 ? NULL : in.jobs;
    uint8_t *schedule = in.schedule_len == 0 ? NULL : in.schedule;
    uint32_t run = zsrm_run(in.mode, tasks, in.tasks_len, jobs, in.jobs_len, in.horizon, schedule,
                            in.schedule_len);
    uint32_t claim = zsrm_claim(in.mode, tasks, in.tasks_len, jobs, in.jobs_len, in.horizon,
                                schedule, in.schedule_len);
    check(run == want, what, "run", run, want);
    check(claim == want, what, "claim", claim, want);
}

static void null_pointers(void) {
    for (uint32_t mode = S; mode <= SE; mode++) {
        list_a(mode, 5);
        in.jobs_len = 0;
        check_null("no jobs", 0);
        for (uint32_t t = 0; t < in.horizon; t++)
            check(get16(in.schedule, t) == ZSRM_IDLE, "no jobs", "entry", get16(in.schedule, t),
                  ZSRM_IDLE);
        set_horizon(&in, 0);
        check_null("no jobs, no schedule", 0);
        list_a(mode, 5);
        set_horizon(&in, 0);
        check_null("no schedule", 0);
        in.horizon = 4;
        check_null("no schedule of 4 ticks", ZSRM_REFUSED_SCHEDULE_LENGTH);
        set_horizon(&in, 16);
        in.tasks_len = 0;
        check_null("no tasks", ZSRM_REFUSED_TASKS_LENGTH);
        clear(&in, mode);
        check_null("nothing at all", ZSRM_REFUSED_TASKS_LENGTH);
        in.mode = 2;
        check_null("nothing at all in no mode", ZSRM_REFUSED_MODE);
    }
    end_group("null pointers of length 0");
}

/* Each damage alone is refused with its number; together the lowest class goes first. */
static void precedence(void) {
    list_a(S, 5);
    in.horizon = 16385;
    in.schedule_len = 31;
    check_refused("9 before 10", 9, 0);
    put32(in.jobs, 7, 7);
    check_refused("8 before 9", 8, 2);
    add_job(&in, 2, 20, 1);
    check_refused("8 of job 2 before 6 of job 3", 8, 2);
    put32(in.jobs, 4, 1);
    put32(in.jobs, 7, 0);
    check_refused("7 before 8 for a job", 7, 2);
    put32(in.jobs, 8, 5);
    check_refused("6 before 7 for a job", 6, 2);
    in.jobs_len--;
    check_refused("5 before 6", 5, 0);
    put32(in.tasks, 13, 17);
    check_refused("4 before 5", 4, 1);
    put32(in.tasks, 11, 256);
    check_refused("3 before 4 for a task", 3, 1);
    put32(in.tasks, 2, 5);
    check_refused("4 of task 0 before 3 of task 1", 4, 0);
    in.tasks_len--;
    check_refused("2 before 3", 2, 0);
    in.mode = 2;
    check_refused("1 before 2", 1, 0);
    end_group("precedence of refusals");
}

int main(void) {
    traced();
    ties();
    instants();
    overruns();
    orders();
    traced_refusals();
    modes();
    task_lengths();
    task_ranges();
    task_orders();
    job_lengths();
    job_ranges();
    job_orders();
    horizons();
    schedule_lengths();
    full_size();
    nothing_to_do();
    null_pointers();
    precedence();
    printf("boundary: %u checks, %u differ\n", checks, differ);
    return differ != 0;
}
