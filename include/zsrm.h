/* Running a ZSRM schedule (zero-slack rate-monotonic), and checking a claimed one, on one processor
   in whole ticks.

   Link with libzsrm.a (x86-64). The calls keep no state from one to the next, allocate nothing and
   need nothing of the C library but its memory functions (memcpy, memset). Several threads may
   call at once, each with a schedule of its own; lists that are only read may be shared. C99 or
   later, or C++.

   The lists
   ---------
   Every list is a run of bytes. Each number in it is little-endian, in its own width:

     tasks     seven numbers of four bytes per task: period T, deadline D, nominal time C,
               overload time Co, criticality, priority, zero-slack offset Z. Tasks are numbered
               from 0. Larger priority runs first, larger criticality matters more.
     jobs      three numbers of four bytes per job: task, arrival, execution time c. Jobs are
               numbered from 0, stand in order of arrival, and two successive jobs of one task lie
               at least T apart. A job with c = 0 is permitted: it is finished as it arrives.
     schedule  one number of two bytes per tick: a job number, or ZSRM_IDLE. Entry t covers the
               time from t to t + 1. Its length is the horizon.

   An x86-64 keeps its own numbers little-endian, so arrays of uint32_t and uint16_t may be lent as
   they stand. Lengths are counts of bytes and must be true: the calls read that many bytes.

     tasks 1 to 16, jobs 0 to 64; T, D, C, Co 1 to 16384; Z, arrival, horizon 0 to 16384;
     criticality 0 to 255; priority 0 to 63; C <= Co, D <= T, Z <= D, c <= Co

   Anything else is refused, never undefined, so that lists may come from outside unchecked.

   The rules in short
   ------------------
   A job that has arrived and is neither finished nor ended is alive, and from arrival + Z on past
   zero slack. It then suspends every strictly less critical job. Of the jobs alive that are not
   suspended one of the highest priority runs. In mode SE a job past zero slack is over in a tick if
   its ticks done before it, plus one if the job runs in it, exceed C. Every strictly less critical
   job alive is then ended, for good, in that very tick. A claim may settle ties among equal
   priorities in any way, but may change from one job to another only at a scheduling instant: a
   job arrives, finishes or reaches arrival + Z or, in SE, the job that ran has just reached C.

   The pointers
   ------------
   A list may stand at any address; none needs aligning. Where a length is 0 nothing is read or
   written, and the pointer may be anything, null too: null and 0 say "no jobs". No list may overlap
   another, and nobody else may write to one during a call.

   The stack
   ---------
   Over the benchmark's inputs a call of zsrm_run was measured to need 1,816 bytes of stack and one
   of zsrm_claim 1,816; nothing recurses. host/run bench measures both again.

   An example
   ----------
   Two tasks and three jobs, sixteen ticks, as a whole program:

     #include <stdio.h>
     #include "zsrm.h"

     static const uint32_t tasks[2 * 7] = {
          8,  8, 4,  4, 1, 2,  4,
         20, 16, 5, 10, 2, 1, 10,
     };
     static const uint32_t jobs[3 * 3] = {
         0, 0, 4,
         1, 0, 5,
         0, 8, 4,
     };
     static uint16_t schedule[16];

     int main(void) {
         uint32_t result = zsrm_run(ZSRM_MODE_S,
                                    (const uint8_t *)tasks, sizeof tasks,
                                    (const uint8_t *)jobs, sizeof jobs,
                                    16, (uint8_t *)schedule, sizeof schedule);
         if (zsrm_refused(result))
             return (int)zsrm_refusal_number(result);
         for (int t = 0; t < 16; t++)
             printf("%u ", (unsigned)schedule[t]);
         return 0;
     }

   It prints 0 0 0 0 1 1 1 1 2 2 1 2 2 and three times 65535, which is ZSRM_IDLE: job 1 is
   past its zero slack at tick 10 and more critical, so it runs though its priority is lower.
   zsrm_claim on the same lists and this schedule gives 0. With schedule[10] changed to 2 it gives
   65546: zsrm_not_legal holds, and zsrm_not_legal_tick is 10.

   With an arrival of 7 instead of 8 for job 2, less than T after job 0, both calls give 520:
   zsrm_refused holds, zsrm_refusal_number is 8 (ZSRM_REFUSED_TOO_SOON) and zsrm_refusal_place is
   2, the job. The schedule keeps what it held. */
#ifndef ZSRM_H
#define ZSRM_H

#include <stddef.h>
#include <stdint.h>

/* Modes: in SE a job past zero slack whose ticks done, this tick among them if the job runs in it,
   exceed C ends the less critical ones in this tick. */
#define ZSRM_MODE_S 0u
#define ZSRM_MODE_SE 1u

/* The most that is accepted. */
#define ZSRM_MOST_TASKS 16
#define ZSRM_MOST_JOBS 64
#define ZSRM_MOST_TICKS 16384
#define ZSRM_MOST_CRITICALITY 255
#define ZSRM_MOST_PRIORITY 63

/* Bytes of one task, one job, one schedule entry. */
#define ZSRM_TASK_BYTES 28
#define ZSRM_JOB_BYTES 12
#define ZSRM_ENTRY_BYTES 2

/* The schedule entry of a tick in which no job runs. */
#define ZSRM_IDLE 65535

/* Refusal numbers. The lowest class goes first: 1, 2, tasks ascending (3 before 4 for each), 5,
   jobs ascending (6, 7, 8 for each), 9, 10. The place is the task or the job
   where a line below ends in one of these, else 0. */
#define ZSRM_REFUSED_MODE 1             /* the mode is neither S nor SE */
#define ZSRM_REFUSED_TASKS_LENGTH 2     /* no whole number of tasks, or none, or over 16 */
#define ZSRM_REFUSED_TASK_RANGE 3       /* a field outside its range; the task */
#define ZSRM_REFUSED_TASK_ORDER 4       /* C > Co, D > T or Z > D; the task */
#define ZSRM_REFUSED_JOBS_LENGTH 5      /* no whole number of jobs, or over 64 */
#define ZSRM_REFUSED_JOB_RANGE 6        /* no such task, arrival over 16384 or c > Co; the job */
#define ZSRM_REFUSED_JOB_ORDER 7        /* arrival before that of the job above it; the job */
#define ZSRM_REFUSED_TOO_SOON 8         /* less than T after its task's preceding job; the job */
#define ZSRM_REFUSED_HORIZON 9          /* horizon over 16384 */
#define ZSRM_REFUSED_SCHEDULE_LENGTH 10 /* schedule_len is not twice the horizon */

#ifdef __cplusplus
extern "C" {
#endif

/* Runs the jobs from tick 0 to the horizon and writes who runs in each tick. Among candidates of
   equal priority the job that ran goes on, else the lowest job number runs. Gives 0, or a
   refusal, which is the refusal number plus 256 times the place: then no byte is written. */
uint32_t zsrm_run(uint32_t mode, const uint8_t *tasks, size_t tasks_len, const uint8_t *jobs,
                  size_t jobs_len, uint32_t horizon, uint8_t *schedule, size_t schedule_len);

/* Checks a claimed schedule, whichever way it settles ties. Gives 0 where it is legal, else 65536
   plus the least tick at which it is not, or a refusal. An entry that is neither a job's number
   nor ZSRM_IDLE is not legal at its tick. */
uint32_t zsrm_claim(uint32_t mode, const uint8_t *tasks, size_t tasks_len, const uint8_t *jobs,
                    size_t jobs_len, uint32_t horizon, const uint8_t *schedule,
                    size_t schedule_len);

#ifdef __cplusplus
}
#endif

/* Taking a result apart. A result of 0 is "done" or "legal" and none of the below. */

/* 1 where the call was refused, else 0. */
static inline int zsrm_refused(uint32_t result) {
    return result != 0 && result < 65536u;
}

/* The refusal number of a refused call, 1 to 10. */
static inline uint32_t zsrm_refusal_number(uint32_t result) {
    return result % 256;
}

/* The task or job that a refused call names. */
static inline uint32_t zsrm_refusal_place(uint32_t result) {
    return result / 256;
}

/* 1 where a claim is not legal, else 0. */
static inline int zsrm_not_legal(uint32_t result) {
    return result >= 65536u;
}

/* The least tick at which such a claim is not legal. */
static inline uint32_t zsrm_not_legal_tick(uint32_t result) {
    return result - 65536u;
}

#endif
