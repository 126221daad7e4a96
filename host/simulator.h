/* The rules of document 01 once more, in plain C, to compare the library with. Nothing is shared
   with the library, not even its header. */
#ifndef SIMULATOR_H
#define SIMULATOR_H

#include <stddef.h>
#include <stdint.h>

/* The arguments and results of zsrm_run and zsrm_claim. */
uint32_t sim_run(uint32_t mode, const uint8_t *tasks, size_t tasks_len, const uint8_t *jobs,
                 size_t jobs_len, uint32_t horizon, uint8_t *schedule, size_t schedule_len);
uint32_t sim_claim(uint32_t mode, const uint8_t *tasks, size_t tasks_len, const uint8_t *jobs,
                   size_t jobs_len, uint32_t horizon, const uint8_t *schedule,
                   size_t schedule_len);

/* The two below are for lists that are not refused. */

enum sim_verdict { SIM_MET, SIM_LATE, SIM_ENDED, SIM_OPEN };

/* What has become of a job. The instant is that at which it finished, or the tick in which it was
   ended. A late job is late by so many ticks, exactly where it has finished, else at least. Of its
   time it has been suspended so many ticks, and has waited so many while another job ran. */
struct sim_fate {
    enum sim_verdict verdict;
    int has_instant;
    uint32_t instant;
    uint32_t late;
    uint32_t suspended, waited;
};

/* What the run has made of each job at the horizon. */
void sim_fates(uint32_t mode, const uint8_t *tasks, const uint8_t *jobs, size_t jobs_len,
               uint32_t horizon, struct sim_fate *fates);

/* Writes a legal schedule: where a change is allowed, draw(n) < n picks among the n candidates. */
void sim_draw(uint32_t mode, const uint8_t *tasks, const uint8_t *jobs, size_t jobs_len,
              uint32_t horizon, uint8_t *schedule, uint32_t (*draw)(uint32_t n));

#endif
