/* Two simulators in C to measure the library by. They take the bytes that zsrm_run and zsrm_claim
   take and give the same answers, refusals too; they allocate nothing and keep nothing. */
#ifndef PEER_H
#define PEER_H

#include <stddef.h>
#include <stdint.h>

/* From one scheduling instant to the next. */
uint32_t leaping_run(uint32_t mode, const uint8_t *tasks, size_t tasks_len, const uint8_t *jobs,
                     size_t jobs_len, uint32_t horizon, uint8_t *schedule, size_t schedule_len);
uint32_t leaping_claim(uint32_t mode, const uint8_t *tasks, size_t tasks_len, const uint8_t *jobs,
                       size_t jobs_len, uint32_t horizon, const uint8_t *schedule,
                       size_t schedule_len);

/* Tick by tick. */
uint32_t ticking_run(uint32_t mode, const uint8_t *tasks, size_t tasks_len, const uint8_t *jobs,
                     size_t jobs_len, uint32_t horizon, uint8_t *schedule, size_t schedule_len);
uint32_t ticking_claim(uint32_t mode, const uint8_t *tasks, size_t tasks_len, const uint8_t *jobs,
                       size_t jobs_len, uint32_t horizon, const uint8_t *schedule,
                       size_t schedule_len);

#endif
