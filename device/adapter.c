/* The calls of include/fitrec_device.h over the module that device/build makes. Each lends its arguments to the module's memory. */

#include "fitrec_device.h"
#include "fitrec_module.h"
#include <string.h>

#if UINTPTR_MAX > UINT32_MAX
#error "this is for 32 bits; elsewhere link crates/fit_device/out/libfit_device.a"
#endif

static Z_fitrec_instance_t module;
static uint8_t is_ready;

/* Where the arguments lie in the module's memory: after its data. A sample and a recovery are never lent at the same time. */
static uint32_t recorder_at(void) {
    return ((uint32_t)module.w2c___heap_base + 15) & ~15u;
}

static uint32_t plan_at(void) {
    return recorder_at() + (uint32_t)sizeof(struct fitrec_recorder);
}

static uint32_t sample_at(void) {
    return plan_at() + (uint32_t)sizeof(struct fitrec_plan);
}

static uint32_t recovery_at(void) {
    return sample_at();
}

static void lend(uint32_t at, const void *from, size_t count) {
    memcpy(module.w2c_memory.data + at, from, count);
}

static void make_ready(void) {
    if (!is_ready) {
        Z_fitrec_init_module();
        Z_fitrec_instantiate(&module);
        is_ready = 1;
    }
}

static void begin(const struct fitrec_recorder *recorder) {
    make_ready();
    lend(recorder_at(), recorder, sizeof *recorder);
}

/* A file is read where it lies, so it is outside the memory that the bounds checks know. */
static uint32_t file_at(const uint8_t *bytes) {
    return (uint32_t)((uintptr_t)bytes - (uintptr_t)module.w2c_memory.data);
}

static uint8_t end(struct fitrec_recorder *recorder, struct fitrec_plan *plan, uint32_t answer) {
    memcpy(recorder, module.w2c_memory.data + recorder_at(), sizeof *recorder);
    memcpy(plan, module.w2c_memory.data + plan_at(), sizeof *plan);
    return (uint8_t)answer;
}

/* For a step by windows. */
static uint8_t by_windows(uint32_t (*step)(Z_fitrec_instance_t *, u32, u32), struct fitrec_recovery *recovery, struct fitrec_plan *plan) {
    make_ready();
    lend(recovery_at(), recovery, sizeof *recovery);
    uint32_t answer = step(&module, recovery_at(), plan_at());
    memcpy(recovery, module.w2c_memory.data + recovery_at(), sizeof *recovery);
    memcpy(plan, module.w2c_memory.data + plan_at(), sizeof *plan);
    return (uint8_t)answer;
}

/* What a session decides (session.c). */
uint8_t fitrec_session_may(uint8_t finding, uint8_t step);
uint32_t fitrec_session_offset(uint32_t last, uint32_t clock);
uint32_t fitrec_session_base(uint32_t last, uint32_t distance);

uint8_t fitrec_session_may(uint8_t finding, uint8_t step) {
    make_ready();
    return (uint8_t)Z_fitrecZ_fitrec_session_may(&module, finding, step);
}

uint32_t fitrec_session_offset(uint32_t last, uint32_t clock) {
    make_ready();
    return Z_fitrecZ_fitrec_session_offset(&module, last, clock);
}

uint32_t fitrec_session_base(uint32_t last, uint32_t distance) {
    make_ready();
    return Z_fitrecZ_fitrec_session_base(&module, last, distance);
}

uint8_t fitrec_start(struct fitrec_recorder *recorder, size_t data_size, uint32_t time, uint32_t serial, uint8_t sport,
                     struct fitrec_plan *plan) {
    begin(recorder);
    return end(recorder, plan, Z_fitrecZ_fitrec_start(&module, recorder_at(), data_size, time, serial, sport, plan_at()));
}

uint8_t fitrec_add_sample(struct fitrec_recorder *recorder, const struct fitrec_sample *sample, struct fitrec_plan *plan) {
    begin(recorder);
    lend(sample_at(), sample, sizeof *sample);
    return end(recorder, plan, Z_fitrecZ_fitrec_add_sample(&module, recorder_at(), sample_at(), plan_at()));
}

uint8_t fitrec_add_lap(struct fitrec_recorder *recorder, uint32_t time, struct fitrec_plan *plan) {
    begin(recorder);
    return end(recorder, plan, Z_fitrecZ_fitrec_add_lap(&module, recorder_at(), time, plan_at()));
}

uint8_t fitrec_pause_timer(struct fitrec_recorder *recorder, uint32_t time, struct fitrec_plan *plan) {
    begin(recorder);
    return end(recorder, plan, Z_fitrecZ_fitrec_pause_timer(&module, recorder_at(), time, plan_at()));
}

uint8_t fitrec_resume_timer(struct fitrec_recorder *recorder, uint32_t time, struct fitrec_plan *plan) {
    begin(recorder);
    return end(recorder, plan, Z_fitrecZ_fitrec_resume_timer(&module, recorder_at(), time, plan_at()));
}

uint8_t fitrec_commit(struct fitrec_recorder *recorder, struct fitrec_plan *plan) {
    begin(recorder);
    return end(recorder, plan, Z_fitrecZ_fitrec_commit(&module, recorder_at(), plan_at()));
}

uint8_t fitrec_stop(struct fitrec_recorder *recorder, uint32_t time, struct fitrec_plan *plan) {
    begin(recorder);
    return end(recorder, plan, Z_fitrecZ_fitrec_stop(&module, recorder_at(), time, plan_at()));
}

uint8_t fitrec_state_of(const struct fitrec_recorder *recorder, struct fitrec_state *state) {
    begin(recorder);
    lend(sample_at(), state, sizeof *state);
    uint32_t answer = Z_fitrecZ_fitrec_state_of(&module, recorder_at(), sample_at());
    memcpy(state, module.w2c_memory.data + sample_at(), sizeof *state);
    return (uint8_t)answer;
}

uint8_t fitrec_recover_begin(struct fitrec_recovery *recovery, struct fitrec_plan *plan) {
    return by_windows(Z_fitrecZ_fitrec_recover_begin, recovery, plan);
}

uint8_t fitrec_recover_next(struct fitrec_recovery *recovery, struct fitrec_plan *plan) {
    return by_windows(Z_fitrecZ_fitrec_recover_next, recovery, plan);
}

uint8_t fitrec_erase_next(struct fitrec_recovery *recovery, struct fitrec_plan *plan) {
    return by_windows(Z_fitrecZ_fitrec_erase_next, recovery, plan);
}

static uint32_t reopen_next(Z_fitrec_instance_t *instance, u32 recovery, u32 plan) {
    return Z_fitrecZ_fitrec_reopen_next(instance, recovery, recorder_at(), plan);
}

uint8_t fitrec_reopen_next(struct fitrec_recovery *recovery, struct fitrec_recorder *recorder, struct fitrec_plan *plan) {
    begin(recorder);
    return end(recorder, plan, by_windows(reopen_next, recovery, plan));
}

/* For a step that reads the files, all addresses are within the bounds. */
static uint8_t over_files(uint32_t (*step)(Z_fitrec_instance_t *, u32, u32, u32, u32, u32), const uint8_t *data, size_t data_size,
                          const uint8_t *journal, size_t journal_size, struct fitrec_plan *plan) {
    make_ready();
    uint32_t size = module.w2c_memory.size;
    module.w2c_memory.size = UINT32_MAX;
    uint32_t answer = step(&module, file_at(data), data_size, file_at(journal), journal_size, plan_at());
    module.w2c_memory.size = size;
    memcpy(plan, module.w2c_memory.data + plan_at(), sizeof *plan);
    return (uint8_t)answer;
}

uint8_t fitrec_recover(const uint8_t *data, size_t data_size, const uint8_t *journal, size_t journal_size, struct fitrec_plan *plan) {
    return over_files(Z_fitrecZ_fitrec_recover, data, data_size, journal, journal_size, plan);
}

uint8_t fitrec_erase(const uint8_t *data, size_t data_size, const uint8_t *journal, size_t journal_size, struct fitrec_plan *plan) {
    return over_files(Z_fitrecZ_fitrec_erase, data, data_size, journal, journal_size, plan);
}

static struct fitrec_recorder *reopened;

static uint32_t reopen(Z_fitrec_instance_t *instance, u32 data, u32 data_size, u32 journal, u32 journal_size, u32 plan) {
    lend(recorder_at(), reopened, sizeof *reopened);
    uint32_t answer = Z_fitrecZ_fitrec_reopen(instance, recorder_at(), data, data_size, journal, journal_size, plan);
    memcpy(reopened, module.w2c_memory.data + recorder_at(), sizeof *reopened);
    return answer;
}

uint8_t fitrec_reopen(struct fitrec_recorder *recorder, const uint8_t *data, size_t data_size, const uint8_t *journal, size_t journal_size,
                      struct fitrec_plan *plan) {
    reopened = recorder;
    return over_files(reopen, data, data_size, journal, journal_size, plan);
}
