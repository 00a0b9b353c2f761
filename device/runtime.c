/* All of the runtime of wasm2c that the recorder asks for, with its memory. */

#include "wasm-rt.h"

#ifndef FITREC_STACK
#define FITREC_STACK 10240 /* how much of the module's own stack there is room for */
#endif
#ifndef FITREC_TABLES
#define FITREC_TABLES 6400 /* the module's data, and what is lent to a call */
#endif

/* The module's stack ends where its data begins. What is below the stack has no memory. */
#define STACK_END 65536u
uint8_t fitrec_memory[FITREC_STACK + FITREC_TABLES] __attribute__((aligned(16)));

uint32_t wasm_rt_call_stack_depth;

void fitrec_trap(void) __attribute__((noreturn, weak));
void fitrec_trap(void) {
    for (;;)
        ;
}

bool wasm_rt_is_initialized(void) {
    return true;
}

void wasm_rt_trap(wasm_rt_trap_t code) {
    (void)code;
    fitrec_trap();
}

uint32_t wasm_rt_register_func_type(uint32_t params, uint32_t results, ...) {
    (void)params, (void)results;
    return 0;
}

void wasm_rt_allocate_memory(wasm_rt_memory_t *memory, uint32_t pages, uint32_t most) {
    memory->data = fitrec_memory - (STACK_END - FITREC_STACK);
    memory->pages = pages;
    memory->max_pages = most;
    memory->size = STACK_END - FITREC_STACK + sizeof fitrec_memory;
}

void wasm_rt_free_memory(wasm_rt_memory_t *memory) {
    (void)memory;
}
