/* The start of a program on an emulated Cortex-M, with the words that it is compiled with. */

#include <stdint.h>
#include <stdlib.h>

extern uint32_t _estack, _sdata, _edata, _sidata, _sbss, _ebss;
extern int main(int count, char **words);
extern void initialise_monitor_handles(void);
extern void __libc_init_array(void);

void _init(void) {}
void _fini(void) {}

void reset(void) {
#ifdef __ARM_FP
    *(volatile uint32_t *)0xE000ED88 |= 0xF00000; /* the floating point unit is on */
#endif
    static char *words[] = {"device",
#ifdef WORDS
                            WORDS,
#endif
                            NULL};
    for (uint32_t *at = &_sbss; at < &_ebss; at++)
        *at = 0;
    for (uint32_t *at = &_sdata, *from = &_sidata; at < &_edata;)
        *at++ = *from++;
    initialise_monitor_handles();
    __libc_init_array();
    exit(main(sizeof words / sizeof *words - 1, words));
}

void hang(void) {
    exit(4);
}

__attribute__((section(".vectors"), used)) void *vectors[] = {&_estack, reset, hang, hang, hang, hang, hang};
