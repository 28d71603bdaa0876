/*
 * The port for an Arm Cortex-M in the emulator, started by examples/bare_metal_start.c: a second stack, and SysTick for
 * a clock. Under -icount shift=0 the emulator makes an instruction in a nanosecond, and the board's SysTick counts down
 * once in 40.
 */
#include <stddef.h>
#include "port.h"

enum { STACK = 1 << 17, COUNTED = 0xFFFFFF, ON = 5, EACH = 40 };

/* SysTick: control, reload, value. */
static volatile uint32_t *const clock = (volatile uint32_t *)0xE000E010u;
static uint8_t stack[STACK] __attribute__((aligned(16)));

int putchar(int character);
void *memset(void *to, int value, size_t count);

uint32_t port_depth(void (*call)(void), uint8_t paint)
{
    uint32_t untouched = 0;
    uint8_t *top = stack + STACK;

    memset(stack, paint, STACK);
    __asm__ volatile("mov r4, sp\n mov sp, %1\n blx %0\n mov sp, r4"
                     :
                     : "r"(call), "r"(top)
                     : "r0", "r1", "r2", "r3", "r4", "r12", "lr", "cc", "memory");
    while (untouched < STACK && ((volatile uint8_t *)stack)[untouched] == paint)
        untouched++;
    return STACK - untouched;
}

/* The counter has 24 bits: it is asked often enough to see each time that it goes round. */
uint32_t port_instructions(void)
{
    static uint32_t before, total;
    uint32_t now;

    if (clock[0] == 0) {
        clock[1] = COUNTED;
        clock[2] = 0;
        clock[0] = ON;
    }
    now = clock[2];
    total += (before - now) & COUNTED;
    before = now;
    return total * EACH;
}

void port_say(const char *text)
{
    for (; *text != '\0'; text++)
        putchar(*text);
}
