/*
 * From the reset of an Arm Cortex-M to main, without an operating system and without a C library: the vectors, the
 * variables, and the four functions that the examples and the library take. With bare_metal.ld it starts bare_metal.c,
 * or acceptance.c.
 *
 * What putchar writes goes to the emulator or the debugger (semihosting), and so does the end; a set has a serial port,
 * and a main that does not return.
 */
#include <stddef.h>
#include <stdint.h>

/* Calls of the debugger: write a character, end the program; and the two ends that it knows. */
enum { WRITE = 0x03, EXIT = 0x18, ENDED = 0x20026, FAILED = 0x20023 };

/* From bare_metal.ld. */
extern uint32_t data_from[], data_begin[], data_end[], bss_begin[], bss_end[];
extern void stack_top(void);

int main(void);
void reset(void);
int putchar(int character);
void *memcpy(void *to, const void *from, size_t count);
void *memset(void *to, int value, size_t count);

/* The first vector is the stack's top, the second the function that a reset starts. */
__attribute__((section(".vectors"), used)) static void (*const vectors[])(void) = {stack_top, reset};

void *memcpy(void *to, const void *from, size_t count)
{
    for (size_t i = 0; i < count; i++)
        ((uint8_t *)to)[i] = ((const uint8_t *)from)[i];
    return to;
}

void *memset(void *to, int value, size_t count)
{
    for (size_t i = 0; i < count; i++)
        ((uint8_t *)to)[i] = (uint8_t)value;
    return to;
}

static void debugger(uint32_t call, uintptr_t with)
{
    register uint32_t r0 __asm__("r0") = call;
    register uintptr_t r1 __asm__("r1") = with;

    __asm__ volatile("bkpt 0xab" : "+r"(r0) : "r"(r1) : "memory");
}

int putchar(int character)
{
    const char written = (char)character;

    debugger(WRITE, (uintptr_t)&written);
    return character;
}

void reset(void)
{
#ifdef __ARM_FP
    /* floating point is off after a reset: the register CPACR turns it on */
    *(volatile uint32_t *)0xE000ED88u |= 0xFu << 20;
#endif
    for (uint32_t *to = data_begin, *from = data_from; to < data_end; to++, from++)
        *to = *from;
    for (uint32_t *word = bss_begin; word < bss_end; word++)
        *word = 0;
    debugger(EXIT, main() == 0 ? ENDED : FAILED);
    for (;;)
        continue;
}
