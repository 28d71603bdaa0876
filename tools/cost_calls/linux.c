/* The port for a processor under Linux: the stack of a context of its own; no clock. */
#define _XOPEN_SOURCE 700
#include <stdio.h>
#include <string.h>
#include <ucontext.h>
#include "port.h"

enum { STACK = 1 << 17 };

static uint8_t stack[STACK] __attribute__((aligned(16)));
static ucontext_t here, there;
static void (*job)(void);

static void enter(void)
{
    job();
}

uint32_t port_depth(void (*call)(void), uint8_t paint)
{
    uint32_t untouched = 0;

    memset(stack, paint, STACK);
    getcontext(&there);
    there.uc_stack.ss_sp = stack;
    there.uc_stack.ss_size = STACK;
    there.uc_link = &here;
    job = call;
    makecontext(&there, enter, 0);
    swapcontext(&here, &there);
    while (untouched < STACK && stack[untouched] == paint)
        untouched++;
    return STACK - untouched;
}

uint32_t port_instructions(void)
{
    return 0;
}

void port_say(const char *text)
{
    fputs(text, stdout);
}
