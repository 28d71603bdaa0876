/* What calls.c needs of a processor: a stack that can be looked at, a clock, and a place to write to. */
#ifndef PORT_H
#define PORT_H

#include <stdint.h>

/* Makes a call on a painted stack of its own; the bytes of paint that are gone after it. */
uint32_t port_depth(void (*call)(void), uint8_t paint);

/* Instructions so far, rounded; always 0 where nothing counts them. */
uint32_t port_instructions(void);

void port_say(const char *text);

#endif
