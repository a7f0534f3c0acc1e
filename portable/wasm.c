/* The driver in WebAssembly, with no C library: wasm.js has `say`. */
#include "driver.h"

void say(const char *text);

void driver_say(const char *text)
{
    say(text);
}

void driver_call(enum call which, void (*made)(void))
{
    if (which == CALLS)
        __builtin_trap();
    made();
}

void *memcpy(void *to, const void *from, size_t count)
{
    uint8_t *out = to;
    const uint8_t *in = from;
    while (count-- > 0)
        *out++ = *in++;
    return to;
}

void *memset(void *to, int value, size_t count)
{
    uint8_t *out = to;
    while (count-- > 0)
        *out++ = (uint8_t)value;
    return to;
}

int run(uint32_t calls, uint32_t seed)
{
    return driver_run(calls, seed, calls >= 100000);
}
