/* The driver on Windows with no C library, for machines that have no compiler with one: it asks kernel32 for its output, its command line and its end. */
#include "driver.h"

void *GetStdHandle(uint32_t which);
int WriteFile(void *file, const void *bytes, uint32_t count, uint32_t *written, void *how);
const char *GetCommandLineA(void);
void ExitProcess(uint32_t status);
void start(void);

enum { OUTPUT = -11 };

void driver_say(const char *text)
{
    uint32_t length = 0, written;
    while (text[length] != 0)
        length++;
    WriteFile(GetStdHandle((uint32_t)OUTPUT), text, length, &written, 0);
}

void driver_call(enum call which, void (*made)(void))
{
    if (which == CALLS)
        ExitProcess(1);
    made();
}

void *memcpy(void *to, const void *from, size_t count)
{
    uint8_t *out = to;
    const uint8_t *in = from;
    while (count-- > 0)
        *out++ = *in++;
    return to;
}

void *memset(void *to, int value, size_t count)
{
    uint8_t *out = to;
    while (count-- > 0)
        *out++ = (uint8_t)value;
    return to;
}

static uint32_t read_number(const char **at)
{
    uint32_t number = 0;
    while (**at == ' ')
        ++*at;
    for (; **at >= '0' && **at <= '9'; ++*at)
        number = 10 * number + (uint32_t)(**at - '0');
    return number;
}

/* The command line is the program's name, which may stand in quotes, CALLS and SEED. */
void start(void)
{
    const char *at = GetCommandLineA();
    char end = ' ';
    uint32_t calls, seed;
    if (*at == '"') {
        end = '"';
        at++;
    }
    while (*at != end && *at != 0)
        at++;
    at += *at != 0;
    calls = read_number(&at);
    seed = read_number(&at);
    ExitProcess((uint32_t)driver_run(calls, seed, calls >= 100000));
}
