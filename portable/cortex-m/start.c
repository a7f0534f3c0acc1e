/* The driver on a bare Cortex-M4, as qemu has it on the board mps2-an386: vectors, reset, output by semihosting, and a stack for each call. The driver runs on
 * the main stack. A call runs on the process stack: each has one of its own, painted, of 12 KiB for the calls that a loader makes and of what
 * include/denkumari.h promises for the others. The 4 KiB below it are a region of the memory protection unit that nobody may touch, so a call that needs a byte
 * more ends in MemManage and not in somebody's data. The command line is CALLS SEED; a third word asks dk_build to run on 12 KiB, which has to end so. */
#include "../driver.h"

#define REGISTER(address) (*(volatile uint32_t *)(uintptr_t)(address))

enum { PAINT = 0x5c5c5c5c, PAGE = 4096, LOADER = 12, STACKS = 1024 * 1024 };
enum { SAY = 0x04, COMMAND_LINE = 0x15, LEAVE = 0x20, APPLICATION_EXIT = 0x20026 }; /* what semihosting is asked */

/* KiB of each call's stack. */
static const uint8_t kib_of[CALLS] = {
    [BUILD] = 24, [BUILD_PAGED] = 28, [PROFILE] = LOADER, [MAP] = 24, [FORM] = 136, [FORM_PAGED] = 136, [TO_FORM2] = LOADER, [TO_FORM1] = LOADER,
    [BLOCKS] = LOADER, [HEX] = LOADER, [OFFER] = LOADER, [OFFERS] = 14, [PART] = LOADER, [OVERLAY_RANGE] = LOADER, [OVERLAY_RUNS] = LOADER,
    [VERIFY] = LOADER, [WRITE_HEX] = LOADER, [WRITE_SREC] = LOADER, [READ_RECORDS] = LOADER, [RECORD_EXTENT] = LOADER, [RECORD_FAULT] = LOADER,
    [RECORD_REASON] = LOADER};
static const char *const name_of[CALLS] = {
    "dk_build", "dk_build_paged", "dk_profile", "dk_map", "dk_form", "dk_form_paged", "dk_to_form2", "dk_to_form1", "dk_blocks", "dk_hex", "dk_offer",
    "dk_offers", "dk_part", "dk_overlay_range", "dk_overlay_runs", "dk_verify", "dk_write_hex", "dk_write_srec", "dk_read_records", "dk_record_extent",
    "dk_record_fault", "dk_record_reason"};

extern uint32_t data_load[], data_start[], data_end[], bss_start[], bss_end[], main_top[];
static uint32_t stacks[STACKS / 4] __attribute__((aligned(PAGE)));
static uint32_t *low_of[CALLS], *top_of[CALLS]; /* of each call's stack */
static uint32_t *guarded;                       /* the stack whose guard is up */
static enum call current = CALLS;

void reset(void);

/* ---- semihosting ---- */

static uint32_t asked(uint32_t what, const void *with)
{
    register uint32_t r0 __asm__("r0") = what;
    register const void *r1 __asm__("r1") = with;
    __asm__ volatile("bkpt 0xab" : "+r"(r0) : "r"(r1) : "memory");
    return r0;
}

void driver_say(const char *text)
{
    asked(SAY, text);
}

static void leave(uint32_t status)
{
    const uint32_t block[2] = {APPLICATION_EXIT, status};
    asked(LEAVE, block);
    for (;;)
        ;
}

static void say_number(uint32_t number)
{
    char text[12];
    unsigned at = sizeof text - 1;
    text[at] = 0;
    do {
        text[--at] = (char)('0' + number % 10);
        number /= 10;
    } while (number != 0);
    driver_say(text + at);
}

/* ---- the two functions of a C library that the library asks for ---- */

void *memcpy(void *to, const void *from, size_t count)
{
    uint8_t *out = to;
    const uint8_t *in = from;
    while (count-- > 0)
        *out++ = *in++;
    return to;
}

void *memset(void *to, int value, size_t count)
{
    uint8_t *out = to;
    while (count-- > 0)
        *out++ = (uint8_t)value;
    return to;
}

/* ---- a call's stack ---- */

/* Each has its guard below it and its top above it; all are painted once, so that at the end the deepest mark of every call is there. */
static void lay_stacks(int small)
{
    uint32_t *at = stacks;
    unsigned which;
    size_t i;
    for (i = 0; i < STACKS / 4; i++)
        stacks[i] = PAINT;
    for (which = 0; which < CALLS; which++) {
        unsigned kib = small && which == BUILD ? LOADER : kib_of[which];
        low_of[which] = at + PAGE / 4;
        top_of[which] = low_of[which] + 256 * kib;
        at = top_of[which];
    }
    if (at > stacks + STACKS / 4)
        leave(4);
}

/* 4 KiB below the stack: no access to anyone; everything else is as without the unit. */
static void guard(uint32_t *low)
{
    if (low == guarded)
        return;
    guarded = low;
    REGISTER(0xe000ed94) = 0;
    REGISTER(0xe000ed98) = 0;
    REGISTER(0xe000ed9c) = (uint32_t)(uintptr_t)low - PAGE;
    REGISTER(0xe000eda0) = 1u << 28 | 11u << 1 | 1;
    REGISTER(0xe000ed94) = 5;
    __asm__ volatile("dsb\n isb" ::: "memory");
}

__attribute__((naked, noinline)) static void on_stack(void (*made)(void), uint32_t *top)
{
    (void)made;
    (void)top;
    __asm__ volatile("push {r4, lr}\n msr psp, r1\n movs r2, #2\n msr control, r2\n isb\n blx r0\n movs r2, #0\n msr control, r2\n isb\n pop {r4, pc}");
}

void driver_call(enum call which, void (*made)(void))
{
    if (which == CALLS)
        leave(1);
    current = which;
    guard(low_of[which]);
    on_stack(made, top_of[which]);
}

static void say_stacks(void)
{
    unsigned which;
    uint32_t *at;
    REGISTER(0xe000ed94) = 0; /* the guards are down: what is above them is read */
    for (which = 0; which < CALLS; which++) {
        for (at = low_of[which]; at < top_of[which] && *at == PAINT; at++)
            ;
        driver_say("stack of ");
        driver_say(name_of[which]);
        driver_say(": ");
        say_number((uint32_t)((uintptr_t)top_of[which] - (uintptr_t)at));
        driver_say(" of ");
        say_number(1024u * kib_of[which]);
        driver_say("\n");
    }
}

/* ---- faults and the start ---- */

static void fell(const char *how)
{
    driver_say(how);
    driver_say(" in ");
    driver_say(current < CALLS ? name_of[current] : "the driver");
    driver_say("\n");
    leave(3);
}

static void hard_fault(void) { fell("HardFault"); }
static void memory_fault(void) { fell("MemManage"); }
static void other_fault(void) { fell("BusFault or UsageFault"); }

__attribute__((section(".vectors"), used)) static void (*const vectors[16])(void) = {
    (void (*)(void))(uintptr_t)main_top, reset, hard_fault, hard_fault, memory_fault, other_fault, other_fault};

static uint32_t read_number(const char **at)
{
    uint32_t number = 0;
    while (**at == ' ')
        ++*at;
    for (; **at >= '0' && **at <= '9'; ++*at)
        number = 10 * number + (uint32_t)(**at - '0');
    return number;
}

static void start(void)
{
    static char line[80];
    struct {
        char *at;
        uint32_t length;
    } wanted = {line, sizeof line};
    const char *at = line;
    uint32_t calls, seed;
    int status;
    if (asked(COMMAND_LINE, &wanted) != 0)
        leave(4);
    while (*at != ' ' && *at != 0) /* the program's own name */
        at++;
    calls = read_number(&at);
    seed = read_number(&at);
    lay_stacks(read_number(&at) != 0);
    status = driver_run(calls, seed, calls >= 100000);
    say_stacks();
    leave((uint32_t)status);
}

void reset(void)
{
    uint32_t *to, *from = data_load;
    for (to = data_start; to < data_end;)
        *to++ = *from++;
    for (to = bss_start; to < bss_end;)
        *to++ = 0;
    REGISTER(0xe000ed24) |= 7u << 16;         /* MemManage, BusFault and UsageFault have handlers of their own */
    REGISTER(0xe000ed14) |= 1u << 9 | 1u << 4; /* the stack is aligned; division by zero is a fault */
    start();
}
