/* The start of load.c on an emulated Cortex-M, and its file by semihosting: `file` of the folder that
 * qemu was started in. The stack is painted before main, and how much of it was used is told. */
#include "board.h"

#define STACK 2048 /* bytes of it that are painted */
#define PAINT 0xA5
#define NAME_LENGTH 4
#define APPLICATION_EXIT 0x20026

enum { OPEN = 1, WRITE_TEXT = 4, READ = 6, EXIT = 24 };
extern uint8_t __stack[];
extern uint8_t __bss_start__[], __bss_end__[];
int main(void);

/* What the debugger, or qemu, does for the board. */
static uintptr_t ask(uintptr_t what, const void *arguments)
{
    register uintptr_t r0 __asm__("r0") = what;
    register const void *r1 __asm__("r1") = arguments;
    __asm__ volatile("bkpt 0xab" : "+r"(r0) : "r"(r1) : "memory");
    return r0;
}

size_t receive(uint8_t *bytes, size_t most)
{
    static uintptr_t file;
    if (file == 0) {
        const uintptr_t by_name[] = {(uintptr_t) "file", 1, NAME_LENGTH};
        file = ask(OPEN, by_name);
    }
    const uintptr_t piece[] = {file, (uintptr_t)bytes, most};
    const uintptr_t missing = ask(READ, piece);
    return missing > most ? 0 : most - missing;
}

static void say_byte(uint8_t byte)
{
    static const char digits[] = "0123456789abcdef";
    const char text[] = {digits[byte >> 4], digits[byte & 15], 0};
    ask(WRITE_TEXT, text);
}

void report(const char *word, uint32_t number, const uint8_t *bytes, size_t len)
{
    ask(WRITE_TEXT, word);
    ask(WRITE_TEXT, " ");
    for (int shift = 24; shift >= 0; shift -= 8)
        say_byte((uint8_t)(number >> shift));
    ask(WRITE_TEXT, len > 0 ? " " : "");
    for (size_t i = 0; i < len; i++)
        say_byte(bytes[i]);
    ask(WRITE_TEXT, "\n");
}

void _start(void)
{
    volatile uint8_t *low = __stack - STACK;
    for (volatile uint8_t *at = __bss_start__; at < __bss_end__; at++)
        *at = 0;
    for (volatile uint8_t *at = low; at < (uint8_t *)__builtin_frame_address(0) - 64; at++)
        *at = PAINT;
    const int status = main();
    while (low < __stack && *low == PAINT)
        low++;
    report("stack", (uint32_t)(__stack - low), NULL, 0);
    /* It takes the reason as it is, not where it lies; another reason is a failure. */
    ask(EXIT, (const void *)(uintptr_t)(APPLICATION_EXIT - (status != 0 ? 1 : 0)));
    for (;;)
        ;
}
