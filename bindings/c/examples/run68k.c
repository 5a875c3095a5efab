/* Runs a hunk file: loads it into the memory of a 68020, which Unicorn emulates, calls its first
 * hunk, and prints D0 and the bytes that the hunks then have: run68k FILE BASE
 *
 * The program has no operating system: it may only compute, and return. */
#include "hunk.h"
#include <inttypes.h>
#include <stdio.h>
#include <stdlib.h>
#include <unicorn/unicorn.h>

#define RAM UINT32_C(0x100000) /* bytes of memory, from address 0 on */
#define STACK UINT32_C(0x1000) /* grows down; below it lies where the program returns to */
#define STOP UINT32_C(0x400)
#define MOST 1000000 /* instructions */

static uint8_t file[1 << 20], ram[RAM];

static int say(const char *what, const char *why)
{
    fprintf(stderr, "run68k: %s: %s\n", what, why);
    return 1;
}

int main(int argc, char **argv)
{
    FILE *f = argc == 3 ? fopen(argv[1], "rb") : NULL;
    if (f == NULL)
        return say("usage", "run68k FILE BASE (hexadecimal, 1000 to FFFFC)");
    size_t len = fread(file, 1, sizeof file, f);
    fclose(f);
    uint32_t base = (uint32_t)strtoul(argv[2], NULL, 16);
    if (base < STACK || base >= RAM || base % 4 != 0)
        return say(argv[2], "not a base");

    struct hunk_answer a = hunk_load_packed(file, len, base, ram + base, RAM - base);
    if (a.number != HUNK_OK) {
        uint8_t name[32];
        struct hunk_answer n = hunk_reason(a.number, name, sizeof name);
        fprintf(stderr, "run68k: byte %" PRIu64 ": %.*s\n", a.place, (int)n.count, (char *)name);
        return 1;
    }

    uint32_t stack = STACK - 4, d0 = 0;
    ram[stack + 2] = STOP >> 8; /* the return address, high byte first */
    ram[stack + 3] = STOP & 0xFF;

    uc_engine *uc;
    uc_err e = uc_open(UC_ARCH_M68K, UC_MODE_BIG_ENDIAN, &uc);
    if (e == UC_ERR_OK)
        e = uc_ctl_set_cpu_model(uc, UC_CPU_M68K_M68020);
    if (e == UC_ERR_OK)
        e = uc_mem_map_ptr(uc, 0, RAM, UC_PROT_ALL, ram);
    if (e == UC_ERR_OK)
        e = uc_reg_write(uc, UC_M68K_REG_A7, &stack);
    if (e == UC_ERR_OK)
        e = uc_emu_start(uc, base, STOP, 0, MOST);
    if (e == UC_ERR_OK)
        e = uc_reg_read(uc, UC_M68K_REG_D0, &d0);
    if (e != UC_ERR_OK)
        return say(argv[1], uc_strerror(e));
    printf("D0 %08" PRIX32 "\n", d0);
    for (uint64_t i = 0; i < a.count; i++)
        printf("%02X%s", ram[base + i], i % 4 == 3 ? "\n" : "");
    uc_close(uc);
    return 0;
}
