/* The bytes of stack that a function changes, by a painted stack of its own: that of a thread, or
 * where no thread can be given one an array that the stack pointer is set to. */
#ifndef PAINTED_H
#define PAINTED_H

#include <stdint.h>
#include <stdlib.h>
#include <string.h>

#define STACK (1 << 18)
#define PAINT 0xA5

static uint8_t stack[STACK] __attribute__((aligned(16)));

#ifdef __linux__
#include <pthread.h>

static void *run(void *make)
{
    (*(void (**)(void))make)();
    return NULL;
}

static void run_on_stack(void (*make)(void))
{
    pthread_t thread;
    pthread_attr_t attributes;
    if (pthread_attr_init(&attributes) || pthread_attr_setstack(&attributes, stack, STACK) ||
        pthread_create(&thread, &attributes, run, &make) || pthread_join(thread, NULL))
        exit(3);
}
#elif defined _WIN32
/* Below the top is room in which the function may keep what it is given. */
static void run_on_stack(void (*make)(void))
{
    __asm__ volatile("movq %%rsp, %%rbx\n movq %0, %%rsp\n callq *%1\n movq %%rbx, %%rsp"
                     : : "r"(stack + STACK - 64), "r"(make)
                     : "rax", "rbx", "rcx", "rdx", "r8", "r9", "r10", "r11", "xmm0", "xmm1", "xmm2",
                       "xmm3", "xmm4", "xmm5", "memory", "cc");
}
#elif defined __arm__
static void run_on_stack(void (*make)(void))
{
    __asm__ volatile("mov r4, sp\n mov sp, %0\n blx %1\n mov sp, r4"
                     : : "r"(stack + STACK), "r"(make)
                     : "r0", "r1", "r2", "r3", "r4", "r12", "lr", "cc", "memory");
}
#elif defined __riscv
static void run_on_stack(void (*make)(void))
{
    __asm__ volatile("mv s1, sp\n mv sp, %0\n jalr %1\n mv sp, s1"
                     : : "r"(stack + STACK), "r"(make)
                     : "a0", "a1", "a2", "a3", "a4", "a5", "a6", "a7", "t0", "t1", "t2", "t3", "t4",
                       "t5", "t6", "s1", "ra", "memory");
}
#endif

static size_t stack_of(void (*make)(void))
{
    memset(stack, PAINT, STACK);
    run_on_stack(make);
    size_t unused = 0;
    while (unused < STACK && stack[unused] == PAINT)
        unused++;
    return STACK - unused;
}

#endif
