/* What a Cortex-M reads first: where its stack begins, and where its code does. */
extern unsigned char __stack[];
void _start(void);
__attribute__((section(".vectors"), used))
static void *const vectors[16] = {__stack, (void *)_start};
