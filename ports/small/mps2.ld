/* The board mps2-an386 of qemu-system-arm (Cortex-M4), and mps2-an385 (Cortex-M3): code at 0, as in flash, and all else in a RAM
 * of 16 MiB, from whose end the stack goes down. What is initialized lies in RAM at once; a real board copies it there from flash. */
ENTRY(_start)
MEMORY { code (rx) : ORIGIN = 0, LENGTH = 4M  ram (rwx) : ORIGIN = 0x21000000, LENGTH = 16M }
SECTIONS {
  .vectors : { KEEP(*(.vectors)) } > code
  .text : { *(.text*) KEEP(*(.init)) KEEP(*(.fini)) *(.rodata*) } > code
  .ARM.exidx : { __exidx_start = .; *(.ARM.exidx*) __exidx_end = .; } > code
  .data : { *(.data*) . = ALIGN(8); KEEP(*(.init_array*)) KEEP(*(.fini_array*)) } > ram
  .bss : { __bss_start__ = .; *(.bss*) *(COMMON) . = ALIGN(8); __bss_end__ = .; end = .; __end__ = .; } > ram
  __stack = ORIGIN(ram) + LENGTH(ram) - 16;
  __init_array_start = 0; __init_array_end = 0; __preinit_array_start = 0; __preinit_array_end = 0;
  __fini_array_start = 0; __fini_array_end = 0;
}
