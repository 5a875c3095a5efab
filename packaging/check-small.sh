# shellcheck shell=sh disable=SC2154
# The libraries for boards, under qemu by semihosting, and the one for ARMv6: a part of packaging/check.

unpacked=$work/small/$(basename "$archive" .tar.gz)
# flashed BYTES: puts so many of the bytes of `symbol` where a board has its file
flashed() {
  head -c "$1" "$work/symbol" > "$unpacked/file"
}
# boots EMULATOR WORD..: what a program for a board reports, but for its stack, and for what a linker says of newlib
boots() {
  (cd "$unpacked" && timeout 60 "$@" 2>&1) | grep -v -e '^stack ' -e '/ld: '
}
# loads EMULATOR WORD..: that the example loads a file, and refuses a part of it
loads() {
  flashed 1000
  says 'hunk 00021000 4e754e71' "$1" boots "$@"
  flashed 30
  says 'refused 0000001a' "$1" boots "$@"
}
# readme_small: the commands on README
readme_small() {
  sed -n '/^To try it/,/^It prints/s/^  //p' "$unpacked/README" > "$work/lines"
  flashed 1000
  says 'hunk 00021000 4e754e71' README boots sh -e "$work/lines"
}
# cortex BOARD MACHINE: the example for a Cortex-M, with each archive
cortex() {
  for library in libhunk libhunk-stream; do
    # shellcheck disable=SC2086
    arm-none-eabi-gcc -mthumb -mcpu="$1" -std=c99 -Os -Wall -Wextra -Werror -ffreestanding -nostartfiles -I"$unpacked/include" \
      -T "$unpacked/example/mps2.ld" "$unpacked"/example/*.c "$unpacked/$1/$library.a" -o "$work/board.elf" > "$work/log" 2>&1 ||
      lack "$1: $(grep -m 1 error "$work/log")"
    loads qemu-system-arm -M "$2" -nographic -monitor none -serial none -semihosting-config enable=on,target=native \
      -kernel "$work/board.elf"
  done
}
# riscv: the same for RISC-V, where picolibc stands for board.c
riscv() {
  cat > "$work/board.c" << 'END'
#include "board.h"
#include <stdio.h>

size_t receive(uint8_t *bytes, size_t most)
{
    static FILE *in;
    if (in == NULL)
        in = fopen("file", "rb");
    return in == NULL ? 0 : fread(bytes, 1, most, in);
}

void report(const char *word, uint32_t number, const uint8_t *bytes, size_t len)
{
    printf("%s %08lx%s", word, (unsigned long)number, len > 0 ? " " : "");
    for (size_t i = 0; i < len; i++)
        printf("%02x", bytes[i]);
    putchar('\n');
}
END
  for library in libhunk libhunk-stream; do
    riscv64-unknown-elf-gcc --specs=picolibc.specs --crt0=semihost --oslib=semihost -march=rv32imac -mabi=ilp32 -mcmodel=medany \
      -Wl,--defsym=__flash=0x80000000,--defsym=__flash_size=4M,--defsym=__ram=0x80400000,--defsym=__ram_size=4M -std=c99 -Os \
      -I"$unpacked/include" -I"$unpacked/example" "$unpacked/example/load.c" "$work/board.c" "$unpacked/riscv32/$library.a" \
      -o "$work/board.elf" > "$work/log" 2>&1 || lack "riscv32: $(grep -m 1 error "$work/log")"
    loads qemu-system-riscv32 -M virt -m 16M -nographic -monitor none -serial none -bios none \
      -semihosting-config enable=on,target=native -kernel "$work/board.elf"
  done
}

mkdir "$work/small"
tar -C "$work/small" -xzf "$archive"
[ "$(ls -d "$work/small"/*)" = "$unpacked" ] || lack "$archive has another folder"
clean "$unpacked"
inputs "$top/vectors"
if has 'small: boards with a Cortex-M' arm-none-eabi-gcc qemu-system-arm; then
  cortex cortex-m4 mps2-an386
  # No board with a Cortex-M0 is emulated that has the memory. A Cortex-M3 runs its code.
  cortex cortex-m0 mps2-an385
  readme_small
fi
if has 'small: riscv32' riscv64-unknown-elf-gcc qemu-system-riscv32; then
  riscv
fi
if has 'small: armv6' arm-linux-gnueabihf-gcc qemu-arm; then
  arm-linux-gnueabihf-gcc -static -std=c99 -I"$unpacked/include" "$top/bindings/c/examples/symbols.c" \
    "$unpacked/armv6/libhunk.a" -o "$work/symbols" > "$work/log" 2>&1 || lack "armv6: $(grep -m 1 error "$work/log")"
  says 'hunk 0 00000000 _m' armv6 qemu-arm "$work/symbols" "$work/symbol"
fi
