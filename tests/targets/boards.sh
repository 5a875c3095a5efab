# shellcheck shell=sh disable=SC2154,SC2034
# Systems without an operating system, under qemu, by semihosting: a part of tests/targets/run. The Cortex-M0's code runs on a
# Cortex-M3: the one board with a Cortex-M0, the microbit, has memory for load.c of ports/small alone, which runs there. boards/
# has what takes the place of a system, and the ceilings of sizes and stack. With MEASURE set each of these is printed, and the
# stack of each call.
boards=$here/boards
qemu='-nographic -monitor none -serial none -semihosting-config enable=on,target=native'

# on_board NAME SOURCE NAMES WORD OPTION..: compiles a test for the board, which takes WORD and the names of a file
on_board() {
  name=$1
  source=$2
  names=$3
  word=$4
  shift 4
  # shellcheck disable=SC2086
  $compiler -std=c99 -O1 -I"$boards" -Ibindings/c -include "$boards/names.h" "-DNAMES=\"$names\"" "-DWORD=\"$word\"" "$source" \
    $start "$archive" "$@" -o "$work/there-$name" > "$work/log" 2>&1 ||
    lack "$source by $compiler: $(grep -m 1 error "$work/log")"
}
# shellcheck disable=SC2086
# runs NAME: a test on the board, in the folder of the files; picolibc prints where qemu has its standard error
runs() {
  (cd "$work/files" && timeout 600 $emulator "$work/there-$1") 2>&1
}
# tells NAMES NAME WORD..: a test on the files of these names has to print what it does here
tells() {
  told "$@"
  on_board "$name" "tests/c/$name.c" "$names" "${3:-}" -Dmain=main_of_test -DMOST_ROWS=8192 -x c "$boards/start.c"
  runs "$name" > "$work/there.$name" || lack "tests/c/$name.c fails on $target"
  same "tests/c/$name.c on $target" "$work/here.$name" "$work/there.$name"
}
# below WHAT IS MOST: holds a number of bytes to its ceiling
below() {
  [ "$MEASURE" ] && echo "$target: $1: $2 bytes"
  [ "$2" -le "$3" ] || lack "$target: $1: $2 bytes, where $3 are the most"
}
# asks ARCHIVE NAME..: it needs these functions of others, and no more
asks() {
  asked=$("${tools}nm" -u "$1" | awk '$1 == "U" { print $2 }' | LC_ALL=C sort | xargs)
  shift
  [ "$asked" = "$*" ] || lack "$target: an archive asks for $asked, not for $*"
}
# small: the archives, by their sizes and what they ask for, and the stack of each call
small() {
  stream=$top/ports/out/$target/libhunk-stream.a
  read -r most_library most_stream most_stack most_other most_flash most_used << END
$(sed -n "s/^$target //p" "$boards/ceilings")
END
  # shellcheck disable=SC2086
  asks "$archive" $more memcpy memmove memset
  asks "$stream" memcpy memmove memset
  below libhunk.a "$(bytes_of "$archive")" "$most_library"
  below libhunk-stream.a "$(bytes_of "$stream")" "$most_stream"
  on_board stack tests/c/stack.c "$work/names" '' -DSHOW_STACK "-DALL=$most_other"
  runs stack > "$work/stack" || lack "a call needs more stack on $target than its ceiling"
  [ -z "$MEASURE" ] || cat "$work/stack"
  for call in hunk_table hunk_begin hunk_feed hunk_end; do
    below "the stack of $call" "$(awk -v call=$call '$2 == call && NF == 2 { print $1 }' "$work/stack")" "$most_stack"
  done
  pass
}
# answers_alike: each answer and each row, as on this machine
answers_alike() {
  on_board dump "$here/dump.c" "$work/names" ''
  runs dump > "$work/there" || lack "tests/targets/dump.c fails on $target"
  same "the library on $target" "$work/native" "$work/there"
  mkdir -p "$work/stripped"
  tells "$work/names" checks "$work/stripped"
  tells "$work/names" tables
}
# examples SCRIPT MACHINE: load.c of ports/small, with libhunk-stream.a alone, loads the sum of bindings/c as the program does,
# and refuses a part of it
# shellcheck disable=SC2086
examples() {
  emulator="qemu-system-arm -M $2 $qemu -kernel"
  arm-none-eabi-gcc $processor -std=c99 -Os -Wall -Wextra -Werror -ffreestanding -nostartfiles -T "$1" -Ibindings/c \
    ports/small/*.c "$stream" -o "$work/load.elf" > "$work/log" 2>&1 || lack "ports/small: $(grep -m 1 error "$work/log")"
  mkdir -p "$work/flash"
  cp "$work/files/sum" "$work/flash/file"
  (cd "$work/flash" && timeout 60 $emulator "$work/load.elf") > "$work/loaded" 2>&1 || lack "ports/small/load.c fails on $target"
  "$program" relocate --base 00021000 "$work/flash/file" |
    awk '/^hunk/ { printf "%shunk %s ", end, substr($4, 3); end = "\n"; next } { printf "%s", $1 } END { print "" }' \
      > "$work/wanted"
  grep -v '^stack ' "$work/loaded" > "$work/told"
  same "ports/small/load.c on $target" "$work/wanted" "$work/told"
  below 'the flash of ports/small/load.c' "$("${tools}size" "$work/load.elf" | awk 'NR == 2 { print $1 + $2 }')" "$most_flash"
  below 'the stack of ports/small/load.c' $((0x$(sed -n 's/^stack //p' "$work/loaded"))) "$most_used"
  head -c 50 "$work/files/sum" > "$work/flash/file"
  (cd "$work/flash" && timeout 60 $emulator "$work/load.elf") > "$work/loaded" 2>&1 &&
    lack "ports/small/load.c takes a part on $target"
  printf 'refused 0000001a\n' > "$work/wanted"
  grep -v '^stack ' "$work/loaded" > "$work/told"
  same "ports/small/load.c on $target" "$work/wanted" "$work/told"
}
# cortex TARGET MACHINE NAMES: a board of Arm, with newlib; NAMES are what else the library asks for
cortex() {
  target=$1
  processor="-mthumb -mcpu=$target"
  compiler="arm-none-eabi-gcc $processor --specs=rdimon.specs -T $top/ports/small/mps2.ld"
  start=$top/ports/small/vectors.c
  tools=arm-none-eabi-
  emulator="qemu-system-arm -M $2 $qemu -kernel"
  archive=$top/ports/out/$target/libhunk.a
  more=${3:-}
  builds "$target"
  starts "$target"
  small
  answers_alike
  measured
}
# riscv: a board of 32-bit RISC-V, with picolibc, and memory for all tests
riscv() {
  target=riscv32
  has "$target" riscv64-unknown-elf-gcc qemu-system-riscv32 || return 0
  compiler='riscv64-unknown-elf-gcc --specs=picolibc.specs --crt0=semihost --oslib=semihost -march=rv32imac -mabi=ilp32'
  compiler="$compiler -mcmodel=medany -Wl,--defsym=__flash=0x80000000,--defsym=__flash_size=4M,--defsym=__ram=0x80400000"
  compiler="$compiler -Wl,--defsym=__ram_size=1000M"
  start=
  tools=riscv64-unknown-elf-
  emulator="qemu-system-riscv32 -M virt -m 1024M $qemu -bios none -kernel"
  archive=$top/ports/out/$target/libhunk.a
  more=
  builds "$target"
  starts "$target"
  small
  answers_alike
  tells "$work/names" answers 00021000
  tells "$work/all" streams 00021000
  tells "$work/names" places
  measured
  [ -z "$few" ] || return 0
  on_board large tests/c/large.c "$work/names" ''
  runs large || lack "an answer about a large file is not what hunk.h says on $target"
  pass
}
if has 'small systems of Arm' arm-none-eabi-gcc qemu-system-arm; then
  cortex cortex-m4 mps2-an386
  examples ports/small/mps2.ld mps2-an386
  cortex cortex-m0 mps2-an385 __aeabi_lmul
  sed 's/LENGTH = 4M/LENGTH = 256K/; s/0x21000000, LENGTH = 16M/0x20000000, LENGTH = 16K/' ports/small/mps2.ld \
    > "$work/microbit.ld"
  examples "$work/microbit.ld" microbit
fi
riscv
