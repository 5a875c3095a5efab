# shellcheck shell=sh disable=SC2154,SC2034
# Linux on other processors, under qemu: a part of tests/targets/run. With --few armv6 and x86_64-v1 are left to a full run, and
# riscv64's library is held to the answers, the header and the stack alone. Debian's C library for 32-bit Arm is for ARMv7: for armv6 the
# library is tried, not the program. The qemu64 of qemu has no SSSE3, SSE4 and POPCNT.

# machine TARGET: sets what names its tools and its library; where a tool is not there, a line says so
machine() {
  options=
  case $1 in
    x86_64-v1) system=x86_64-linux-gnu processor=x86_64 options=' -cpu qemu64' ;;
    arm*) system=arm-linux-gnueabihf processor=arm ;;
    *) system=${1%%-*}-linux-gnu processor=${1%%-*} ;;
  esac
  target=$1
  emulator=qemu-$processor$options
  compiler="$system-gcc -static"
  tools=$system-
  archive=$top/ports/out/$target/libhunk.a
  has "$target" "$system-gcc" "qemu-$processor"
}
# needed: the processor has to be one that ends a program with the library of x86-64-v2, or the comparison shows nothing
needed() {
  archive=$library
  compiles newer "$here/dump.c"
  archive=$top/ports/out/$target/libhunk.a
  # shellcheck disable=SC2086
  if { (cd "$work/files" && $emulator "$work/there-newer" < "$work/names") > "$work/newer"; } 2> /dev/null; then
    lack "$emulator takes the library that is for x86-64-v2"
  fi
  pass
}
# linux: holds the library to what is here
linux() {
  compares "$target"
  holds "$target" header 'the header and the library differ'
  stack
  [ -z "$few" ] || return 0
  holds "$target" large 'an answer about a large file is not what hunk.h says'
}
# briefly: the answers, the header, and the stack
briefly() {
  dumps "$target"
  holds "$target" header 'the header and the library differ'
  stack
}
# program: holds the program to what the one of this machine says of every input
program() {
  made=$top/ports/out/$target/hunkinfo
  printf '#!/bin/sh\nexec %s %s "$@"\n' "$emulator" "$made" > "$work/hunkinfo"
  chmod +x "$work/hunkinfo"
  vectors/every "$work/hunkinfo" > "$work/every.there"
  same "hunkinfo on $target" "$work/every" "$work/every.there"
}
# installed: as ports/README.md installs it; the shared library is linked by the system of that machine
installed() {
  rm -rf "$work/there.root"
  CC='' TARGET=$target PREFIX=/usr DESTDIR=$work/there.root packaging/install.sh
  "$system-gcc" -std=c99 -O1 -I"$work/there.root/usr/include" bindings/c/examples/check.c -L"$work/there.root/usr/lib" \
    -lhunk -o "$work/check"
  printf 'unit 0 hunk 0 offset 2: %s\n' 'no such target' 'outside of the hunk' > "$work/wanted"
  echo 'object file: 2 findings' >> "$work/wanted"
  "$emulator" -L "/usr/$system" -E "LD_LIBRARY_PATH=$work/there.root/usr/lib" "$work/check" \
    "$work/files/29-two-findings" > "$work/said" || true
  same "libhunk.so on $target" "$work/wanted" "$work/said"
}

targets=
for target in aarch64-unknown-linux-gnu armv7 riscv64 ${brief:-armv6 x86_64-v1}; do
  case $target in --*) continue ;; esac
  machine "$target" || continue
  targets="$targets $target"
done
# shellcheck disable=SC2086
[ -z "$targets" ] || builds $targets
for target in $targets; do
  machine "$target"
  starts "$target"
  case $brief$target in
    --*riscv64) briefly ;;
    *) linux ;;
  esac
  measured "$(find "ports/out/$target" -name hunkinfo)"
  [ "$few" ] || [ ! -x "ports/out/$target/hunkinfo" ] || program
  case $few$target in
    x86_64-v1) needed ;;
    --* | armv6) ;;
    *) [ ! -x "ports/out/$target/hunkinfo" ] || installed ;;
  esac
done
[ -z "$brief" ] || echo 'tests/targets: armv6, x86_64-v1, and hunkinfo on other processors, were not tried (--few)'
