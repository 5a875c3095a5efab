# shellcheck shell=sh disable=SC2154,SC2034
# An archive for Linux, unpacked into an empty folder, run here or under qemu: a part of packaging/check.

# glibc_of FILE..: the oldest glibc that has all that they call
glibc_of() {
  if has 'the version of glibc' readelf >&2; then
    readelf -V "$@" | sed -n 's/.*Name: GLIBC_\([0-9.]*\).*/\1/p' | sort -Vu | tail -n 1
  fi
}

# readme ARCHIVE: what README calls, in the folder that the archive is unpacked to
# shellcheck disable=SC1039
readme() {
  mkdir "$1/FOLDER"
  cp "$work/symbol" "$1/FILE"
  cp "$work/symbol" "$1/FOLDER"
  sed -n '/^To try it/,/^To install/s/^  //p' "$1/README" > "$work/lines"
  # shellcheck disable=SC2016
  prints README sh -e -c 'cd "$1" && . "$2"' readme "$1" "$work/lines" << 'END'
load file 1 hunks 4 bytes
hunk 0 4 bytes any
  CODE 4 bytes
  SYMBOL 1
    0x00000000 _m
  END
hunk 0 00000000 _m
00001000 0 _m
0 _m
4e754e71
load	-	-	0	FOLDER/symbol
END
}

of "$machine"
unpacked=$work/$machine/$(basename "$archive" .tar.gz)
mkdir "$work/$machine"
tar -C "$work/$machine" -xzf "$archive"
[ "$(ls -d "$work/$machine"/*)" = "$unpacked" ] || lack "$archive has another folder"
share=$unpacked/share/hunkinfo
inputs "$share/vectors"
clean "$unpacked"
documents "$unpacked/share/misc/magic.d/hunk" "$unpacked/share/man/man1/hunkinfo.1"
completes hunkinfo 'relocate
rewrite' "$unpacked/share" "$unpacked/share/zsh/site-functions"
shares "$share"
export PKG_CONFIG_PATH="$unpacked/lib/pkgconfig"
glibc=$(glibc_of "$unpacked/bin/hunkinfo" "$unpacked/lib/libhunk.so")
[ -z "$glibc" ] || grep -q "^  $machine .*glibc $glibc or later" "$unpacked/README" ||
  lack "README does not say that $machine needs glibc $glibc"
if [ "$(uname -m | sed 's/^armv7l$/armv7/')" = "$machine" ]; then
  ldd "$unpacked/bin/hunkinfo" "$unpacked/lib/libhunk.so" > "$work/needed" 2>&1 || true
  ! grep -v -e ':$' -e linux-vdso -e 'libc\.so\.6 =>' -e ld-linux -e 'statically linked' "$work/needed" ||
    lack 'more than the C library is needed'
  pass
  runs "$unpacked/bin/hunkinfo"
  compiles "$share/c" cc
  calls env LD_LIBRARY_PATH="$unpacked/lib"
  cmakes "$share/c/cmake" -D CMAKE_PREFIX_PATH="$unpacked"
  surveys env LIBHUNK="$unpacked/lib/libhunk.so" PYTHONDONTWRITEBYTECODE=1 PYTHONPATH="$share/python" python3 -m hunk
  if has "$share/python" python3; then
    says '00001000 0 _m' symbols.py env LIBHUNK="$unpacked/lib/libhunk.so" PYTHONDONTWRITEBYTECODE=1 \
      PYTHONPATH="$share/python" python3 "$share/python/examples/symbols.py" "$work/symbol"
  fi
  rust "$share/rust"
  [ ! -f "$wheel" ] || wheel_here "$wheel" "$share/python/examples"
  if has README python3 node; then
    readme "$unpacked"
  fi
elif has "$machine" "$emulator" "$triplet-gcc"; then
  runs "$unpacked/bin/hunkinfo" "$emulator"
  compiles "$share/c" "$triplet-gcc"
  calls "$emulator" -L "/usr/$triplet" -E "LD_LIBRARY_PATH=$unpacked/lib"
  [ ! -f "$wheel" ] || wheel_there "$wheel" "$emulator" -L "/usr/$triplet"
fi
