#!/bin/sh
# [DESTDIR=..] [PREFIX=..] [TARGET=..] packaging/install.sh [program] [library]: puts the program, with its manual page, two
# pages, what shells complete and the lines for `file`, and the C library, with its header, where a distribution has them,
# below PREFIX (/usr/local), all of that below DESTDIR where one is given. Without a word it installs what is built, and says of
# the other in a line which command makes it; what is named has to be there.
# [DESTDIR=..] [PREFIX=..] packaging/install.sh uninstall: takes all of it away, with the folders that it made, where these are
# empty then.
# What is built is what `./build` and `./build library` have made, or where TARGET is
# aarch64-unknown-linux-gnu, armv7 or riscv64 what `ports/build` has for it; PROGRAM and LIBRARY name other files, which have to
# be there. Without a C compiler for that machine (CC, with options or without) libhunk.so is left out, which a line says.
set -eu
umask 022
note() {
  printf 'install.sh: %s\n' "$1" >&2
}
# lack TEXT [STATUS]
lack() {
  note "$1"
  exit "${2:-1}"
}
# absolute PATH: where the path leads from the folder in which this is called
absolute() {
  case $1 in
    /*) printf '%s\n' "$1" ;;
    *) printf '%s\n' "$PWD/$1" ;;
  esac
}
for word in "$@"; do
  case $#:$word in
    *:program | *:library | 1:uninstall) ;;
    *) lack 'usage: [DESTDIR=..] [PREFIX=..] [TARGET=..] packaging/install.sh [program] [library] | uninstall' 2 ;;
  esac
done
PREFIX=$(absolute "${PREFIX:-/usr/local}")
DESTDIR=${DESTDIR:+$(absolute "$DESTDIR")}
LIBRARY=${LIBRARY:+$(absolute "$LIBRARY")}
PROGRAM=${PROGRAM:+$(absolute "$PROGRAM")}
cd "$(dirname "$(realpath "$0")")/.."
to=$DESTDIR$PREFIX
# The shared library has the number of its interface in its name, and is a file with its version in that.
version=$(cat VERSION)
abi=$(sed -n 's/^#define HUNK_ABI \(UINT32_C(\)\{0,1\}\([0-9][0-9]*\).*/\2/p' bindings/c/hunk.h)
[ "$abi" ] || lack 'bindings/c/hunk.h does not say its HUNK_ABI'
soname=libhunk.so.$abi
shared=libhunk.so.$version
program_files="bin/hunkinfo share/man/man1/hunkinfo.1 share/misc/magic.d/hunk share/doc/hunkinfo/OUTPUT.md
  share/doc/hunkinfo/FORMAT.md share/bash-completion/completions/hunkinfo share/zsh/site-functions/_hunkinfo
  share/fish/vendor_completions.d/hunkinfo.fish"
library_files="include/hunk.h lib/libhunk.a lib/pkgconfig/hunk.pc lib/cmake/hunk/hunkConfig.cmake
  lib/cmake/hunk/hunkConfigVersion.cmake"
shared_files="lib/$shared lib/$soname lib/libhunk.so"
# The folders below PREFIX that were made, PREFIX itself as /, each one before the one that it is in.
record=share/doc/hunkinfo/folders
if [ "${1:-}" = uninstall ]; then
  status=0
  made=$(cat "$to/$record" 2> /dev/null) || made=
  for file in $program_files $library_files $shared_files; do
    rm -f "$to/$file" || status=1
  done
  # Those of earlier versions, too.
  rm -f "$to"/lib/libhunk.so.* || status=1
  rm -f "$to/$record" || status=1
  for folder in $made; do
    rmdir "$to/$folder" 2> /dev/null || true
  done
  exit $status
fi

named=" $* ${PROGRAM:+program} ${LIBRARY:+library} "
case ${TARGET:-} in
  '')
    LIBRARY=${LIBRARY:-crates/hunk_c/out/libhunk_c.a}
    PROGRAM=${PROGRAM:-crates/hunkinfo/out/hunkinfo}
    CC=${CC:-cc}
    library_by='./build library'
    program_by=./build
    ;;
  aarch64-unknown-linux-gnu | armv7 | riscv64)
    LIBRARY=${LIBRARY:-ports/out/$TARGET/libhunk.a}
    PROGRAM=${PROGRAM:-ports/out/$TARGET/hunkinfo}
    case $TARGET in
      armv7) CC=${CC:-arm-linux-gnueabihf-gcc} ;;
      *) CC=${CC:-${TARGET%%-*}-linux-gnu-gcc} ;;
    esac
    library_by="ports/build $TARGET"
    program_by=$library_by
    ;;
  *) lack "nothing is built for $TARGET" 2 ;;
esac

# What is installed: the program and the library, where they are there, and with the library libhunk.so.
program=
library=
refused=
[ $# != 0 ] || set -- program library
for part in "$@"; do
  case $part in
    program) file=$PROGRAM by=$program_by ;;
    library) file=$LIBRARY by=$library_by ;;
  esac
  if [ -f "$file" ]; then
    eval "$part=yes"
    continue
  fi
  note "the $part was not installed: $file is not there, and $by makes it"
  case $named in
    *" $part "*) refused=yes ;;
  esac
done
[ -z "$refused" ] || exit 1
[ "$program$library" ] || exit 1
linked=$library
if [ "$library" ] && ! command -v "${CC%% *}" > /dev/null; then
  linked=
  note "libhunk.so was not installed: there is no C compiler, $CC"
  [ ! -e "$to/lib/libhunk.so" ] || note "$to/lib/libhunk.so is of an earlier install"
fi
files="${program:+$program_files} ${library:+$library_files} ${linked:+$shared_files}"
case $library$PREFIX in
  yes*[\$\#]* | yes*[[:space:]] | yes*'
'*) lack "hunk.pc can't name a PREFIX with a \$, a # or a line end, or with a space at its end" ;;
esac
for file in $files; do
  [ ! -d "$to/$file" ] || lack "$to/$file is a folder"
done

work=$(mktemp -d)
trap 'rm -rf "$work"' EXIT
trap 'exit 1' HUP INT TERM
link_shared() {
  echo '{ global: hunk_*; local: *; };' > "$work/exports"
  # shellcheck disable=SC2086
  $CC -shared -o "$work/$shared" -Wl,-soname,"$soname" -Wl,--version-script="$work/exports" \
    -Wl,--whole-archive "$LIBRARY" -Wl,--no-whole-archive
}
# make_folders: those of the files, each one before what is in it, with the record of those that were not there
make_folders() {
  made=
  # shellcheck disable=SC2086
  for folder in / $(printf '%s\n' $files $record |
    awk -F / '{ path = $1; for (i = 2; i <= NF; i++) { print path; path = path "/" $i } }' | LC_ALL=C sort -u); do
    [ -d "$to/$folder" ] || made="$folder $made"
    mkdir -p "$to/$folder"
  done
  [ ! -f "$to/$record" ] || made="$made$(cat "$to/$record")"
  echo "$made" > "$to/$record"
}
put_program() {
  install -m 755 "$PROGRAM" "$to/bin/hunkinfo"
  install -m 644 docs/hunkinfo.1 "$to/share/man/man1/hunkinfo.1"
  install -m 644 docs/hunk.magic "$to/share/misc/magic.d/hunk"
  install -m 644 docs/OUTPUT.md docs/FORMAT.md "$to/share/doc/hunkinfo"
  install -m 644 packaging/completions/hunkinfo.bash "$to/share/bash-completion/completions/hunkinfo"
  install -m 644 packaging/completions/_hunkinfo "$to/share/zsh/site-functions"
  install -m 644 packaging/completions/hunkinfo.fish "$to/share/fish/vendor_completions.d"
}
put_library() {
  cat > "$work/hunk.pc" << END
prefix=$(printf '%s\n' "$PREFIX" | sed 's/[\\"]/\\&/g')
includedir=\${prefix}/include
libdir=\${prefix}/lib

Name: hunk
Description: load files and object files of AmigaDOS (hunk files)
Version: $version
Cflags: -I"\${includedir}"
Libs: -L"\${libdir}" -lhunk
END
  sed "s/@VERSION@/$version/" packaging/hunkConfigVersion.cmake > "$work/hunkConfigVersion.cmake"
  install -m 644 bindings/c/hunk.h "$to/include/hunk.h"
  install -m 644 "$LIBRARY" "$to/lib/libhunk.a"
  install -m 644 "$work/hunk.pc" "$to/lib/pkgconfig/hunk.pc"
  install -m 644 packaging/hunkConfig.cmake "$work/hunkConfigVersion.cmake" "$to/lib/cmake/hunk"
}
put_shared() {
  install -m 755 "$work/$shared" "$to/lib/$shared"
  ln -sf "$shared" "$to/lib/$soname"
  ln -sf "$soname" "$to/lib/libhunk.so"
}
[ -z "$linked" ] || link_shared
make_folders
[ -z "$program" ] || put_program
[ -z "$library" ] || put_library
[ -z "$linked" ] || put_shared
