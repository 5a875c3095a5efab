# shellcheck shell=sh disable=SC2154,SC2034
# Windows on x86-64, under wine: a part of tests/targets/run. The folder windows has what the tests from C take in place of
# Linux's.

windows=x86_64-pc-windows
# starts_wine: makes a folder of wine's own, so that nothing of the user's is touched, and sees to it that nothing of it stays.
# Programs begin at places that are not random: else wine finds its own place taken in one of some thousand starts, and ends.
starts_wine() {
  export WINEPREFIX="$work/wine" WINEDEBUG=-all WINEDLLOVERRIDES='mscoree,mshtml='
  mkdir "$work/wine-first"
  printf '#!/bin/sh\nexec setarch -R %s "$@"\n' "$(command -v wine)" > "$work/wine-first/wine"
  chmod +x "$work/wine-first/wine"
  PATH=$work/wine-first:$PATH
  trap 'wineserver -k 2> /dev/null || true; rm -rf "$work"' EXIT
  wine cmd /c ver > "$work/log" 2>&1 || lack "wine does not start: $(tail -n 1 "$work/log")"
  # What xargs gives to a program is more than a command line of Windows takes: windows/words.h reads it from a file.
  cat > "$work/on-wine" << END
#!/bin/sh
program=\$1
shift
[ \$# -gt 0 ] || exec wine "\$program.exe"
printf '%s\n' "\$@" > '$work/words'
exec wine "\$program.exe" '@$work/words'
END
  chmod +x "$work/on-wine"
}
# links WHAT LIBRARY..: each answer and each row, by another library of the same
links() {
  what=$1
  shift
  # shellcheck disable=SC2086
  $compiler -std=c99 -O1 -Ibindings/c "$here/dump.c" "$@" -o "$work/there-linked" > "$work/log" 2>&1 ||
    lack "tests/targets/dump.c with $what: $(head -n 1 "$work/log")"
  (cd "$work/files" && $emulator "$work/there-linked" < "$work/names") > "$work/there"
  same "$what" "$work/native" "$work/there"
}

if has Windows x86_64-w64-mingw32-gcc wine wineserver; then
  builds "$windows"
  compiler="x86_64-w64-mingw32-gcc -I$here/windows -include $here/windows/words.h"
  archive=$top/ports/out/$windows/libhunk.a
  tools=x86_64-w64-mingw32-
  emulator=$work/on-wine
  starts_wine
  starts Windows
  compares Windows
  holds Windows header 'the header and the library differ'
  stack
  needed=$(x86_64-w64-mingw32-objdump -p "ports/out/$windows/hunk.dll" | sed -n 's/.*DLL Name: //p')
  [ "$needed" = ntdll.dll ] || lack "hunk.dll needs $needed"
  pass
  cp "ports/out/$windows/hunk.dll" "$work"
  links hunk.dll "ports/out/$windows/libhunk.dll.a"
  # Its name of the stack probe is that of the C library of MSVC.
  links hunk.lib "ports/out/$windows/hunk.lib" -Wl,--defsym=__chkstk=___chkstk_ms
  measured "ports/out/$windows/hunkinfo.exe"
  if [ "$few" ]; then
    echo 'tests/targets: hunkinfo was not tried on Windows (--few)'
  else
    holds Windows large 'an answer about a large file is not what hunk.h says'
    x86_64-w64-mingw32-gcc -municode -O1 "$here/windows/word.c" -o "$work/word.exe"
    "$here/windows_program" "$program" "ports/out/$windows/hunkinfo.exe" "$work/files" "$work/word.exe" > "$work/told" ||
      lack "hunkinfo.exe: $(head -n 1 "$work/told")"
    cat "$work/told"
    pass
    printf '#!/bin/sh\nexec wine %s "$@"\n' "$top/ports/out/$windows/hunkinfo.exe" > "$work/hunkinfo"
    chmod +x "$work/hunkinfo"
    vectors/every "$work/hunkinfo" > "$work/every.there"
    same 'hunkinfo.exe' "$work/every" "$work/every.there"
  fi
fi
