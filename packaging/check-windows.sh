# shellcheck shell=sh disable=SC2154
# The zip for Windows, under wine, and its libraries by MinGW's compiler: a part of packaging/check.

mingw=x86_64-w64-mingw32
export WINEPREFIX="$work/wine" WINEDEBUG=-all WINEDLLOVERRIDES='mscoree=;mshtml='

# under_wine PROGRAM WORD..: runs PROGRAM.exe, or a program of Windows itself. What programs in C print has the line ends of
# Windows, which those of Unix take the place of. At random places wine does not always find its own free.
under_wine() {
  under=$1
  shift
  [ ! -f "$under.exe" ] || under=$under.exe
  setarch -R wine "$under" "$@" > "$work/printed" || return
  tr -d '\r' < "$work/printed"
}
# prompt FOLDER LINES: what a command prompt in the folder prints when it is given the lines of the file
prompt() {
  sed '1i @echo off' "$2" | sed 's/$/\r/' > "$1/lines.bat"
  (cd "$1" && under_wine cmd /c lines.bat)
}
# imports FILE KNOWN..: that it needs no DLL but these
imports() {
  file=$1
  shift
  for name in $($mingw-objdump -p "$file" | sed -n 's/.*DLL Name: //p'); do
    case " $* " in
      *" $name "*) ;;
      *) lack "$file needs $name" ;;
    esac
  done
  pass
}
# cmakes_windows EXAMPLE FOLDER: the programs in C++, for which cmake finds the library in the folder
cmakes_windows() {
  has "$1" cmake make $mingw-g++ || return 0
  { cmake -S "$1" -B "$work/built" -G 'Unix Makefiles' -D CMAKE_SYSTEM_NAME=Windows -D CMAKE_CXX_COMPILER=$mingw-g++ \
    -D CMAKE_EXE_LINKER_FLAGS=-static -D CMAKE_PREFIX_PATH="$2" && cmake --build "$work/built"; } > "$work/log" 2>&1 ||
    lack "$1: $(tail -n 1 "$work/log")"
  cp "$2/bin/hunk.dll" "$work/built"
  for name in segments segments-static; do
    says '00021000 4 bytes: 4e 75 4e 71' "$1" under_wine "$work/built/$name" "$work/symbol" 21000
  done
}
# lines_of README: the commands on it, FILE being a file's name
lines_of() {
  tr -d '\r' < "$1" | sed -n '/^To try it/,/^To have/s/^  //p' | sed 's/FILE/symbol/'
}
# readme_windows FOLDER: what README.txt calls, with MinGW's gcc of this system, but for Python and node, which wine has not
# shellcheck disable=SC1039
readme_windows() {
  cp "$work/symbol" "$1"
  lines_of "$1/README.txt" > "$work/all"
  sed -n "s/^gcc /$mingw-gcc /p" "$work/all" | tr '\134' / > "$work/lines"
  (cd "$1" && sh -e "$work/lines") || lack 'README.txt: gcc fails'
  grep -v -e '^gcc ' -e '^python ' -e '^node ' "$work/all" > "$work/lines"
  prints README.txt prompt "$1" "$work/lines" << 'END'
load file 1 hunks 4 bytes
hunk 0 4 bytes any
  CODE 4 bytes
  SYMBOL 1
    0x00000000 _m
  END
hunk 0 00000000 _m
load file: 0 findings
END
}

unpacked=$work/windows/$(basename "$archive" .zip)
share=$unpacked/share/hunkinfo
if has windows python3 xxd; then
  mkdir "$work/windows"
  python3 -m zipfile -e "$archive" "$work/windows"
  [ "$(ls -d "$work/windows"/*)" = "$unpacked" ] || lack "$archive has another folder"
  inputs "$share/vectors"
  clean "$unpacked"
  shares "$share"
  wheel=$(echo "$made"/hunk-*-win_amd64.whl)
  if [ -f "$wheel" ]; then
    python3 -m zipfile -e "$wheel" "$work/windows/wheel"
    cmp "$work/windows/wheel/hunk/hunk.dll" "$unpacked/bin/hunk.dll" || lack "$wheel has another hunk.dll"
    pass
  fi
  if has 'C for Windows' $mingw-gcc $mingw-objdump pkg-config; then
    imports "$unpacked/bin/hunk.dll" ntdll.dll
    imports "$unpacked/bin/hunkinfo.exe" KERNEL32.dll msvcrt.dll SHELL32.dll
    PKG_CONFIG_PATH=$unpacked/lib/pkgconfig compiles "$share/c" $mingw-gcc
  fi
  if has 'the zip' wine wineserver $mingw-gcc pkg-config; then
    wine cmd /c ver > "$work/log" 2>&1 || lack "wine: $(tail -n 1 "$work/log")"
    runs "$unpacked/bin/hunkinfo.exe" wine
    cp "$unpacked/bin/hunk.dll" "$work"
    calls under_wine
    cmakes_windows "$share/c/cmake" "$unpacked"
    readme_windows "$unpacked"
    echo 'packaging/check: Python and Node.js on Windows were not tried'
    wineserver -k
  fi
fi
