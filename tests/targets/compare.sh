# shellcheck shell=sh disable=SC2154,SC2034
# What the parts of tests/targets/run share: how a test is run here and on another machine, and held to be the same. Those that include
# this have set `top`, `here`, `work`, `library` and CC.
passed=0
compared=0
lack() {
  echo "tests/targets: $1"
  exit 1
}
pass() {
  passed=$((passed + 1))
}
# has WHAT TOOL..: whether all of them are there; else a line says what is not tried without the first that is not
has() {
  what=$1
  shift
  for tool in "$@"; do
    command -v "$tool" > /dev/null && continue
    echo "note: tests/targets: $what was not tried, as there is no $tool"
    return 1
  done
}
# same WHAT FILE OTHER: holds them to be the same, and counts their lines
same() {
  cmp "$2" "$3" > "$work/cmp" || lack "$1: $(cat "$work/cmp")"
  compared=$((compared + $(wc -l < "$2")))
  pass
}
# builds TARGET..: by ports/build
builds() {
  # shellcheck disable=SC2086
  ports/build $built $brief "$@" > "$work/log" 2>&1 || lack "$(tail -n 1 "$work/log")"
}
# For each other machine its part sets `compiler`, with its options, `archive`, which is its libhunk.a, `emulator`, which runs what the
# compiler makes, and `tools`, what the names of its binutils begin with.
# compiles NAME SOURCE OPTION..: a test for that machine
compiles() {
  name=$1
  source=$2
  shift 2
  # shellcheck disable=SC2086
  $compiler -std=c99 -O1 -Ibindings/c "$@" "$source" "$archive" -pthread -o "$work/there-$name" > "$work/log" 2>&1 ||
    lack "$source by $compiler: $(head -n 1 "$work/log")"
}
# told NAMES NAME WORD..: what tests/c/NAME.c prints on this machine of the files of these names, once for all machines
told() {
  names=$1
  name=$2
  shift 2
  [ ! -f "$work/here.$name" ] || return 0
  "$CC" -std=c99 -O1 -Ibindings/c "tests/c/$name.c" "$library" -pthread -o "$work/here-$name"
  (cd "$work/files" && xargs "$work/here-$name" "$@" < "$names") > "$work/here.$name" || lack "tests/c/$name.c fails here"
}
# both WHAT NAMES NAME WORD..: a test on the files of these names, here and on the machine, has to print the same
both() {
  what=$1
  shift
  told "$@"
  names=$1
  name=$2
  shift 2
  compiles "$name" "tests/c/$name.c"
  # shellcheck disable=SC2086
  (cd "$work/files" && xargs $emulator "$work/there-$name" "$@" < "$names") > "$work/there.$name" ||
    lack "tests/c/$name.c fails on $what"
  same "tests/c/$name.c on $what" "$work/here.$name" "$work/there.$name"
}
# dumps WHAT: what tests/targets/dump.c prints of the files, on the machine
dumps() {
  compiles dump "$here/dump.c"
  # shellcheck disable=SC2086
  (cd "$work/files" && $emulator "$work/there-dump" < "$work/names") > "$work/there" || lack "tests/targets/dump.c fails on $1"
  same "the library on $1" "$work/native" "$work/there"
}
# compares WHAT: the library of the machine with that of this one, by each answer and each row
compares() {
  dumps "$1"
  mkdir -p "$work/stripped"
  both "$1" "$work/names" checks "$work/stripped"
  both "$1" "$work/names" tables
  both "$1" "$work/names" answers 00021000
  # It asks for files of all sorts.
  both "$1" "$work/all" streams 00021000
  both "$1" "$work/names" places
}
# starts WHAT: the comparisons of a machine
starts() {
  subject=$1
  before=$compared
}
# stack: no call needs more stack on the machine than hunk.h says
stack() {
  compiles stack tests/c/stack.c -DSHOW_STACK
  $emulator "$work/there-stack" > "$work/stack" || lack "a call needs more stack than hunk.h says on $subject"
  pass
}
# bytes_of ARCHIVE: its code and constants
bytes_of() {
  "${tools}size" -A "$1" | awk '/^\.(text|rodata|srodata|rdata)/ { sum += $2 } END { print sum }'
}
# measured [PROGRAM]: with MEASURE set, the bytes of the library and of the program, the most stack that a call takes, that of
# hunk_load_packed after all others, and how many lines were compared
measured() {
  [ "$MEASURE" ] || return 0
  awk -v what="$subject" -v library="$(bytes_of "$archive")" -v program="$(wc -c < "${1:-/dev/null}")" \
    -v lines=$((compared - before)) '
    $2 == "hunk_load_packed" { if ($1 > packed) packed = $1; next }
    $1 > other { other = $1 }
    END { print what ": library " library ", hunkinfo " program ", stack " other " / " packed ", lines " lines }' "$work/stack"
}
# holds WHAT NAME SAYING: a test of the library alone ends well on the machine
holds() {
  compiles "$2" "tests/c/$2.c"
  $emulator "$work/there-$2" || lack "$3 on $1"
  pass
}
