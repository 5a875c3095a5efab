# shellcheck shell=sh disable=SC2154,SC2034
# How a run of `program` is held to what is wanted of it: what the other parts of tests/program/run share.

# runs STDIN WORD..: runs the program on these words, with this file as its standard input
runs() {
  from=$1
  shift
  "$program" "$@" < "$from" > printed 2> complained
  status=$?
}

# wants NAME STATUS [SAID]: that the run before answered this status, that what it printed is standard input, and that it said
# this on standard error, or nothing
wants() {
  cat > wanted
  printf '%s' "${3:+hunkinfo: $3
}" > said
  if [ "$status" -eq "$2" ] && cmp -s wanted printed && cmp -s said complained; then
    passed=$((passed + 1))
  else
    failed=$((failed + 1))
    echo "tests/program: $1: status $status where $2 is wanted, and printed:"
    head -c 1000 printed
    echo "and said:"
    head -c 1000 complained
  fi
}

# same NAME A B: that two files have the same bytes
same() {
  if cmp -s "$2" "$3"; then
    passed=$((passed + 1))
  else
    failed=$((failed + 1))
    echo "tests/program: $1: $2 and $3 differ"
  fi
}
