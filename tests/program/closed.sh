# shellcheck shell=sh disable=SC2154,SC2034
# Standard streams that are closed when the program starts: none of the files that it opens becomes one of them. OUT is what the
# order asks for, or what it was, and IN is never changed for anything else; a part of tests/program/run.

lost='standard output: Bad file descriptor (os error 9)'
no_input='standard input: Is a directory (os error 21)'

# closed STREAMS WORD..: as `runs second`, with the streams of these numbers closed
closed() {
  streams=$1
  shift
  (
    exec < second > printed 2> complained
    case $streams in *0*) exec <&- ;; esac
    case $streams in *1*) exec >&- ;; esac
    case $streams in *2*) exec 2>&- ;; esac
    exec "$program" "$@"
  )
  status=$?
}

# ends NAME STATUS [SAID]: as `wants`, where standard input is what an open standard output takes. One that is closed makes the
# status 3, and is told of, and on a closed standard error nothing is said.
ends() {
  cat > taken
  told=$3
  ended=$2
  case $streams in *1*)
    : > taken
    told=$lost
    ended=3
    ;;
  esac
  case $streams in *2*) told= ;; esac
  wants "$1, closed: ${streams:-none}" "$ended" "$told" < taken
}

# kept NAME FILE WAS: that the file has the same bytes as before
kept() {
  same "$1, closed: ${streams:-none}" "$2" "$3"
}

echo 'an old file that is longer than the one that takes its place, and is not there any more' > was
for closed in '' 0 1 2 01 02 12 012; do
  # ---- commands that only read

  cp first in
  closed "$closed" show in; ends show 0 '' << END
load file 1 hunks 4 bytes
hunk 0 4 bytes any
  CODE 4 bytes
  END
END
  kept 'IN of show' in first
  closed "$closed" validate in; ends validate 0 '' << END
load file 1 hunks 4 bytes
END
  kept 'IN of validate' in first
  closed "$closed" relocate --base 00021000 in; ends relocate 0 '' << END
hunk 0 base 0x00021000 4 bytes
  4e754e71
END
  kept 'IN of relocate' in first
  closed "$closed" show --wide in; ends 'show --wide' 0 '' << END
load file 1 hunks 4 bytes
hunk 0 4 bytes any
  CODE 4 bytes
  END
END
  kept 'IN of show --wide' in first
  closed "$closed" show short; ends 'show of a file that is cut' 1 "short: $cut" << END
refused at byte 36: Truncated (26)
END
  # Nothing is read from a closed standard input, and not from a file that was opened in its place.
  closed "$closed" validate
  case $closed in
    *0*) ends 'standard input' 3 "$no_input" << END ;;
reading failed at byte 0
END
    *) ends 'standard input' 0 '' << END ;;
load file 1 hunks 8 bytes
END
  esac

  # ---- OUT: a new file, an old one, and IN itself, by their names and through links

  for out in new old in soft hard soft-in hard-in; do
    rm -f new old in soft hard soft-in hard-in
    cp symbol in
    cp was old
    ln -s old soft
    ln old hard
    ln -s in soft-in
    ln in hard-in
    for how in '' --strip --wide; do
      cp symbol in
      asked=symbol
      rest='wrote 60 bytes'
      left=
      case $how in --strip)
        asked=first
        rest='wrote 40 bytes'
        left="in: $symbols"
        ;;
      esac
      closed "$closed" rewrite ${how:+"$how"} in "$out"
      echo "$rest" > wrote
      ends "rewrite $how to $out" 0 "$left" < wrote
      kept "OUT of rewrite $how to $out" "$out" "$asked"
      case $out in
        *in) ;;
        *) kept "IN of rewrite $how to $out" in symbol ;;
      esac
    done
    rm -f new
    cp was old
    cp short in
    cp "$out" before-refused 2> complained || rm -f before-refused
    closed "$closed" rewrite in "$out"
    ends "rewrite of a file that is cut to $out" 1 "in: $cut; $out was not touched" << END
refused at byte 36: Truncated (26)
END
    if [ -e before-refused ]; then
      kept "OUT of a file that is cut, $out" "$out" before-refused
    else
      [ ! -e "$out" ]; status=$?
      : > printed
      : > complained
      wants "no OUT of a file that is cut, closed: ${closed:-none}" 0 < /dev/null
    fi
  done

  # ---- standard streams by name, where they may be closed

  cp was old
  closed "$closed" rewrite /dev/stdin old
  case $closed in
    *0*)
      ends 'rewrite of standard input' 3 '/dev/stdin: Is a directory (os error 21); old was not touched' << END
reading failed at byte 0
END
      kept 'OUT of a closed standard input' old was
      ;;
    *)
      ends 'rewrite of standard input' 0 '' << END
wrote 44 bytes
END
      kept 'OUT of standard input' old second
      ;;
  esac
done
rm -f new old in soft hard soft-in hard-in

# ---- where nothing may be opened in their place: nothing is done then, and all is where no stream is closed

if strace -o /dev/null true 2> complained; then
  # refusing "NAME.." CLOSED WORD..: the program, with these streams closed, where the files of these names can't be opened
  refusing() {
    paths=
    for path in $1; do paths="$paths -P $path"; done
    streams=$2
    shift 2
    # shellcheck disable=SC2086
    strace -o /dev/null $paths -e inject=openat,?open:error=EACCES sh -c '
      case $0 in *0*) exec <&- ;; esac
      case $0 in *1*) exec >&- ;; esac
      case $0 in *2*) exec 2>&- ;; esac
      exec "$@"' "-$streams" "$program" "$@" < second > printed 2> complained
    status=$?
  }
  none='a standard stream is closed, and nothing can be opened in its place'
  for closed in '' 0 1 2 01 02 12 012; do
    cp first in
    cp was old
    refusing / "$closed" rewrite in old
    ends 'a root folder that may not be read' 0 '' << END
wrote 40 bytes
END
    kept 'OUT, without the root folder' old first
    kept 'IN, without the root folder' in first
    cp was old
    refusing '/ /dev/null' "$closed" rewrite in old
    case $closed in
      '')
        ends 'no file in the place of a stream' 0 '' << END
wrote 40 bytes
END
        kept 'OUT, where no stream is closed' old first
        ;;
      *)
        case $closed in *2*) told= ;; *) told=$none ;; esac
        wants "no file in the place of a stream, closed: $closed" 3 "$told" < /dev/null
        kept 'OUT, without such a file' old was
        ;;
    esac
    kept 'IN, without such a file' in first
  done
fi
# What is opened first keeps no number from a file: two beside those of the streams are enough, for IN and OUT.
(
  exec > printed 2> complained
  ulimit -n 5
  exec "$program" rewrite first out
)
status=$?
wants 'five descriptors' 0 << END
wrote 40 bytes
END
same 'OUT, by five descriptors' out first
