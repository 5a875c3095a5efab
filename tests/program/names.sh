# shellcheck shell=sh disable=SC2154,SC2034
# Names on standard error: none of their characters acts on a terminal. A control character, of C1 too, and the backslash are
# `\x` and two digits for each byte, as the command `hunk` prints them; all others stay. A part of tests/program/run.

bell=$(printf '\033]0;title\007.\177')
bell_shown='\x1b]0;title\x07.\x7f'
lines=$(printf 'a\nb\tc\rd')
lines_shown='a\x0ab\x09c\x0dd'
c1=$(printf '\302\200\302\233m\302\237')
c1_shown='\xc2\x80\xc2\x9bm\xc2\x9f'
text=$(printf ' ~\302\240\303\251\342\202\254\360\237\230\200')
slash='a\b'
slash_shown='a\x5cb'

# named NAME SHOWN: what is said of files of this name
named() {
  runs first show "$1"; wants "a name that is shown as $2: not there" 3 "$2: $not_there" << END
reading failed at byte 0
END
  cp short "$1"
  runs first rewrite "$1" "$1"; wants "a name that is shown as $2: refused" 1 "$2: $cut; $2 was not touched" << END
refused at byte 36: Truncated (26)
END
  cp symbol "$1"
  runs first rewrite --strip "$1" "$1"; wants "a name that is shown as $2: left out" 0 "$2: $symbols" << END
wrote 40 bytes
END
  same "a file that is shown as $2" "$1" first
  bytes '000003F3 00000000 00000001 00000000 00000000 00000001 000003E9 00000001 4E754E71' > "$1"
  runs first validate --wide "$1"; wants "a name that is shown as $2: an END put in" 0 "$2: 1 END put in" << END
load file 1 hunks 4 bytes
END
  runs first show --hex "$1"; wants "a name that is shown as $2: no text" 1 "$2: $no_hex" << END
hex text refused
END
  runs first rewrite first "missing/$1"
  wants "a name that is shown as $2: not made" 3 "missing/$2: $not_there: nothing was written" << END
writing failed after 0 bytes
END
  rm "$1"
}

named "$bell" "$bell_shown"
named "$lines" "$lines_shown"
named "$c1" "$c1_shown"
named "$slash" "$slash_shown"
named "$text" "$text"
# A word that is no order is said in a text of several lines, whose ends stay.
runs first relocate --base "$bell$c1$slash"
wants_digits='eight hexadecimal digits are wanted, without 0x, as 00021000'
wants 'a word with control characters' 2 \
  "error: invalid value '$bell_shown$c1_shown$slash_shown' for '--base <HEX>': $wants_digits$try_help" << END
command line refused
END
