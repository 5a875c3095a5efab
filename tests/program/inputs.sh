# shellcheck shell=sh disable=SC2154,SC2034
# The files that several parts of tests/program/run have the program read, and what it says of them.

# bytes HEX: the bytes of hexadecimal digits with spaces between them
bytes() {
  for byte in $(printf %s "$1" | tr -d ' ' | fold -w 2); do
    # shellcheck disable=SC2059
    printf "\\$(printf %03o "0x$byte")"
  done
}

# A load file of one hunk, whose code is 4E754E71, and one of two longwords; the text of the first; an object file in which
# nothing is found; and the first with a symbol.
first='000003F3 00000000 00000001 00000000 00000000 00000001 000003E9 00000001 4E754E71 000003F2'
bytes "$first" > first
bytes '000003F3 00000000 00000001 00000000 00000000 00000002 000003E9 00000002 4E714E71 4E714E75 000003F2' > second
printf '%s\n' "$first" > text
bytes '000003E7 00000000 000003E9 00000001 4E754E71 000003F2' > clean.o
bytes "${first% *} 000003F0 00000001 5F6D0000 00000000 00000000 000003F2" > symbol
head -c 39 first > short
cat first - > followed << END
what follows
END
tail -c 13 followed > tail
mkdir folder

# What is said of an input.
no_hunk_file='no hunk file: the first longword is not 3F3'
too_long='as many bytes as may be read were read, and the file had not ended'
cut='damaged in hunk 0: the input ends too soon; --wide reads it, if only the last END is missing'
no_hex='no hexadecimal text: two digits a byte are wanted, and nothing else but spaces, tabs and line ends'
not_there='No such file or directory (os error 2)'
try_help="

For more information, try '--help'."
too_large='standard output: File too large (os error 27)'
no_space='standard output: No space left on device (os error 28)'
