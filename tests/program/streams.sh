# shellcheck shell=sh disable=SC2154,SC2034
# The standard streams: with a text of several pages, where they fail, and at a terminal; a part of tests/program/run.

# ---- a text that is longer than a page of 81,920 bytes, whole, and to a file that may have so many blocks of 512 bytes

seq 20000 | head -c 75000 > content
{ bytes '000003F3 00000000 00000001 00000000 00000000 0000493E 000003E9 0000493E'; cat content; bytes 000003F2; } > long
{ echo 'hunk 0 base 0x00000000 75000 bytes'; od -An -v -tx1 -w16 content | tr -d ' ' | sed 's/^/  /'; } > text-of-long
runs first relocate --base 00000000 long; wants 'a text of three pages' 0 < text-of-long
for blocks in 1 159 160 161 319 320; do
  (trap '' XFSZ; ulimit -f $blocks; exec "$program" relocate --base 00000000 long > printed 2> complained)
  status=$?
  head -c $((512 * blocks)) text-of-long > front
  wants "a text of three pages to $blocks blocks" 3 "$too_large" < front
done
# The lines of 8,000 relocations.
{
  bytes '000003F3 00000000 00000001 00000000 00000000 00000001 000003E9 00000001 00000000 000003EC 00001F40 00000000'
  head -c 32000 /dev/zero
  bytes '00000000 000003F2'
} > many
{
  printf '%s\n' 'load file 1 hunks 4 bytes' 'hunk 0 4 bytes any' '  CODE 4 bytes' '  RELOC32 8000'
  yes '    0 0x00000000' | head -n 8000
  echo '  END'
} > list-of-many
runs first show many; wants 'a listing of two pages' 0 < list-of-many
for blocks in 159 160 161; do
  (trap '' XFSZ; ulimit -f $blocks; exec "$program" show many > printed 2> complained)
  status=$?
  head -c $((512 * blocks)) list-of-many > front
  wants "a listing of two pages to $blocks blocks" 3 "$too_large" < front
done

# ---- streams that fail

runs folder show; wants 'a folder as standard input' 3 'standard input: Is a directory (os error 21)' << END
reading failed at byte 0
END
"$program" show first > /dev/full 2> complained; status=$?
: > printed; wants 'a full standard output' 3 "$no_space" < /dev/null
# What standard error does changes nothing else.
: > complained
"$program" show missing > printed 2>&-; status=$?
wants 'standard error closed' 3 << END
reading failed at byte 0
END
"$program" show missing > printed 2> /dev/full; status=$?
wants 'standard error full' 3 << END
reading failed at byte 0
END

# ---- a person who starts the program alone is told that it reads, and nobody else is

if script -qec true /dev/null < /dev/null > typed 2>&1; then
  { cat text; printf '\004'; } | script -qec "$program > printed 2> complained" /dev/null > typed
  status=$?
  wants 'no command, at a terminal' 0 'reading hexadecimal text from the terminal, up to its end; hunkinfo --help tells more' << END
hunk 0 base 0x00000000 4 bytes
  4e754e71
END
  { cat text; printf '\004'; } | script -qec "$program show --hex > printed 2> complained" /dev/null > typed; status=$?
  wants 'a command, at a terminal' 0 << END
load file 1 hunks 4 bytes
hunk 0 4 bytes any
  CODE 4 bytes
  END
END
fi
