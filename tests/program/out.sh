# shellcheck shell=sh disable=SC2154,SC2034
# What becomes of OUT: a part of tests/program/run.

# ---- what it has after a run, and where it is left as it was

cp first before
echo 'an old file that is longer than the one that takes its place, and is not there any more' > out
symbols='left out: 20 bytes of NAME, SYMBOL, DEBUG and ADVISORY blocks'
runs second rewrite /dev/stdin out; wants 'rewrite of standard input' 0 << END
wrote 44 bytes
END
same 'OUT of standard input' out second
echo 'an old file' > out
cp out old
runs second rewrite folder out; wants 'rewrite of a folder' 3 'folder: Is a directory (os error 21); out was not touched' << END
reading failed at byte 0
END
same 'OUT where IN is a folder' out old
runs second rewrite first /dev/full
wants 'a full disk' 3 '/dev/full: No space left on device (os error 28): nothing was written' << END
writing failed after 0 bytes
END
runs second rewrite first folder
wants 'a folder as OUT' 3 'folder: Is a directory (os error 21): nothing was written' << END
writing failed after 0 bytes
END
# A file that was opened is empty where it takes nothing.
cp old out
(trap '' XFSZ; ulimit -f 0; exec "$program" rewrite first out 2>&1) | cat > printed
printf '%s\n' 'writing failed after 0 bytes' 'hunkinfo: out: File too large (os error 27): nothing was written' > both
same 'an OUT that takes nothing' printed both
same 'what such an OUT has' out /dev/null
# A pipe has nothing to keep, which is no failure; nor has a terminal or /dev/null.
mkfifo pipe
timeout 60 cat pipe > out &
runs second rewrite first pipe; wait; wants 'a pipe as OUT' 0 << END
wrote 40 bytes
END
same 'what went through a pipe' out first
runs second rewrite first /dev/null; wants '/dev/null as OUT' 0 << END
wrote 40 bytes
END
{ cat first; echo 'wrote 40 bytes'; } > both
"$program" rewrite first /dev/stdout 2> complained | cat > printed; status=0
wants 'standard output as OUT, a pipe' 0 < both
# A disk that tells of its failure when it is asked to keep what it took, where calls can be made to fail.
if strace -o /dev/null true 2> complained; then
  strace -o /dev/null -e inject=fsync:error=EIO "$program" rewrite first out > printed 2> complained; status=$?
  wants 'a disk that does not keep OUT' 3 'out: Input/output error (os error 5): the first 40 bytes of it are written' << END
writing failed after 40 bytes
END
  strace -o /dev/null -e inject=fsync:error=EDQUOT "$program" rewrite first out > printed 2> complained
  status=$?
  wants 'a quota that is told of at the end' 3 'out: Disk quota exceeded (os error 122): the first 40 bytes of it are written' << END
writing failed after 40 bytes
END
fi

# ---- standard output as OUT: a file is not written to twice, and anything else is

taken='standard output goes there: nothing was written'
ln -s mixed linked
for name in /dev/stdout /dev/fd/1 /proc/self/fd/1 mixed linked; do
  "$program" rewrite first "$name" > mixed 2> complained; status=$?
  cp mixed printed
  wants "standard output as OUT, a file, by $name" 3 "$name: $taken" << END
writing failed after 0 bytes
END
done
echo 'a line before' > mixed
"$program" rewrite first mixed >> mixed 2> complained; status=$?
cp mixed printed
wants 'standard output as OUT, a file that is appended to' 3 "mixed: $taken" << END
a line before
writing failed after 0 bytes
END
"$program" rewrite short mixed > mixed 2> complained; status=$?
cp mixed printed
wants 'standard output as OUT, where IN is refused' 1 "short: $cut; mixed was not touched" << END
refused at byte 36: Truncated (26)
END
rm -f out
for _ in made overwritten; do
  "$program" rewrite first out > mixed 2> complained; status=$?
  cp mixed printed
  wants 'OUT beside a standard output that is a file' 0 << END
wrote 40 bytes
END
  same 'OUT beside such a standard output' out first
done
"$program" rewrite first /dev/null > /dev/null 2> complained; status=$?
: > printed; wants 'standard output as OUT, /dev/null' 0 < /dev/null

# ---- standard error as OUT: what is said there never takes the place of what is written

heard='standard error goes there: nothing was written'
rm -f linked
: > mixed
ln -s mixed linked
ln mixed other
for name in /dev/stderr /dev/fd/2 /proc/self/fd/2 mixed linked other; do
  "$program" rewrite --strip symbol "$name" 2> mixed > printed; status=$?
  cp mixed complained
  wants "standard error as OUT, a file, by $name" 3 "$name: $heard" << END
writing failed after 0 bytes
END
  "$program" rewrite first "$name" > mixed 2>&1; status=$?
  printf '%s\n' 'writing failed after 0 bytes' "hunkinfo: $name: $taken" > both
  cp mixed printed
  : > complained
  wants "both streams as OUT, a file, by $name" 3 < both
done
printf '%s\n' 'a line before' > mixed
"$program" rewrite first mixed 2>> mixed > printed; status=$?
printf '%s\n' 'a line before' "hunkinfo: mixed: $heard" > both
same 'standard error as OUT, a file that is appended to' mixed both
cp first itself
"$program" rewrite itself itself 2>> itself > printed; status=$?
{ cat first; echo "hunkinfo: itself: $heard"; } > both
same 'standard error as OUT, and as IN' itself both
: > complained
wants 'standard error as OUT, and as IN' 3 << END
writing failed after 0 bytes
END
"$program" rewrite --strip symbol out 2> mixed > printed; status=$?
cp mixed complained
wants 'OUT beside a standard error that is a file' 0 "symbol: $symbols" << END
wrote 40 bytes
END
same 'OUT beside such a standard error' out first
{ "$program" rewrite first /dev/stderr 2>&1 > printed; } | cat > mixed; status=0
: > complained
same 'standard error as OUT, a pipe' mixed first
