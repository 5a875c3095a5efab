# shellcheck shell=sh disable=SC2154,SC2034
# What the system does with the program and with files: a part of tests/program/run.

# ---- what the program needs when it runs: libraries that are there, and none of them the kit's

if command -v ldd > /dev/null; then
  ldd "$program" > needed 2> complained
  ! grep -q -e 'not found' -e "$(dirname "$(rt doc)")" needed; status=$?
  : > complained
  wants 'libraries of the system' 0 < printed
fi

# ---- the lines for file(1), where it is there

if command -v file > /dev/null; then
  bytes '000003FA 00000000' > clean.lib
  file -b -m "$top/docs/hunk.magic" first clean.o clean.lib > printed 2> complained; status=$?
  wants 'file -m docs/hunk.magic' 0 << END
AmigaDOS hunk load file, 1 hunk
AmigaDOS hunk object file
AmigaDOS hunk library
END
fi
