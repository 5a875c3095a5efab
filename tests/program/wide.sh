# shellcheck shell=sh disable=SC2154,SC2034
# Other spellings, with --wide, of pipes and of files that fail; a part of tests/program/run.

one='000003F3 00000000 00000001 00000000 00000000 00000001'
eight='000003F3 00000000 00000001 00000000 00000000 00000002 000003E9 00000002 00000000 4E754E75'
bytes "$eight 000003EC 00000001 00000000 00000000 00000000 000003F2" > plain-stays
bytes "$eight 000003FC 00010000 00000000 000003F2" > short-even
bytes "$one 000003EB 00000001 000003FC 00010000 00" > cut-in-a-short-block
cat > listed << END
load file 1 hunks 8 bytes
hunk 0 8 bytes any
  CODE 8 bytes
  RELOC32 1
    0 0x00000000
  END
END
mkfifo wide-pipe
cat short-even > wide-pipe &
runs first show --wide wide-pipe; wants 'short relocations of a pipe' 0 'wide-pipe: 1 block of short relocations' < listed
# A pipe gives its bytes once, so it is opened once: a second opening would wait for a writer.
cat short-even > wide-pipe &
timeout 60 "$program" rewrite --wide wide-pipe out > printed 2> complained; status=$?
wants 'short relocations of a pipe, rewritten' 0 'wide-pipe: 1 block of short relocations' << END
wrote 64 bytes
END
same 'OUT of a pipe' out plain-stays
cat cut-in-a-short-block > wide-pipe &
timeout 60 "$program" rewrite --wide wide-pipe out > printed 2> complained; status=$?
wants 'a refused pipe, rewritten' 1 "wide-pipe: 1 block of short relocations
hunkinfo: wide-pipe: damaged in hunk 0: the input ends too soon; out was not touched" << END
refused at byte 40: Truncated (26)
END
# A first reading that fails ends the run, where calls can be made to fail.
if strace -o /dev/null true 2> complained; then
  broken='Input/output error (os error 5)'
  for command in show validate 'relocate --base 00000000'; do
    # shellcheck disable=SC2086
    strace --quiet=path-resolution -o /dev/null -P first -e inject=read:error=EIO:when=1 "$program" $command --wide first > printed 2> complained
    status=$?
    wants "a first reading that fails, $command" 3 "first: $broken" << END
reading failed at byte 0
END
    # shellcheck disable=SC2086
    strace --quiet=path-resolution -o /dev/null -P first -e inject=openat:error=EIO:when=1 "$program" $command --wide first > printed 2> complained
    status=$?
    wants "a first opening that fails, $command" 3 "first: $broken" << END
reading failed at byte 0
END
  done
  cp first out; cp out old
  strace --quiet=path-resolution -o /dev/null -P first -e inject=read:error=EIO:when=1 "$program" rewrite --wide first out > printed 2> complained
  status=$?
  wants 'a first reading that fails, rewrite' 3 "first: $broken; out was not touched" << END
reading failed at byte 0
END
  same 'OUT after it' out old
fi
