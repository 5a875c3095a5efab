# shellcheck shell=sh disable=SC2154,SC2034
# How far an input is read: a part of tests/program/run.

# ---- standard input is read no further than the load file goes, by a file and by a pipe

{ "$program" relocate --base 00000000 > printed 2> complained; status=$?; cat > rest; } < followed
wants 'a load file with more after it' 0 << END
hunk 0 base 0x00000000 4 bytes
  4e754e71
END
same 'what follows in a file' rest tail
cat followed | { "$program" relocate --base 00000000 > printed; cat > rest; }
same 'what follows in a pipe' rest tail

# ---- as much as may be read, 67,108,864 bytes of text and one less of a file, and one byte more

head -c 67108864 /dev/zero | tr '\0' 0 > limit
runs limit; wants 'text of as many digits as there may be' 1 "standard input: $no_hunk_file" << END
refused at byte 0: NotLoadFile (1)
END
runs first show limit; wants 'a file of a byte too many' 1 "limit: $too_long" << END
refused at byte 67108864: FileLimit (28)
END
printf 0 >> limit
runs limit; wants 'text of a digit too many, which leaves one without another' 1 "standard input: $too_long" << END
refused at byte 67108864: FileLimit (28)
END
{ cat text; head -c $((67108864 - $(wc -c < text))) /dev/zero | tr '\0' ' '; } > limit
runs limit; wants 'text with as many blanks after it as there may be' 0 << END
hunk 0 base 0x00000000 4 bytes
  4e754e71
END
printf 0 >> limit
runs first show --hex limit; wants 'text with a digit after the blanks' 1 "limit: $too_long" << END
refused at byte 67108864: FileLimit (28)
END
head -c 67108863 /dev/zero > limit
runs first show limit; wants 'a file of as many bytes as there may be' 1 "limit: $no_hunk_file" << END
refused at byte 0: NotLoadFile (1)
END
rm limit
