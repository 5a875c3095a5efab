# shellcheck shell=sh disable=SC2154,SC2034
# Words of the command line that no table has: what asks for the version, and a word that is no text; a part of tests/program/run.

version=$(cat "$top/VERSION")
logic=$(rt version | sed 's/.* \(logic .*\)/\1/')

echo "logic $(cat "$top/LOGIC")" > wanted; echo "$logic" > printed; same 'the logic of the kit' wanted printed

for asking in --version -V '-V --unknown'; do
  # shellcheck disable=SC2086
  runs first $asking; wants "$asking" 0 << END
hunkinfo $version ($logic)
END
done
runs first show "$(printf '\377')"
wants 'a word that is no text' 2 \
  'a word of the command line is no UTF-8 text: give a file of such a name as standard input, as in hunkinfo show < FILE' << END
command line refused
END
