#!/bin/zsh -f
# offers.zsh FOLDER WORD..: prints what zsh, by the function in FOLDER/_hunkinfo, offers for a command line of these words, of
# which the last is being typed: a line for each. The shell that is asked has a terminal of its own. Ends with status 1 where it
# does not answer.
zmodload zsh/zpty
folder=$1
shift
work=$(mktemp -d)
trap 'rm -rf $work' EXIT
: > $work/offered
cat > $work/setup << 'END'
fpath=($folder $fpath)
autoload -Uz compinit
compinit -D -u
# What calls compadd to sort out matches, and not to offer them, names an array.
compadd() {
  if [[ ${@[1,(i)(-|--)]} != *-(O|A|D)\ * ]]; then
    local -a offered
    builtin compadd -O offered "$@"
    print -rl -- $offered >> $work/offered
  fi
  builtin compadd "$@"
}
ask() {
  zle complete-word
  : > $work/answered
}
zle -N ask
bindkey '^I' ask
END
# answers FILE: whether the shell makes it, within 20 seconds; what it shows is read, so that it goes on
answers() {
  for ((tries = 0; tries < 400; tries++)); do
    while zpty -r -t asked shown; do :; done
    [[ ! -e $1 ]] || return 0
    sleep 0.05
  done
  return 1
}
# A shell in between would have the trap, too.
zpty asked exec zsh -f -i
zpty -w asked "folder=${(q)folder} work=${(q)work}; . ${(q)work}/setup; : > ${(q)work}/ready"
answers $work/ready || exit 1
zpty -n -w asked "$*"$'\t'
answers $work/answered || exit 1
grep . $work/offered
zpty -d asked
