# What bash completes of a command line of hunkinfo: written by packaging/completions/make.
_hunkinfo() {
  local word=${COMP_WORDS[COMP_CWORD]} before=${COMP_WORDS[COMP_CWORD - 1]} command=${COMP_WORDS[1]} words=
  [ "$COMP_CWORD" -gt 1 ] || command=
  case $command:$before in
    relocate:--base | relocate:--budget) return ;;
  esac
  case $command:$before:$word in
    :*) words='show validate relocate rewrite help --help --version' ;;
    show:*:-*) words='--hex --wide --help' ;;
    validate:*:-*) words='--hex --wide --help' ;;
    relocate:*:-*) words='--hex --wide --base --budget --help' ;;
    rewrite:*:-*) words='--strip --wide --help' ;;
    help:*) words='show validate relocate rewrite' ;;
    *)
      compopt -o filenames 2> /dev/null
      mapfile -t COMPREPLY < <(compgen -f -- "$word")
      return
      ;;
  esac
  mapfile -t COMPREPLY < <(compgen -W "$words" -- "$word")
}
complete -F _hunkinfo hunkinfo
