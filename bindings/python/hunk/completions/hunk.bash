# What bash completes of a command line of hunk: written by packaging/completions/make.
_hunk() {
  local word=${COMP_WORDS[COMP_CWORD]} before=${COMP_WORDS[COMP_CWORD - 1]} command=${COMP_WORDS[1]} words=
  [ "$COMP_CWORD" -gt 1 ] || command=
  [ "$command" != --completions ] || command=
  case $command:$before in
    size:--base | nm:--base | dump:--base | dump:--budget | map:--base | survey:--jobs | find:--extract | relocate:--base | relocate:--budget | convert:--base | edit:--memory | edit:--symbols | edit:--content | edit:--append) return ;;
  esac
  case $command:$before:$word in
    lint:--ignore:*) words='OddOffset Twice Overlap InBss OutsideTarget SymbolOutside NoEntry MemoryIgnored BadTarget OutsideHunk' ;;
    relocate:--to:*) words='text bin' ;;
    convert:--to:*) words='elf bin srec ihex' ;;
    :--completions:*) words='bash zsh fish' ;;
    :*) words='show size nm relocs dump json map validate lint explain survey find diff same relocate strip convert edit build --help --version --completions' ;;
    show:*:-*) words='--help --wide --partial' ;;
    size:*:-*) words='--help --wide --json -A --totals --base' ;;
    nm:*:-*) words='--help --wide --json --print-file-name --extern-only --numeric-sort --undefined-only --base' ;;
    relocs:*:-*) words='--help --wide --json' ;;
    dump:*:-*) words='--help --wide --base --budget --disassemble' ;;
    json:*:-*) words='--help --wide --partial --parts --lines --schema' ;;
    map:*:-*) words='--help --wide --base' ;;
    validate:*:-*) words='--help --wide --json' ;;
    lint:*:-*) words='--help --wide --json --ignore' ;;
    explain:*:-*) words='--help' ;;
    survey:*:-*) words='--help --json --csv --sha256 --same --what --resume --jobs' ;;
    find:*:-*) words='--help --wide --raw --extract' ;;
    diff:*:-*) words='--help --wide --items' ;;
    same:*:-*) words='--help' ;;
    relocate:*:-*) words='--help --wide --base --budget --to' ;;
    strip:*:-*) words='--help --wide' ;;
    convert:*:-*) words='--help --to --base --wide' ;;
    edit:*:-*) words='--help --memory --symbols --content --append --wide' ;;
    build:*:-*) words='--help' ;;
    explain:*) words='NotLoadFile IsObject Library Resident NoHunks TooManyHunks FirstHunk LastHunk BothBits Advisory Overlay Break ShortReloc NotInLoadFile Misplaced UnknownBlock SecondContent BeforeContent NoContent ContentTooLong NameWord NothingToRelocate BadTarget BadOffset ExtKind Truncated Budget FileLimit NoBase Read OutOfMemory OutsideHunk OddOffset Twice Overlap InBss OutsideTarget SymbolOutside NoEntry MemoryIgnored' ;;
    *)
      compopt -o filenames 2> /dev/null
      mapfile -t COMPREPLY < <(compgen -f -- "$word")
      return
      ;;
  esac
  mapfile -t COMPREPLY < <(compgen -W "$words" -- "$word")
}
complete -F _hunk hunk
