# Completion of pramolyt for bash.

# _pramolyt_options COMMAND: its options
_pramolyt_options() {
  local board='--size --from --from-virtual --buffer --view --color --log'
  case $1 in
  dis) echo --bare ;;
  asm) echo -o --output --labels ;;
  check) echo --entries ;;
  show) echo "$board" --budget --runs -o --output ;;
  trace) echo "$board" --picture --at ;;
  pack | unpack) echo -o --output ;;
  import | export) echo --size -o --output ;;
  replay) echo --keep-going --verbose --buffer -o --output ;;
  esac
  echo -h --help -V --version
}

_pramolyt() {
  local word=${COMP_WORDS[COMP_CWORD]} before=${COMP_WORDS[COMP_CWORD - 1]} words=
  COMPREPLY=()
  if [ "$COMP_CWORD" -eq 1 ]; then
    words='dis asm check show trace pack unpack import export replay -h --help -V --version'
  else
    case $before in
    --buffer) words='display virtual' ;;
    --color) words='auto always never' ;;
    --size | --view | --budget | --runs | --at | --entries)
      compopt +o default
      return
      ;;
    *) case $word in -*) words=$(_pramolyt_options "${COMP_WORDS[1]}") ;; esac ;;
    esac
  fi
  mapfile -t COMPREPLY < <(compgen -W "$words" -- "$word")
}

complete -o default -F _pramolyt pramolyt
