# Completions of armc for bash: commands, options, their values and files. Put it where bash-completion looks (install does so), or
# source it.
_armc() {
  local word=${COMP_WORDS[COMP_CWORD]} before=${COMP_WORDS[COMP_CWORD-1]} command=${COMP_WORDS[1]} words=''
  COMPREPLY=()
  # Where = separates words, it stands alone between an option and its value.
  if [ "$before" = = ]; then before=${COMP_WORDS[COMP_CWORD-2]}; fi
  if [ "$word" = = ]; then word=''; fi
  if [ "$COMP_CWORD" -eq 1 ]; then
    words='check verify show steps gen migrate back deadlock past checkall'
  else
    case $before in
      --method) words='predicates length' ;;
      --start) words='bad none' ;;
      --budget) words='1000 10000 100000 1000000' ;;
      --bound) words='0 1 2 4 8 16 32 64' ;;
      --workers) words='1 2 4 8 16' ;;
      *)
        case $command:$word in
          check:-*) words='--method --start --bound --budget --workers --report' ;;
          gen:-*) words='--workers' ;;
          back:-* | deadlock:-* | checkall:-*) words='--budget --workers' ;;
          past:-*) words='--bound --budget --workers' ;;
          check:* | verify:* | show:* | steps:* | migrate:* | back:* | deadlock:* | past:* | checkall:*)
            mapfile -t COMPREPLY < <(compgen -f -- "$word")
            compopt -o filenames 2>/dev/null
            return
            ;;
        esac
        ;;
    esac
  fi
  mapfile -t COMPREPLY < <(compgen -W "$words" -- "$word")
}
complete -F _armc armc ./armc

# The tools: their options, the values of some, and files.
_armc_tools() {
  local word=${COMP_WORDS[COMP_CWORD]} before=${COMP_WORDS[COMP_CWORD-1]} words=''
  COMPREPLY=()
  case ${1##*/}:$before in
    *:--method) words='predicates length' ;;
    *:--start) words='bad none' ;;
    armc-export:--to) words='mona openfst mata dot' ;;
    *)
      case ${1##*/}:$word in
        armc-portfolio:-*) words='--seconds --memory --jobs --budget --deadlock --but --stuck --one-order --reordered --list --first --collect --rest --from --set --program --help' ;;
        armc-coverage:-*) words='--budget --seconds --memory --jobs --method --show --set --program --help' ;;
        armc-explain:-*) words='--method --start --budget --seconds --width --svg --html --why --plain --configurations --states --set --program --help' ;;
        armc-walk:-*) words='--random --seed --letters --set --program --help' ;;
        armc-properties:-*) words='--seconds --memory --jobs --budget --certificates --set --program --help' ;;
        armc-expand:-*) words='--check --output --set --program --help' ;;
        armc-second-opinion:-*) words='--but --help' ;;
        armc-export:-*) words='--to --judge --seconds --out --parts --rules --properties --property --set --help' ;;
        armc-search-one:-*) words='--first --needs-answer --print --help' ;;
        armc-check-folder:-*) words='--program --budget --seconds --jobs --junit --html --memory --list --collect --rest --from --set --help' ;;
        *)
          mapfile -t COMPREPLY < <(compgen -f -- "$word")
          compopt -o filenames 2>/dev/null
          return
          ;;
      esac
      ;;
  esac
  mapfile -t COMPREPLY < <(compgen -W "$words" -- "$word")
}
complete -F _armc_tools armc-portfolio armc-coverage armc-explain armc-walk armc-properties armc-expand armc-second-opinion armc-export armc-search-one armc-check-folder
