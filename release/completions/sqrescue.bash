# bash completion of sqrescue, made by tools/completions of the program's help texts
_sqrescue() {
  local word=$2 before=$3 command= at options=
  [ "$word" != = ] || word=
  [ "$before" != = ] || before=${COMP_WORDS[COMP_CWORD - 2]}
  COMPREPLY=()
  for ((at = 1; at < COMP_CWORD; at++)); do
    case ${COMP_WORDS[at]} in
      show | check | rows | diff | salvage | recover | report | help)
        command=${COMP_WORDS[at]}
        break
        ;;
    esac
  done
  case $command$before in
    show--at | check--at | rows--at | salvage--at | recover--at | report--at)
      :
      return
      ;;
    diff--from)
      :
      return
      ;;
    show--page)
      :
      return
      ;;
    show--super-journal | check--super-journal | rows--super-journal | diff--super-journal | salvage--super-journal | recover--super-journal | report--super-journal)
      COMPREPLY=($(compgen -W 'present gone look' -- "$word"))
      return
      ;;
    rows--table | diff--table)
      :
      return
      ;;
    diff--to)
      :
      return
      ;;
    salvage--to | recover--to | report--to)
      compopt -o default
      return
      ;;
    show--wait | check--wait | rows--wait | diff--wait | salvage--wait | recover--wait | report--wait)
      :
      return
      ;;
  esac
  case $command in
    show) options='-v --verbose --json --at --any --large --super-journal= --wait --no-lock --page --pages --pointer-maps --log --all --commits -h --help' ;;
    check) options='-v --verbose --json --at --any --large --super-journal= --wait --no-lock --pointer-maps --deep --complete -h --help' ;;
    rows) options='-v --verbose --json --at --any --large --super-journal= --wait --no-lock --table --csv --sql --places --deleted --all -h --help' ;;
    diff) options='-v --verbose --json --from --any --large --super-journal= --wait --no-lock --to --table --commits --deleted --sql -h --help' ;;
    salvage) options='-v --verbose --json --at --any --large --super-journal= --wait --no-lock --places --to -h --help' ;;
    recover) options='-v --verbose --json --at --any --large --super-journal= --wait --no-lock --to --force -h --help' ;;
    report) options='-v --verbose --json --at --any --large --super-journal= --wait --no-lock --pointer-maps --changes --to -h --help' ;;
    '') options='-V --version -h --help' ;;
  esac
  if [ -z "$command" ] || [ "$command" = help ]; then
    [ -n "$command" ] || options+=' show check rows diff salvage recover report help'
    [ -z "$command" ] || options='show check rows diff salvage recover report help'
    COMPREPLY=($(compgen -W "$options" -- "$word"))
  elif [[ $word == -* ]]; then
    COMPREPLY=($(compgen -W "$options" -- "$word"))
    [[ ${COMPREPLY[*]} != *= ]] || compopt -o nospace
  else
    compopt -o default
  fi
}
complete -F _sqrescue sqrescue
