# bash completion of sqcrash, made by tools/completions of the program's help texts
_sqcrash() {
  local word=$2 before=$3 command= at options=
  [ "$word" != = ] || word=
  [ "$before" != = ] || before=${COMP_WORDS[COMP_CWORD - 2]}
  COMPREPLY=()
  case $command$before in
    --commits)
      COMPREPLY=($(compgen -W 'marks calls' -- "$word"))
      return
      ;;
    --image)
      :
      return
      ;;
    --images)
      :
      return
      ;;
    --keep)
      compopt -o dirnames
      return
      ;;
    --lines)
      :
      return
      ;;
    --meta)
      COMPREPLY=($(compgen -W 'parts whole ordered' -- "$word"))
      return
      ;;
    --part)
      :
      return
      ;;
    --point)
      :
      return
      ;;
    --promise)
      COMPREPLY=($(compgen -W 'full last ordered none' -- "$word"))
      return
      ;;
    --sector)
      COMPREPLY=($(compgen -W '512 4096' -- "$word"))
      return
      ;;
    --seed)
      :
      return
      ;;
  esac
  case $command in
    '') options='-V --version --sector --tears --meta --images --seed --every --promise --commits --why --shrink --part --lines --point --image --json --time --keep -h --help' ;;
  esac
  if [[ $word == -* ]]; then
    COMPREPLY=($(compgen -W "$options" -- "$word"))
    [[ ${COMPREPLY[*]} != *= ]] || compopt -o nospace
  else
    compopt -o default
  fi
}
complete -F _sqcrash sqcrash
