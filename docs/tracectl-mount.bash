# Completes the words of tracectl-mount in bash, once this file is sourced. Made of the text of tracectl-mount --help by tests/cases/helping.py.
_tracectl_mount() {
  local word=${COMP_WORDS[COMP_CWORD]} before=${COMP_WORDS[COMP_CWORD - 1]}
  COMPREPLY=()
  if [[ " ${COMP_WORDS[*]:1:COMP_CWORD - 1} " = *' -- '* ]]; then # a command and its words
    if [[ $before = -- ]]; then mapfile -t COMPREPLY < <(compgen -c -- "$word"); else mapfile -t COMPREPLY < <(compgen -f -- "$word"); fi
    return
  fi
  case $before in
    --cpus | --pages | --page-bytes | --mode | --uid | --gid | --until) return ;;
    --replay | --record)
      mapfile -t COMPREPLY < <(compgen -f -- "$word")
      return
      ;;
  esac
  if [[ $word = -* ]]; then
    mapfile -t COMPREPLY < <(compgen -W '--over --replay --cpus --pages --page-bytes --allow-other --mode --uid --gid --record --until --any-version -f -h --help -V --version' -- "$word")
  else
    mapfile -t COMPREPLY < <(compgen -d -- "$word")
  fi
}
complete -o filenames -F _tracectl_mount tracectl-mount ./tracectl-mount
