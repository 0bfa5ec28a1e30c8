# Completes the words of tracectl in bash, once this file is sourced. Made of the text of tracectl --help by tests/cases/helping.py.
_tracectl() {
  local word=${COMP_WORDS[COMP_CWORD]} before=${COMP_WORDS[COMP_CWORD - 1]}
  COMPREPLY=()
  case $before in
    --cpus | --pages | --page-bytes | -c) return ;;
  esac
  if [[ $word = -* ]]; then
    mapfile -t COMPREPLY < <(compgen -W '--cpus --pages --page-bytes --explain --bars --list -c -h --help -V --version' -- "$word")
  else
    mapfile -t COMPREPLY < <(compgen -f -- "$word")
  fi
}
complete -o filenames -F _tracectl tracectl ./tracectl
