# Completions for bash: source docs/streamscope.bash
_streamscope() {
  local word=${COMP_WORDS[COMP_CWORD]} before=${COMP_WORDS[COMP_CWORD-1]} action= at
  for ((at = 1; at < COMP_CWORD; at++)); do
    case ${COMP_WORDS[at]} in check | plain | run | play | gen) action=${COMP_WORDS[at]}; break ;; esac
  done
  COMPREPLY=()
  if [ -z "$action" ]; then
    COMPREPLY=($(compgen -W 'check plain run play gen' -- "$word"))
    return
  fi
  case $before in
    --workers) COMPREPLY=($(compgen -W '1 2 3 4 5 6 7 8' -- "$word")); return ;;
    --failures | --schedule | --trace) compopt -o filenames 2>/dev/null; COMPREPLY=($(compgen -f -- "$word")); return ;;
  esac
  case $action:$word in
    run:-*) COMPREPLY=($(compgen -W '--failures --trace --workers' -- "$word")) ;;
    play:-*) COMPREPLY=($(compgen -W '--schedule' -- "$word")) ;;
    gen:*) ;;
    *) compopt -o filenames 2>/dev/null; COMPREPLY=($(compgen -f -X '!*.toml' -- "$word") $(compgen -d -- "$word")) ;;
  esac
}
complete -F _streamscope streamscope ./streamscope
