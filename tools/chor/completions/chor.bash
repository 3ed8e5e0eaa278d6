# Completions of chor for bash: copied to share/bash-completion/completions/chor.
_chor() {
  local word=${COMP_WORDS[COMP_CWORD]} command=${COMP_WORDS[1]} rules options
  COMPREPLY=()
  if [ "$COMP_CWORD" -eq 1 ]; then
    mapfile -t COMPREPLY < <(compgen -W 'check run exec link replay order conform resume project types fmt gen explain watch --prove --help --version' -- "$word")
    return
  fi
  case $command in
    run | exec | link | order | resume)
      if [[ $word == -* ]]; then
        case $command in
          order) options='--pair --lead' ;;
          resume) options='--seed --steps' ;;
          exec) options='--workers --seed --steps --capacity' ;;
          *) options='--workers --seed --steps' ;;
        esac
        mapfile -t COMPREPLY < <(compgen -W "$options" -- "$word")
        return
      fi
      ;;
    gen)
      mapfile -t COMPREPLY < <(compgen -W '--text' -- "$word")
      return
      ;;
    explain)
      rules=$("${COMP_WORDS[0]}" explain 2>/dev/null | cut -d ' ' -f 1)
      mapfile -t COMPREPLY < <(compgen -W "$rules" -- "$word")
      return
      ;;
  esac
  compopt -o filenames 2>/dev/null
  case $command-$COMP_CWORD in
    check-* | run-* | project-* | types-* | fmt-* | watch-* | link-2 | replay-2 | order-2 | conform-2 | resume-2)
      mapfile -t COMPREPLY < <(compgen -d -- "$word"; compgen -f -X '!*.chor' -- "$word")
      ;;
    exec-* | link-3) mapfile -t COMPREPLY < <(compgen -d -- "$word"; compgen -f -X '!*.endpoints' -- "$word") ;;
    replay-3 | order-3 | conform-3 | resume-3) mapfile -t COMPREPLY < <(compgen -f -- "$word") ;;
  esac
}
complete -F _chor chor
