# Completion of the words of xtc and xtc-docs, for bash: `. tools/completion.bash`, from the repository or from ~/.bashrc with the whole path.
_xtc() {
  if [ "$COMP_CWORD" = 1 ]; then
    mapfile -t COMPREPLY < <(compgen -W "run workers put get query gen" -- "$2")
  elif [[ $2 = -* ]]; then
    mapfile -t COMPREPLY < <(compgen -W "--frames --checkpoint" -- "$2")
  fi
}
complete -F _xtc xtc

_xtc_docs() {
  local command='' word options='' reading='--drop-comments --drop-instructions --drop-doctype --drop-blanks --drop-all --keep-namespaces'
  local commands='list get put replace rename drop export import select set delete append stats check backup compact shell explain'
  for word in "${COMP_WORDS[@]:1:COMP_CWORD-1}"; do
    if [[ " $commands " = *" $word "* ]]; then command=$word; break; fi
  done
  case $command in
    '') options="-C --program --version --help $commands" ;;
    get | export) options='--json --xml' ;;
    select) options='--text --xml --json' ;;
    put | replace | append) options=$reading ;;
    import) options="--replace $reading" ;;
  esac
  case $command:$3 in
    *:-C | *:--program | put:* | import:* | backup:* | export:export) mapfile -t COMPREPLY < <(compgen -f -- "$2") ;;
    get:* | replace:replace | rename:rename | drop:* | export:* | select:select | set:set | delete:delete | append:append)
      # Names of documents, where the command line so far names the store: all before the command is passed on.
      mapfile -t COMPREPLY < <(compgen -W "$("${COMP_WORDS[@]:0:$(_xtc_docs_place "$command")}" list 2>/dev/null)" -- "$2") ;;
    replace:* | append:*) mapfile -t COMPREPLY < <(compgen -f -- "$2") ;;
    *) COMPREPLY=() ;;
  esac
  if [[ $2 = -* || -z $command && $3 != -C && $3 != --program ]]; then
    mapfile -t COMPREPLY < <(compgen -W "$options" -- "$2")
  fi
}

# How many words stand before the command.
_xtc_docs_place() {
  local place=0
  while [ "$place" -lt "${#COMP_WORDS[@]}" ] && [ "${COMP_WORDS[place]}" != "$1" ]; do place=$((place + 1)); done
  echo "$place"
}
complete -o filenames -F _xtc_docs xtc-docs
