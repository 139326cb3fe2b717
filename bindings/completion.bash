# Completion for bash of `intaglio` and `intaglio_dict`: kinds and commands, options as the program's --help has them, and files.

# The words of a help text that stand first in the rows below a heading.
_intaglio_rows() { sed -n "/^$1:/,/^\$/{s/^  \([a-z][a-z_]*\) .*/\1/p;}"; }

_intaglio() {
  local word=${COMP_WORDS[COMP_CWORD]} previous=${COMP_WORDS[COMP_CWORD - 1]} first=1 help choices=
  COMPREPLY=()
  if [ "${1##*/}" = intaglio ]; then
    if [ "$COMP_CWORD" = 1 ]; then
      mapfile -t COMPREPLY < <(compgen -W 'text osstr bytes bstr cstr path restore dict --help' -- "$word")
      return
    fi
    [ "${COMP_WORDS[1]}" = dict ] || return
    first=2
  fi
  if [ "$COMP_CWORD" = "$first" ]; then
    help=$("${COMP_WORDS[@]:0:first}" --help 2>/dev/null)
    choices="$(_intaglio_rows Commands <<<"$help") --help --version"
  else
    help=$("${COMP_WORDS[@]:0:first + 1}" --help 2>/dev/null)
    case $previous in
      --*) choices=$(sed -n "s/^.*$previous <.*\[possible values: \(.*\)\].*/\1/p" <<<"$help" | tr -d ,) ;;
    esac
    if [ -z "$choices" ] && [ "${word:0:1}" = - ]; then choices=$(grep -o -e '--[a-z][a-z-]*' <<<"$help" | sort -u); fi
  fi
  mapfile -t COMPREPLY < <(compgen -W "$choices" -- "$word")
}

complete -o bashdefault -o default -F _intaglio intaglio intaglio_dict
