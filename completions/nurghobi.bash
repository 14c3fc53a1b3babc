# shellcheck shell=bash
# Completes the words of nurghobi in bash: source it, or put it where bash looks for completions.

# _nurghobi_files: names of files and folders that begin with the word in work
_nurghobi_files() {
  local name
  compopt -o filenames
  while IFS= read -r name; do
    COMPREPLY+=("$name")
  done < <(compgen -f -- "$1")
}

# _nurghobi_words WORD..: those of the words that begin with the word in work
_nurghobi_words() {
  local name word=$1
  shift
  while IFS= read -r name; do
    COMPREPLY+=("$name")
  done < <(compgen -W "$*" -- "$word")
}

_nurghobi() {
  local word=${COMP_WORDS[COMP_CWORD]}
  COMPREPLY=()
  if [ "$COMP_CWORD" -eq 1 ]; then
    _nurghobi_words "$word" run check make provision cert
    return
  fi
  case ${COMP_WORDS[1]}:$COMP_CWORD in
    run:[2-6] | check:[2-5] | make:[23] | provision:[23] | cert:[25]) _nurghobi_files "$word" ;;
    run:7) _nurghobi_words "$word" {1..16} ;;
    cert:3) _nurghobi_words "$word" bmc-manifest bmc-capsule pch-manifest pch-capsule ;;
    *) ;;
  esac
}

complete -F _nurghobi nurghobi
