# Completes the words of multiverse and of the tools beside it, for bash.

_multiverse_rules='none all calls returns branches system at:'

# _multiverse_takes WORDS: completes the word by these; options that take a value get no space behind them
_multiverse_takes() {
  mapfile -t COMPREPLY < <(compgen -W "$1" -- "$word")
  [[ ${#COMPREPLY[@]} -ne 1 || ${COMPREPLY[0]} != *[=:] ]] || compopt -o nospace
}

_multiverse_files() {
  compopt -o filenames
  mapfile -t COMPREPLY < <(compgen -f -- "$word")
}

_multiverse() {
  local line=${COMP_LINE:0:COMP_POINT} word=${COMP_WORDS[COMP_CWORD]} before=${COMP_WORDS[COMP_CWORD - 1]} option=
  # bash splits --count=RULE at the equals sign
  if [[ $word == '=' ]]; then
    option=$before word=
  elif [[ $before == '=' ]]; then
    option=${COMP_WORDS[COMP_CWORD - 2]}
  fi
  case $option in
    --count) _multiverse_takes "$_multiverse_rules"; return ;;
    --edges) _multiverse_takes 'none all at:'; return ;;
    --*) _multiverse_files; return ;;
  esac
  case ${COMP_WORDS[0]##*/}:$word in
    multiverse-launch:-*) _multiverse_takes '--strict --why --foreign= --counts= --help' ;;
    multiverse-profile:-*) _multiverse_takes '--text --callgrind --lcov --drcov --html --output --symbols --multiverse --help' ;;
    multiverse-map:-* | multiverse-record:-*) _multiverse_takes --help ;;
    multiverse:*)
      if [[ $COMP_CWORD -eq 1 ]]; then
        _multiverse_takes 'rewrite trace list sample extract upgrade check assemble --help --version'
      elif [[ $word == -* && ${COMP_WORDS[1]} == rewrite ]]; then
        case $line in
          *--edges*) COMPREPLY=() ;;
          *--count*) _multiverse_takes --edges= ;;
          *) _multiverse_takes '--count= --edges=' ;;
        esac
      else
        _multiverse_files
      fi
      ;;
    *) _multiverse_files ;;
  esac
}

complete -F _multiverse multiverse multiverse-launch multiverse-map multiverse-record multiverse-profile
