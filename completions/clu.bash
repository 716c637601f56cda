# Completion of clu's words for bash: commands, options with their values, flags and files.

# The options that the command takes, the flags after those with a value.
_clu_options() {
  case $1 in
    go) echo --steps --store --stack --peep --trace ;;
    run | exec) echo --steps --store --stack ;;
    compile) echo --peep ;;
  esac
}

# The least value of the option, the one that it has if it isn't given, and the largest.
_clu_values() {
  case $1 in
    --steps) echo 1 1000000000 1000000000000000 ;;
    --store) echo 4096 16777216 268435456 ;;
    --stack) echo 4096 1048576 67108864 ;;
  esac
}

# What the positional word is, by the command and the number of the word.
_clu_kind() {
  case $1:$2 in
    go:1 | print:1 | spec:2 | replace:2 | compile:2) echo source ;;
    go:2 | asm:[12] | exec:1 | list:1 | xref:1) echo file ;;
    spec:1 | replace:1 | compile:1 | link:1 | run:1) echo file ;;
    link:3) echo start ;;
  esac
}

_clu_files() {
  compopt -o filenames 2>/dev/null
  if [ "$1" = source ]; then
    mapfile -t COMPREPLY < <(compgen -d -- "$2"; compgen -f -X '!*.clu' -- "$2")
  else
    mapfile -t COMPREPLY < <(compgen -f -- "$2")
  fi
}

_clu_among() {
  mapfile -t COMPREPLY < <(compgen -W "$1" -- "$2")
}

_clu() {
  local current=${COMP_WORDS[COMP_CWORD]} command=${COMP_WORDS[1]-} option='' ended='' count=1 left word kind
  COMPREPLY=()
  if [ "$COMP_CWORD" -eq 1 ]; then
    _clu_among 'go spec replace compile link run exec gen list asm print xref' "$current"
    return
  fi
  left=" $(_clu_options "$command") "
  # An `=` is a word of its own, unless COMP_WORDBREAKS has none.
  for word in "${COMP_WORDS[@]:2:COMP_CWORD-2}"; do
    if [ -n "$option" ]; then
      [ "$word" = = ] || option=
    elif [ -z "$ended" ] && [ "$word" = -- ]; then
      ended=yes
    elif [ -z "$ended" ] && [[ $word == --* ]]; then
      left=${left/ ${word%%=*} / }
      [[ $word == *=* ]] || [ -z "$(_clu_values "$word")" ] || option=$word
    else
      count=$((count + 1))
    fi
  done
  if [ -n "$option" ]; then
    _clu_among "$(_clu_values "$option")" "${current#=}"
  elif [ -z "$ended" ] && [[ $current == --*=* ]]; then
    _clu_among "$(_clu_values "${current%%=*}")" "${current#*=}"
    COMPREPLY=("${COMPREPLY[@]/#/${current%%=*}=}")
  elif [ -z "$ended" ] && [[ $current == -* ]]; then
    _clu_among "$left" "$current"
  else
    kind=$(_clu_kind "$command" "$count")
    case $kind in
      start) _clu_among start_up "$current" ;;
      ?*) _clu_files "$kind" "$current" ;;
    esac
  fi
}

complete -F _clu clu
