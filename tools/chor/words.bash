# Which word of a command line is wrong: sourced by tools/chor/reason. tools/chor/commands has a line for each command, its
# arguments and its options, with the least and the greatest number of each, and then how many numbers it has where these are
# more than one. Of options with a bar between them only one may be given.

say_wrong() { echo "chor: $*"; }

# The form of a command, as the help has it.
takes() {
  awk -v command="$1" '$1 == command {
    gsub(/:[0-9:]+/, "")
    sub(/--workers/, "[--workers N]"); sub(/--seed/, "[--seed S]"); sub(/--steps/, "[--steps M]"); sub(/--capacity/, "[--capacity C]"); sub(/--text/, "[--text]")
    sub(/--pair [|] --lead/, "[--pair I J | --lead J]")
    print "chor: it takes: chor " $0
  }' "$parts/commands"
}

# Whether a word is a number from the least to the greatest, without leading zeros.
is_number() { [[ $1 =~ ^(0|[1-9][0-9]*)$ ]] && [ ${#1} -le 12 ] && [ "$1" -ge "$2" ] && [ "$1" -le "$3" ]; }

# The form of an option that has numbers: "LEAST GREATEST COUNT"; "none" for one that has no number, "" for no option.
option_of() {
  local each
  for each in "${form[@]}"; do
    case $each in
      "$1":*:*:*) each=${each#*:}; echo "${each//:/ }" ;;
      "$1":*) each=${each#*:}; echo "${each/:/ } 1" ;;
      "$1") echo none ;;
    esac
  done
}

explain_words() {
  local command=${1:-} form wanted=() word
  if [ -z "$command" ]; then
    cat "$parts/help"
    return
  fi
  read -r -a form <<<"$(awk -v command="$command" '$1 == command' "$parts/commands")"
  if [ ${#form[@]} -eq 0 ]; then
    say_wrong "\`$command\` is no command"
    say_wrong "chor --help lists them"
    return
  fi
  shift
  for word in "${form[@]:1}"; do case $word in --* | "|") ;; *) wanted+=("$word") ;; esac; done
  for word in "${wanted[@]}"; do
    if [ $# -eq 0 ]; then
      say_wrong "\`chor $command\` has no ${word%%:*}"
      takes "$command"
      return
    fi
    if ! is_argument "$word" "$1"; then
      takes "$command"
      return
    fi
    shift
  done
  explain_options "$command" "$@"
  takes "$command"
}

# Whether a word can be an argument of this kind; else says why not.
is_argument() {
  local least greatest
  case $1 in
    *:*)
      IFS=: read -r _ least greatest <<<"$1"
      is_number "$2" "$least" "$greatest" || { say_wrong "\`$2\` is no number from $least to $greatest"; return 1; }
      ;;
    *)
      case $2 in
        "") say_wrong "the name of $1 is empty"; return 1 ;;
        -*) say_wrong "\`$2\` is in the place of $1: the name of a file doesn't begin with -, and options come after it"; return 1 ;;
      esac
      ;;
  esac
}

# Says which of the words after the arguments is wrong.
explain_options() {
  local command=$1 option range least greatest count seen=" "
  shift
  while [ $# -gt 0 ]; do
    option=$1
    range=$(option_of "$option")
    case $option in
      --*) [ -n "$range" ] || { say_wrong "\`chor $command\` has no option \`$option\`"; return; } ;;
      *) say_wrong "\`$option\` is one word too many"; return ;;
    esac
    case $seen in *" $option "*) say_wrong "\`$option\` is given twice"; return ;; esac
    [ "$seen" = " " ] || [[ " ${form[*]} " != *" | "* ]] || { say_wrong "\`$option\` can't be given beside \`${seen// /}\`"; return; }
    seen="$seen$option "
    shift
    [ "$range" != none ] || continue
    read -r least greatest count <<<"$range"
    for (( ; count > 0; count--)); do
      [ $# -gt 0 ] || { say_wrong "\`$option\` has no $([ "$count" = "${range##* }" ] || echo "second ")number"; return; }
      is_number "$1" "$least" "$greatest" || { say_wrong "\`$1\` after \`$option\` is no number from $least to $greatest"; return; }
      shift
    done
  done
}
