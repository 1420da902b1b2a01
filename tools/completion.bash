# Completion of teco's commands, options and their values for bash.

# BEGIN of the lists that tools/completions writes
_teco_commands="run verify check apply edit trace test list show explain help"
_teco_general="-h --help -V --version"
_teco_valued="--limit --memory --set --set-file --esc -e -f --library -r --register --rules --effort --arg --pages
  --cert --keep --add --take --most --color --files-from --include --exclude --backup"
_teco_words="ARG NAC NCA DIV POP DTB IIA ILL IQN ICE SRH TAG SNI BNI PES UTC UTM NFI NFO YCA OFO FUL LIM MEM FNF INP
  OUT X1 X2 X3 X4 X5 X6 X7 X8 X9 X10 X11 X12 X13 X14 X15 X16 X17 X18 ESC B Z H A C R J L I TAB D K T V ^A ^T Q U ^U X G
  M ^S ^Y S FS ^X O N FN Y P PW ER EW EC EF EK EX"
_teco_options() {
  case $1 in
    run)
      echo "--limit --memory --stop --set --set-file --exact --any-case --esc -e -h --help"
      ;;
    verify)
      echo "-e -f --library -r --register --changes --json --rules --effort --esc -h --help"
      ;;
    check)
      echo "-e -f --library -r --register --json --rules --esc -h --help"
      ;;
    apply)
      echo "-e -f --library -r --register --memory --arg --set --set-file --exact --any-case --rules --effort --esc
        --pages --strict --stats --json --cert --keep --add --take --most -q --quiet -h --help"
      ;;
    edit)
      echo "-e -f --library -r --register --memory --arg --set --set-file --exact --any-case --rules --effort --esc
        --pages --strict --beyond-promise --stats --cert --tested --dry-run --check -0 --null --json --keep --add
        --take --most --diff --color --files-from --recursive --include --exclude --binary --backup --force-backup
        --durable --with-names --no-names -q --quiet -h --help"
      ;;
    trace)
      echo "-e -f --library -r --register --limit --memory --arg --set --set-file --exact --any-case --rules --effort
        --esc --pages --beyond-promise -h --help"
      ;;
    test)
      echo "-e -f --library -r --register --fuzz --exact --any-case --color --json --rules --effort --esc -h --help"
      ;;
    list)
      echo "-h --help"
      ;;
    show)
      echo "--source --esc -h --help"
      ;;
    explain)
      echo "-e -f --library -r --register --json --rules --effort --esc -h --help"
      ;;
  esac
}
_teco_values() {
  case $1 in
    --rules) echo "1 2" ;;
    --pages) echo "first each whole" ;;
    --color) echo "always never auto" ;;
    --esc) echo "none" ;;
  esac
}
# END of the lists

# The registers that a library gives texts, and A, which is that of a plain macro.
_teco_registers() {
  {
    echo A
    LC_ALL=C grep -aoE "(\\^U|"$'\025'")[A-Za-z0-9]" -- "$1" 2>/dev/null | LC_ALL=C grep -aoE '[A-Za-z0-9]$'
  } | sort -u
}

# The names of macros, and the keys of the texts that one takes.
_teco_names() {
  teco list 2>/dev/null | sed 's/[ :].*//'
}
_teco_keys() {
  teco list 2>/dev/null | awk -v name="$1" '$1 == name { for (at = 2; at <= NF; at++) {
    key = $at; sub(/[=:].*/, "", key); print key "="; if ($at ~ /:$/) exit } }'
}
_teco_is_name() {
  [[ $1 =~ ^[A-Za-z][A-Za-z0-9_-]*$ && ! -f $1 ]]
}

# Offers the words of a list that begin with a text, behind what stands before an equals sign.
_teco_offer() {
  local before=""
  [[ $COMP_WORDBREAKS == *=* ]] || before=$3
  mapfile -t COMPREPLY < <(compgen -P "$before" -W "$1" -- "$2")
}

_teco_offer_files() {
  local before=""
  [[ $COMP_WORDBREAKS == *=* ]] || before=$2
  mapfile -t COMPREPLY < <(compgen -P "$before" -f -- "$1")
}

# Offers the values of an option.
_teco_offer_values() {
  local option=$1 current=$2 before=$3 values
  values=$(_teco_values "$option")
  if [ -n "$values" ]; then
    _teco_offer "$values" "$current" "$before"
    return
  fi
  case $option in
    --library | -f | --cert | --files-from) _teco_offer_files "$current" "$before" ;;
    --set-file)
      if [[ $current == ?=* ]]; then
        _teco_offer_files "${current#*=}" "$before${current%%=*}="
      fi
      ;;
    --register | -r)
      if [ -n "$library" ]; then
        _teco_offer "$(_teco_registers "$library")" "$current" "$before"
      fi
      ;;
  esac
}

_teco() {
  COMPREPLY=()
  # Bash cuts --rules=2 and Q=PATH at the equals sign: put the pieces together.
  local -a words=()
  local word
  for word in "${COMP_WORDS[@]:0:COMP_CWORD+1}"; do
    if [ ${#words[@]} -gt 1 ] && [[ $word == = || ${words[-1]} == *= ]]; then
      words[-1]+=$word
    else
      words+=("$word")
    fi
  done
  local current=${words[-1]} command=${words[1]}
  if [ ${#words[@]} -le 2 ]; then
    _teco_offer "$_teco_commands $_teco_general" "$current"
    return
  fi
  # What stands before the word: an option that waits for its value, a library by an option, other words.
  local open="" library="" by_option="" only_words="" count=0 first=""
  for word in "${words[@]:2:${#words[@]}-3}"; do
    if [ -n "$open" ]; then
      case $open in --library | -f) library=$word ;; esac
      open=""
    elif [ -n "$only_words" ] || [[ $word == - || $word != -* ]]; then
      count=$((count + 1))
      [ -n "$first" ] || first=$word
    elif [ "$word" = -- ]; then
      only_words=1
    else
      case $word in
        -e* | -f* | -r* | --library* | --register*) by_option=1 ;;
      esac
      case $word in --library=*) library=${word#*=} ;; esac
      [[ " ${_teco_valued//$'\n'/} " != *" $word "* ]] || open=$word
    fi
  done
  if [ -n "$open" ]; then
    _teco_offer_values "$open" "$current" ""
  elif [ -z "$only_words" ] && [[ $current == --*=* ]]; then
    _teco_offer_values "${current%%=*}" "${current#*=}" "${current%%=*}="
  elif [ -z "$only_words" ] && [[ $current == -* ]]; then
    _teco_offer "$(_teco_options "$command")" "$current"
  else
    _teco_offer_operand
  fi
}

# Offers what may stand in the place of a word that is no option.
_teco_offer_operand() {
  case $command in
    help)
      _teco_offer "$_teco_commands" "$current"
      return
      ;;
    explain)
      if [ "$count" -eq 0 ] && [ -z "$by_option" ]; then
        mapfile -t COMPREPLY < <(compgen -f -- "$current"; compgen -W "$_teco_words" -- "$current")
        return
      fi
      ;;
  esac
  case $command in
    verify | edit | test | show)
      if [ "$count" -eq 0 ] && [ -z "$by_option" ]; then
        mapfile -t COMPREPLY < <(compgen -f -- "$current"; compgen -W "$(_teco_names)" -- "$current")
        return
      fi
      if [ "$command" = edit ] && [ -z "$by_option" ] && _teco_is_name "$first"; then
        mapfile -t COMPREPLY < <(compgen -f -- "$current"; compgen -W "$(_teco_keys "$first")" -- "$current")
        [[ ${COMPREPLY[*]} != *= ]] || compopt -o nospace 2>/dev/null
        return
      fi
      ;;
  esac
  case $command in
    verify | check | apply | edit | trace | explain)
      if [ "$count" -eq 1 ] && [ -z "$by_option" ]; then
        _teco_offer "$(_teco_registers "$first")" "$current"
        return
      fi
      ;;
  esac
  _teco_offer_files "$current"
}
complete -o filenames -F _teco teco
