#compdef teco
# Completion of teco's commands, options and their values for zsh; installed as _teco.

# BEGIN of the lists that tools/completions writes
_teco_lists() {
  _teco_commands=(
    'run:Runs command strings on standard input, in files or in words'
    'verify:Prints the certificate of a macro'
    'check:Checks a certificate'
    'apply:Edits a file by a verified macro'
    'edit:Edits files in place by a verified macro'
    'trace:Lists the steps of a macro on a file, and writes no file'
    'test:Tries the examples in the comments of a library'
    'list:Prints the names of macros'
    'show:Prints a macro, or a file of TECO text, as its elements'
    'explain:Says what a code or a refusal means and how to mend what causes it'
    'help:Print this message or the help of the given subcommand(s)'
  )
  _teco_words=(ARG NAC NCA DIV POP DTB IIA ILL IQN ICE SRH TAG SNI BNI PES UTC UTM NFI NFO YCA OFO FUL LIM MEM FNF INP
    OUT X1 X2 X3 X4 X5 X6 X7 X8 X9 X10 X11 X12 X13 X14 X15 X16 X17 X18 ESC B Z H A C R J L I TAB D K T V '^A' '^T' Q U
    '^U' X G M '^S' '^Y' S FS '^X' O N FN Y P PW ER EW EC EF EK EX)
}
_teco_options() {
  case $1 in
    run)
      options=(
        '--limit=[Steps that each command string may take, 1 to 4294967295]:N: '
        '--memory=[Bytes that each command string may type]:BYTES: '
        '--stop[End with the first code]'
        '*--set=[Give register Q this text before the run, in the form of -e]:Q=TEXT: '
        '*--set-file=[Give register Q the bytes of a file before the run]:Q=PATH:_teco_file_of_register'
        '--exact[Begin with 1^X\: a letter of a search finds itself alone]'
        '--any-case[Begin with 0^X, as without it]'
        '--esc=[The character that stands for ESC]:C:(none)'
        '*-e[Command strings in the readable form, with $ for ESC]:TEXT: '
        '(-h --help)'{-h,--help}'[Print help]'
      )
      ;;
    verify)
      options=(
        '*-e[A line of the macro A, in the readable form, with $ for ESC]:TEXT: '
        '(-f --library)'{-f,--library=}'[A file of macros, or of one macro]:LIB:_files'
        '(-r --register)'{-r,--register=}'[The register of the macro, where -e or -f is given]:REGISTER:_teco_registers'
        '--changes[Print what each macro can change in a text, in words]'
        '--json[Print each verdict as an object of JSON in a line]'
        '--rules=[The edition of the rules that macros are verified by\: 1 or 2]:N:(1 2)'
        '--effort=[Look N times as long for what shows that a macro ends]:N: '
        '--esc=[The character that stands for ESC]:C:(none)'
        '(-h --help)'{-h,--help}'[Print help]'
      )
      ;;
    check)
      options=(
        '*-e[A line of the macro A, in the readable form, with $ for ESC]:TEXT: '
        '(-f --library)'{-f,--library=}'[A file of macros, or of one macro]:LIB:_files'
        '(-r --register)'{-r,--register=}'[The register of the macro, where -e or -f is given]:REGISTER:_teco_registers'
        '--json[Print what the macro promises, or the refusal]'
        '--rules=[The edition of the rules that macros are verified by\: 1 or 2]:N:(1 2)'
        '--esc=[The character that stands for ESC]:C:(none)'
        '(-h --help)'{-h,--help}'[Print help]'
      )
      ;;
    apply)
      options=(
        '*-e[A line of the macro A, in the readable form, with $ for ESC]:TEXT: '
        '(-f --library)'{-f,--library=}'[A file of macros, or of one macro]:LIB:_files'
        '(-r --register)'{-r,--register=}'[The register of the macro, where -e or -f is given]:REGISTER:_teco_registers'
        '--memory=[Bytes that each command string may type]:BYTES: '
        '--arg=[The argument of the macro, where its library declares one]:N: '
        '*--set=[Give register Q this text before the run, in the form of -e]:Q=TEXT: '
        '*--set-file=[Give register Q the bytes of a file before the run]:Q=PATH:_teco_file_of_register'
        '--exact[Begin with 1^X\: a letter of a search finds itself alone]'
        '--any-case[Begin with 0^X, as without it]'
        '--rules=[The edition of the rules that macros are verified by\: 1 or 2]:N:(1 2)'
        '--effort=[Look N times as long for what shows that a macro ends]:N: '
        '--esc=[The character that stands for ESC]:C:(none)'
        '--pages=[The pages that are edited, which form feeds end\: first]:WHICH:(first each whole)'
        '--strict[Leave OUT as it was where the promise does not hold]'
        '--stats[Say how many commands the runs took]'
        '--json[Say what --stats says as an object of JSON]'
        '--cert=[Check this certificate in place of a search for one]:CERT:_files'
        '--keep=[Leave a file as it was whose edit would take any text (text)]:WHAT: '
        '--add=[Leave a file as it was whose edit would add anything (nothing)]:WHAT: '
        '--take=[Leave a file as it was whose edit would take others than these (only=CHARACTERS)]:WHAT: '
        '--most=[Leave a file as it was whose edit would change more lines]:LINES: '
        '(-q --quiet)'{-q,--quiet}'[Say nothing but what fails or is refused]'
        '(-h --help)'{-h,--help}'[Print help]'
      )
      ;;
    edit)
      options=(
        '*-e[A line of the macro A, in the readable form, with $ for ESC]:TEXT: '
        '(-f --library)'{-f,--library=}'[A file of macros, or of one macro]:LIB:_files'
        '(-r --register)'{-r,--register=}'[The register of the macro, where -e or -f is given]:REGISTER:_teco_registers'
        '--memory=[Bytes that each command string may type]:BYTES: '
        '--arg=[The argument of the macro, where its library declares one]:N: '
        '*--set=[Give register Q this text before the run, in the form of -e]:Q=TEXT: '
        '*--set-file=[Give register Q the bytes of a file before the run]:Q=PATH:_teco_file_of_register'
        '--exact[Begin with 1^X\: a letter of a search finds itself alone]'
        '--any-case[Begin with 0^X, as without it]'
        '--rules=[The edition of the rules that macros are verified by\: 1 or 2]:N:(1 2)'
        '--effort=[Look N times as long for what shows that a macro ends]:N: '
        '--esc=[The character that stands for ESC]:C:(none)'
        '--pages=[The pages that are edited, which form feeds end\: whole]:WHICH:(first each whole)'
        '--strict[Leave a file as it was where the promise does not hold for it]'
        '--beyond-promise[Run the macro also where its promise does not hold]'
        '--stats[Say how many commands the runs took]'
        '--cert=[Check this certificate in place of a search for one]:CERT:_files'
        '--tested[Try the examples of the library first]'
        '--dry-run[Print the names of the files that would change, one a line]'
        '--check[As --dry-run, and end with status 1 if a file would change]'
        '(-0 --null)'{-0,--null}'[End each name that --dry-run or --check prints]'
        '--json[Print an object of JSON for each file, in a line]'
        '--keep=[Leave a file as it was whose edit would take any text (text)]:WHAT: '
        '--add=[Leave a file as it was whose edit would add anything (nothing)]:WHAT: '
        '--take=[Leave a file as it was whose edit would take others than these (only=CHARACTERS)]:WHAT: '
        '--most=[Leave a file as it was whose edit would change more lines]:LINES: '
        '--diff[Print what changes, as diff -u does]'
        '--color=[Colours of --diff\: always, never, or auto]:WHEN:(always never auto)'
        '--files-from=[Edit the files that this file names too, one a line]:LIST:_files'
        '--recursive[Edit the files of folders and of those in them]'
        '*--include=[Of folders, edit the files whose names are of this pattern alone]:PATTERN: '
        '*--exclude=[Of folders, leave out the files and folders whose names are of this pattern]:PATTERN: '
        '--binary[Edit files too that have a NUL near their beginning]'
        '--backup=[Keep each file that changes as it was]:SUFFIX: '
        '--force-backup[Let --backup take the place of files that have the names of backups]'
        '--durable[Send each file to the disk before it takes its name]'
        '--with-names[Begin each line that is typed over a file with the file'\''s name]'
        '--no-names[Type lines without the names of files]'
        '(-q --quiet)'{-q,--quiet}'[Say nothing but what fails or is refused]'
        '(-h --help)'{-h,--help}'[Print help]'
      )
      ;;
    trace)
      options=(
        '*-e[A line of the macro A, in the readable form, with $ for ESC]:TEXT: '
        '(-f --library)'{-f,--library=}'[A file of macros, or of one macro]:LIB:_files'
        '(-r --register)'{-r,--register=}'[The register of the macro, where -e or -f is given]:REGISTER:_teco_registers'
        '--limit=[Steps that are listed at most]:N: '
        '--memory=[Bytes that each command string may type]:BYTES: '
        '--arg=[The argument of the macro, where its library declares one]:N: '
        '*--set=[Give register Q this text before the run, in the form of -e]:Q=TEXT: '
        '*--set-file=[Give register Q the bytes of a file before the run]:Q=PATH:_teco_file_of_register'
        '--exact[Begin with 1^X\: a letter of a search finds itself alone]'
        '--any-case[Begin with 0^X, as without it]'
        '--rules=[The edition of the rules that macros are verified by\: 1 or 2]:N:(1 2)'
        '--effort=[Look N times as long for what shows that a macro ends]:N: '
        '--esc=[The character that stands for ESC]:C:(none)'
        '--pages=[The pages that are edited, which form feeds end\: first]:WHICH:(first each whole)'
        '--beyond-promise[Run the macro also where its promise does not hold]'
        '(-h --help)'{-h,--help}'[Print help]'
      )
      ;;
    test)
      options=(
        '*-e[A line of the macro A, in the readable form, with $ for ESC]:TEXT: '
        '(-f --library)'{-f,--library=}'[A file of macros, or of one macro]:LIB:_files'
        '(-r --register)'{-r,--register=}'[The register of the macro, where -e or -f is given]:REGISTER:_teco_registers'
        '--fuzz[Run the macro on short texts of what it looks for]'
        '--exact[Begin with 1^X\: a letter of a search finds itself alone]'
        '--any-case[Begin with 0^X, as without it]'
        '--color=[Colours of --diff\: always, never, or auto]:WHEN:(always never auto)'
        '--json[Print an object of JSON in each line]'
        '--rules=[The edition of the rules that macros are verified by\: 1 or 2]:N:(1 2)'
        '--effort=[Look N times as long for what shows that a macro ends]:N: '
        '--esc=[The character that stands for ESC]:C:(none)'
        '(-h --help)'{-h,--help}'[Print help]'
      )
      ;;
    list)
      options=(
        '(-h --help)'{-h,--help}'[Print help]'
      )
      ;;
    show)
      options=(
        '--source[Print a source that reads as the same bytes\: readable]'
        '--esc=[The character that stands for ESC]:C:(none)'
        '(-h --help)'{-h,--help}'[Print help]'
      )
      ;;
    explain)
      options=(
        '*-e[A line of the macro A, in the readable form, with $ for ESC]:TEXT: '
        '(-f --library)'{-f,--library=}'[A file of macros, or of one macro]:LIB:_files'
        '(-r --register)'{-r,--register=}'[The register of the macro, where -e or -f is given]:REGISTER:_teco_registers'
        '--json[Print an object of JSON in each line]'
        '--rules=[The edition of the rules that macros are verified by\: 1 or 2]:N:(1 2)'
        '--effort=[Look N times as long for what shows that a macro ends]:N: '
        '--esc=[The character that stands for ESC]:C:(none)'
        '(-h --help)'{-h,--help}'[Print help]'
      )
      ;;
    general)
      options=(
        '(-h --help)'{-h,--help}'[Print help]'
        '(-V --version)'{-V,--version}'[Print version]'
      )
      ;;
  esac
}
# END of the lists

# The registers that a library gives texts, and A, which is that of a plain macro.
_teco_registers() {
  local library=${opt_args[--library]:-${opt_args[-f]:-${line[1]}}}
  local -a names=(A)
  names+=(${(f)"$(LC_ALL=C grep -aoE "(\\^U|"$'\025'")[A-Za-z0-9]" -- ${(Q)library} 2>/dev/null |
    LC_ALL=C grep -aoE '[A-Za-z0-9]$')"})
  _wanted registers expl register compadd -a names
}

_teco_file_of_register() {
  if compset -P '?='; then
    _files
  fi
}

# The names of macros, and the keys of the texts that one takes.
_teco_name_or_file() {
  local -a names=(${(f)"$(teco list 2>/dev/null | sed 's/[ :].*//')"})
  _alternative 'names:name:compadd -a names' 'files:library:_files'
}
_teco_text_or_file() {
  local -a keys=(${(f)"$(teco list 2>/dev/null | awk -v name=${line[1]} '$1 == name { for (at = 2; at <= NF; at++) {
    key = $at; sub(/[=:].*/, "", key); print key "="; if ($at ~ /:$/) exit } }')"})
  _alternative 'texts:text:compadd -S "" -a keys' 'files:file:_files'
}
_teco_register_or_text() {
  if [[ -f ${line[1]} || ${line[1]} != [A-Za-z]* || ${line[1]} == *[^A-Za-z0-9_-]* ]]; then
    _teco_registers
  else
    _teco_text_or_file
  fi
}

_teco_word_or_file() {
  _alternative 'words:word:compadd -a _teco_words' 'files:library:_files'
}

# The words of a command that are no options, where the library is named by words and where it is by options.
_teco_operands() {
  local -a library
  case $1 in
    run) operands=('*:file:_files'); return ;;
    list) operands=(); return ;;
    show) operands=('1:name or file:_teco_name_or_file'); return ;;
    explain) library=('1:word or library:_teco_word_or_file' '2:register:_teco_registers') ;;
    edit) library=('1:name or library:_teco_name_or_file' '2:register or text:_teco_register_or_text') ;;
    verify | test) library=('1:name or library:_teco_name_or_file' '2:register:_teco_registers') ;;
    *) library=('1:library:_files' '2:register:_teco_registers') ;;
  esac
  if (( ${words[(I)(-e*|-f*|-r*|--library*|--register*)]} )); then
    library=()
  fi
  case $1 in
    check) operands=($library ':certificate:_files') ;;
    apply) operands=($library ':input:_files' ':output:_files') ;;
    edit) operands=($library '*:file:_teco_text_or_file') ;;
    trace) operands=($library ':input:_files') ;;
    *) operands=($library) ;;
  esac
}

_teco_command() {
  _describe -t commands command _teco_commands
}

_teco() {
  local -a _teco_commands _teco_words options operands line expl
  local -A opt_args
  local curcontext=$curcontext
  _teco_lists
  if (( CURRENT == 2 )); then
    _teco_options general
    _arguments -s -S $options '1:command:_teco_command'
    return
  fi
  local command=${words[2]}
  if [[ $command == help ]]; then
    _teco_command
    return
  fi
  _teco_options $command
  _teco_operands $command
  words=(teco "${(@)words[3,-1]}")
  (( CURRENT -= 1 ))
  _arguments -s -S $options $operands
}

_teco "$@"
