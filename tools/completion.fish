# Completion of teco's commands, options and their values for fish.

# Is it one of these commands that is being written?
function __teco_of
    set -l words (commandline -opc)
    test (count $words) -ge 2; and contains -- $words[2] $argv
end

# The words that are no options, up to the one that is being written; "option" where -e, -f or -r names the macro.
function __teco_operands
    set -l words (commandline -opc)
    set -l is_value 0
    set -l is_behind 0
    for word in $words[3..-1]
        if test $is_value = 1
            set is_value 0
        else if test $is_behind = 1
            echo operand
        else
            switch $word
                case --
                    set is_behind 1
                case '-e*' '-f*' '-r*' '--library*' '--register*'
                    echo option
                    contains -- $word -e -f -r --library --register; and set is_value 1
                case '--*' '-?*'
                    contains -- $word $__teco_valued; and set is_value 1
                case '*'
                    echo operand
            end
        end
    end
end

# Is the word a register, the second one behind a command that takes a library?
function __teco_wants_register
    __teco_of verify check apply edit trace explain; or return
    test "$(__teco_operands)" = operand
end

function __teco_wants_name
    __teco_of verify edit test show; and test -z "$(__teco_operands)"
end

# The words behind the command that are no options, with the first one a name: edit NAME KEY=TEXT ..
function __teco_wants_text
    __teco_of edit; and contains -- operand (__teco_operands); and not contains -- option (__teco_operands)
end

function __teco_names
    teco list 2>/dev/null | string replace -r '[ :].*' ''
end

# The keys of the texts that the macros named in the line take.
function __teco_keys
    set -l words (commandline -opc)
    for row in (teco list 2>/dev/null | string replace -r ':( .*)?$' '')
        set -l parts (string split ' ' -- $row)
        contains -- $parts[1] $words[3..-1]; and string replace -r '=?$' '=' -- (string replace -r '=.*' '' -- $parts[2..-1])
    end
end

function __teco_wants_word
    __teco_of explain; and test -z "$(__teco_operands)"
end

# The registers that a library gives texts, and A, which is that of a plain macro. The library is the first file named.
function __teco_registers
    echo A
    for word in (commandline -opc)[3..-1]
        set -l path (string replace -r '^--library=' '' -- $word)
        if test -f "$path"
            LC_ALL=C grep -aoE "(\\^U|"\x15")[A-Za-z0-9]" -- $path | LC_ALL=C grep -aoE '[A-Za-z0-9]$' | sort -u
            return
        end
    end
end

function __teco_files_of_register
    set -l parts (string match -r '^(?:--set-file=)?(.=)(.*)' -- (commandline -ct))
    test (count $parts) = 3; or return
    for path in (__fish_complete_path $parts[3])
        echo $parts[2]$path
    end
end

# BEGIN of the lists that tools/completions writes
complete -c teco -n __fish_use_subcommand -x -a run -d 'Runs command strings on standard input, in files or in words'
complete -c teco -n __fish_use_subcommand -x -a verify -d 'Prints the certificate of a macro'
complete -c teco -n __fish_use_subcommand -x -a check -d 'Checks a certificate'
complete -c teco -n __fish_use_subcommand -x -a apply -d 'Edits a file by a verified macro'
complete -c teco -n __fish_use_subcommand -x -a edit -d 'Edits files in place by a verified macro'
complete -c teco -n __fish_use_subcommand -x -a trace -d 'Lists the steps of a macro on a file, and writes no file'
complete -c teco -n __fish_use_subcommand -x -a test -d 'Tries the examples in the comments of a library'
complete -c teco -n __fish_use_subcommand -x -a list -d 'Prints the names of macros'
complete -c teco -n __fish_use_subcommand -x -a show -d 'Prints a macro, or a file of TECO text, as its elements'
complete -c teco -n __fish_use_subcommand -x -a explain \
  -d 'Says what a code or a refusal means and how to mend what causes it'
complete -c teco -n __fish_use_subcommand -x -a help -d 'Print this message or the help of the given subcommand(s)'
complete -c teco -n '__fish_use_subcommand' -s h -l help -d 'Print help'
complete -c teco -n '__fish_use_subcommand' -s V -l version -d 'Print version'
complete -c teco -n '__teco_of run' -l limit -x -d 'Steps that each command string may take, 1 to 4294967295'
complete -c teco -n '__teco_of run apply edit trace' -l memory -x -d 'Bytes that each command string may type'
complete -c teco -n '__teco_of run' -l stop -d 'End with the first code'
complete -c teco -n '__teco_of run apply edit trace' -l set -x \
  -d 'Give register Q this text before the run, in the form of -e'
complete -c teco -n '__teco_of run apply edit trace' -l set-file -x -a '(__teco_files_of_register)' \
  -d 'Give register Q the bytes of a file before the run'
complete -c teco -n '__teco_of run apply edit trace test' -l exact \
  -d 'Begin with 1^X: a letter of a search finds itself alone'
complete -c teco -n '__teco_of run apply edit trace test' -l any-case -d 'Begin with 0^X, as without it'
complete -c teco -n '__teco_of run verify check apply edit trace test show explain' -l esc -x -a 'none' \
  -d 'The character that stands for ESC'
complete -c teco -n '__teco_of run' -s e -x -d 'Command strings in the readable form, with $ for ESC'
complete -c teco -n '__teco_of run verify check apply edit trace test list show explain' -s h -l help -d 'Print help'
complete -c teco -n '__teco_of verify check apply edit trace test explain' -s e -x \
  -d 'A line of the macro A, in the readable form, with $ for ESC'
complete -c teco -n '__teco_of verify check apply edit trace test explain' -s f -l library -r -F \
  -d 'A file of macros, or of one macro'
complete -c teco -n '__teco_of verify check apply edit trace test explain' -s r -l register -x -a '(__teco_registers)' \
  -d 'The register of the macro, where -e or -f is given'
complete -c teco -n '__teco_of verify' -l changes -d 'Print what each macro can change in a text, in words'
complete -c teco -n '__teco_of verify' -l json -d 'Print each verdict as an object of JSON in a line'
complete -c teco -n '__teco_of verify check apply edit trace test explain' -l rules -x -a '1 2' \
  -d 'The edition of the rules that macros are verified by: 1 or 2'
complete -c teco -n '__teco_of verify apply edit trace test explain' -l effort -x \
  -d 'Look N times as long for what shows that a macro ends'
complete -c teco -n '__teco_of check' -l json -d 'Print what the macro promises, or the refusal'
complete -c teco -n '__teco_of apply edit trace' -l arg -x \
  -d 'The argument of the macro, where its library declares one'
complete -c teco -n '__teco_of apply trace' -l pages -x -a 'first each whole' \
  -d 'The pages that are edited, which form feeds end: first'
complete -c teco -n '__teco_of apply' -l strict -d 'Leave OUT as it was where the promise does not hold'
complete -c teco -n '__teco_of apply edit' -l stats -d 'Say how many commands the runs took'
complete -c teco -n '__teco_of apply' -l json -d 'Say what --stats says as an object of JSON'
complete -c teco -n '__teco_of apply edit' -l cert -r -F -d 'Check this certificate in place of a search for one'
complete -c teco -n '__teco_of apply edit' -l keep -x -d 'Leave a file as it was whose edit would take any text (text)'
complete -c teco -n '__teco_of apply edit' -l add -x -d 'Leave a file as it was whose edit would add anything (nothing)'
complete -c teco -n '__teco_of apply edit' -l take -x \
  -d 'Leave a file as it was whose edit would take others than these (only=CHARACTERS)'
complete -c teco -n '__teco_of apply edit' -l most -x -d 'Leave a file as it was whose edit would change more lines'
complete -c teco -n '__teco_of apply edit' -s q -l quiet -d 'Say nothing but what fails or is refused'
complete -c teco -n '__teco_of edit' -l pages -x -a 'first each whole' \
  -d 'The pages that are edited, which form feeds end: whole'
complete -c teco -n '__teco_of edit' -l strict -d 'Leave a file as it was where the promise does not hold for it'
complete -c teco -n '__teco_of edit trace' -l beyond-promise -d 'Run the macro also where its promise does not hold'
complete -c teco -n '__teco_of edit' -l tested -d 'Try the examples of the library first'
complete -c teco -n '__teco_of edit' -l dry-run -d 'Print the names of the files that would change, one a line'
complete -c teco -n '__teco_of edit' -l check -d 'As --dry-run, and end with status 1 if a file would change'
complete -c teco -n '__teco_of edit' -s 0 -l null -d 'End each name that --dry-run or --check prints'
complete -c teco -n '__teco_of edit' -l json -d 'Print an object of JSON for each file, in a line'
complete -c teco -n '__teco_of edit' -l diff -d 'Print what changes, as diff -u does'
complete -c teco -n '__teco_of edit test' -l color -x -a 'always never auto' \
  -d 'Colours of --diff: always, never, or auto'
complete -c teco -n '__teco_of edit' -l files-from -r -F -d 'Edit the files that this file names too, one a line'
complete -c teco -n '__teco_of edit' -l recursive -d 'Edit the files of folders and of those in them'
complete -c teco -n '__teco_of edit' -l include -x -d 'Of folders, edit the files whose names are of this pattern alone'
complete -c teco -n '__teco_of edit' -l exclude -x \
  -d 'Of folders, leave out the files and folders whose names are of this pattern'
complete -c teco -n '__teco_of edit' -l binary -d 'Edit files too that have a NUL near their beginning'
complete -c teco -n '__teco_of edit' -l backup -x -d 'Keep each file that changes as it was'
complete -c teco -n '__teco_of edit' -l force-backup \
  -d 'Let --backup take the place of files that have the names of backups'
complete -c teco -n '__teco_of edit' -l durable -d 'Send each file to the disk before it takes its name'
complete -c teco -n '__teco_of edit' -l with-names \
  -d 'Begin each line that is typed over a file with the file'\''s name'
complete -c teco -n '__teco_of edit' -l no-names -d 'Type lines without the names of files'
complete -c teco -n '__teco_of trace' -l limit -x -d 'Steps that are listed at most'
complete -c teco -n '__teco_of test' -l fuzz -d 'Run the macro on short texts of what it looks for'
complete -c teco -n '__teco_of test explain' -l json -d 'Print an object of JSON in each line'
complete -c teco -n '__teco_of show' -l source -d 'Print a source that reads as the same bytes: readable'
set -g __teco_valued --limit --memory --set --set-file --esc -e -f --library -r --register --rules --effort --arg \
  --pages --cert --keep --add --take --most --color --files-from --include --exclude --backup
set -g __teco_words ARG NAC NCA DIV POP DTB IIA ILL IQN ICE SRH TAG SNI BNI PES UTC UTM NFI NFO YCA OFO FUL LIM MEM \
  FNF INP OUT X1 X2 X3 X4 X5 X6 X7 X8 X9 X10 X11 X12 X13 X14 X15 X16 X17 X18 ESC B Z H A C R J L I TAB D K T V '^A' \
  '^T' Q U '^U' X G M '^S' '^Y' S FS '^X' O N FN Y P PW ER EW EC EF EK EX
# END of the lists

complete -c teco -n '__teco_wants_word' -a '$__teco_words'
complete -c teco -n '__teco_wants_name' -a '(__teco_names)'
complete -c teco -n '__teco_wants_text' -a '(__teco_keys)'
complete -c teco -n '__teco_wants_register' -x -a '(__teco_registers)'
complete -c teco -n '__teco_of help' -x -a 'run verify check apply edit trace test list show explain'
