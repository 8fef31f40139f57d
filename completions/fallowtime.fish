# Completes the words of fallowtime for fish: files, commands, the collections of FILE, options, and kinds of refusals. The commands,
# their places and their options are those of the program's help.

# The program's help with these words, each item on one line.
function __fallowtime_help
    string replace -ra '\n {9,}' ' ' -- ($argv 2>/dev/null | string collect) | string split \n
end

# The names of the collections that a file has. A file isn't made for it, and not waited for.
function __fallowtime_collections --argument-names program file
    set file (string replace -r '^~/' "$HOME/" -- $file)
    test -f "$file"; and $program $file collections --wait 0 2>/dev/null </dev/null
end

# The options of a command, except for those that were typed, with what its help says of them.
function __fallowtime_options --argument-names program command
    for line in (__fallowtime_help $program $command --help | string replace -rf '^  (--[a-z-]+)(?: [A-Z]+)?  +(.*)$' '$1\t$2')
        contains -- (string split -f 1 \t -- $line) (commandline -opc); or echo $line
    end
end

function __fallowtime_complete
    set -l words (commandline -opc)
    set -l word (commandline -ct)
    set -l program (string replace -r '^~/' "$HOME/" -- $words[1])
    set -l before (count $words)
    if test $before -eq 1
        if string match -q -- '-*' $word
            echo --help
            __fallowtime_help $program --help | string match -r '^    fallowtime --.*' | string match -ra -- '--[a-z]+'
        else
            printf '%s\n' help version
            __fish_complete_path $word
        end
        return
    end
    if test "$words[2]" = --explain
        $program --explain 2>&1 </dev/null | string replace -rf '.*the kinds are: ' '' | string split ' '
        return
    end
    if string match -q -- '-*' $words[2]; or test "$words[2]" = version; or test "$words[2]" = help -a $before -gt 2
        return
    end
    if test $before -eq 2
        __fallowtime_help $program --help | string replace -rf '^  ([a-z][a-z-]*)(?: [\[\]A-Z ]*)?  +([a-z].*)$' '$1\t$2'
        if string match -q -- '-*' $word
            printf '%s\n' --wait --help
        end
        return
    end
    # The words of the command, as get COLL ID [--canonical | --bson]: its places, and its options behind them.
    set -l usage ($program $words[3] --help 2>/dev/null | head -n 1 | string replace -r '^.* FILE \S+ ?' '')
    set -l places (string replace -r ' *\[?--.*' '' -- $usage | string split -n ' ')
    set -l place ''
    set -l number (math $before - 2)
    test $number -le (count $places); and set place $places[$number]
    switch $place
        case COLL
            __fallowtime_collections $program $words[2]
        case PATH FILE DIR
            __fish_complete_path $word
        case '[INPUT]'
            string match -q -- '-*' $word; and __fallowtime_options $program $words[3]; or __fish_complete_path $word
        case ''
            contains -- "$words[-1]" --wait --sort --skip --limit --fields --without; or __fallowtime_options $program $words[3]
        case '[*'
            string match -q -- '-*' $word; and __fallowtime_options $program $words[3]
    end
end

complete -c fallowtime -f -a '(__fallowtime_complete)'
