#compdef fallowtime
# Completes the words of fallowtime for zsh: files, commands, the collections of FILE, options, and kinds of refusals. The commands,
# their places and their options are those of the program's help.

# The program's help with these words, each item on one line.
_fallowtime_help() { $program "$@" 2>/dev/null | sed -E ':a; N; $!ba; s/\n {9,}/ /g' }

# The names of the collections that a file has. A file isn't made for it, and not waited for.
_fallowtime_collections() {
    local file=${${(Q)words[2]}/#\~\//$HOME/}
    [[ -f $file ]] || return 1
    local -a names
    names=(${(f)"$($program $file collections --wait 0 2>/dev/null </dev/null)"})
    compadd -a names
}

# The options of the command, except for those that were typed, with what its help says of them.
_fallowtime_options() {
    local -a told
    local line
    for line in ${(f)"$(print -rl -- $help | sed -nE 's/^  (--[a-z-]+)( [A-Z]+)?  +(.*)/\1:\3/p')"}; do
        (( ${words[(Ie)${line%%:*}]} )) || told+=($line)
    done
    _describe option told
}

_fallowtime() {
    local program=${${(Q)words[1]}/#\~\//$HOME/} word=${words[CURRENT]} place
    local -a help places told
    if (( CURRENT == 2 )); then
        help=(${(f)"$(_fallowtime_help --help)"})
        _files
        compadd -- help version
        [[ $word != -* ]] || compadd -- --help $(print -rl -- $help | grep '^    fallowtime --' | grep -oE -e '--[a-z]+')
    elif [[ $words[2] = --explain ]]; then
        compadd -- $($program --explain 2>&1 </dev/null | sed -n 's/.*the kinds are: //p')
    elif [[ $words[2] = (-*|version) || ( $words[2] = help && CURRENT -gt 3 ) ]]; then
        return 1
    elif (( CURRENT == 3 )); then
        help=(${(f)"$(_fallowtime_help --help)"})
        told=(${(f)"$(print -rl -- $help | sed -nE 's/^  ([a-z][a-z-]*)( [][A-Z ]*)?  +([a-z].*)/\1:\3/p')"})
        _describe command told
        [[ $word != -* ]] || compadd -- --wait --help
    else
        # The words of the command are as get COLL ID [--canonical | --bson]: its places, and its options behind them.
        help=(${(f)"$(_fallowtime_help ${(Q)words[3]} --help)"})
        places=($(print -r -- $help[1] | sed 's/^.* FILE [^ ]* *//; s/ *\[*--.*//'))
        place=${places[CURRENT - 3]-}
        case $place in
        'COLL') _fallowtime_collections ;;
        'PATH' | 'FILE' | 'DIR') _files ;;
        '[INPUT]') if [[ $word = -* ]]; then _fallowtime_options; else _files; fi ;;
        '') [[ ${words[CURRENT - 1]} = --(wait|sort|skip|limit|fields|without) ]] || _fallowtime_options ;;
        *)
            if [[ $place = '['* && $word = -* ]]; then _fallowtime_options; else _message $place; fi
            ;;
        esac
    fi
}

_fallowtime "$@"
