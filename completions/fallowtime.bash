# shellcheck shell=bash
# Completes the words of fallowtime for bash: files, commands, the collections of FILE, options, and kinds of refusals.

# The names of the collections that a file has and that begin so, as they are written in a shell. A file isn't made for it, and not
# waited for. $1 is the program, $2 the file as it was typed, $3 the beginning.
_fallowtime_collections() {
    local file=$2 begin=${3//\\/} name
    # shellcheck disable=SC2088
    case $file in "~/"*) file=$HOME/${file#"~/"} ;; esac
    case $file in \'*\' | \"*\") file=${file:1:${#file}-2} ;; *) file=${file//\\/} ;; esac
    [ -f "$file" ] || return 0
    while IFS= read -r name; do
        case $name in "$begin"*) COMPREPLY+=("$(printf %q "$name")") ;; esac
    done < <("$1" "$file" collections --wait 0 2>/dev/null </dev/null)
}

# Those of the words behind the first that begin so. An option that was typed isn't among them.
_fallowtime_among() {
    local begin=$1 word
    shift
    for word; do
        case $word,"${COMP_WORDS[*]:2:COMP_CWORD-2} " in -*" $word "*) continue ;; esac
        case $word in "$begin"*) COMPREPLY+=("$word") ;; esac
    done
}

_fallowtime_files() {
    compopt -o filenames 2>/dev/null
    local IFS=$'\n'
    # shellcheck disable=SC2207
    COMPREPLY=($(compgen -f -- "$1"))
}

_fallowtime() {
    local word=${COMP_WORDS[COMP_CWORD]} before=${COMP_WORDS[COMP_CWORD - 1]} options=--wait front
    local commands=(insert put replace get set unset update replace-one delete find-and-update find-and-replace find-and-delete remove find count distinct aggregate import export drop rename copy collections check backup apply import-all export-all edit)
    COMPREPLY=()
    if [ "$COMP_CWORD" -eq 1 ]; then
        case $word in -*) _fallowtime_among "$word" --help --version --explain ;; *) _fallowtime_files "$word" ;; esac
        [ ${#COMPREPLY[@]} -gt 0 ] || _fallowtime_among "$word" help version "${commands[@]}"
        return
    fi
    case ${COMP_WORDS[1]} in
    --explain)
        # shellcheck disable=SC2046
        _fallowtime_among "$word" $("$1" --explain 2>&1 </dev/null | sed -n 's/.*the kinds are: //p')
        return
        ;;
    help)
        [ "$COMP_CWORD" -gt 2 ] || _fallowtime_among "$word" "${commands[@]}" version
        return
        ;;
    version | -*) return ;;
    esac
    if [ "$COMP_CWORD" -eq 2 ]; then
        case $word in -*) _fallowtime_among "$word" --wait --help ;; *) _fallowtime_among "$word" "${commands[@]}" ;; esac
        return
    fi
    case ${COMP_WORDS[2]} in
    insert) front=5 options="--canonical --wait" ;;
    put | replace | remove) front=5 ;;
    get) front=5 options="--canonical --bson --pretty --wait" ;;
    set) front=7 options="--key --wait" ;;
    unset) front=6 options="--key --wait" ;;
    update) front=6 options="--many --upsert --wait" ;;
    replace-one) front=6 options="--upsert --wait" ;;
    delete) front=5 options="--many --wait" ;;
    find-and-update | find-and-replace) front=6 options="--sort --skip --limit --fields --without --after --canonical --bson --wait" ;;
    find-and-delete) front=5 options="--sort --skip --limit --fields --without --canonical --bson --wait" ;;
    find) front=4 options="--sort --skip --limit --fields --without --canonical --bson --pretty --wait" ;;
    count) front=4 options="--skip --limit --wait" ;;
    aggregate) front=5 ;;
    distinct) front=5 options="--count --canonical --wait" ;;
    import) front=4 options="--json --upsert --skip-existing --batch --wait" ;;
    edit) front=5 ;;
    export | drop | backup | import-all | export-all) front=4 ;;
    rename) front=5 options="--drop --wait" ;;
    copy) front=5 ;;
    collections | check | apply) front=3 ;;
    *) return ;;
    esac
    case $before in --wait | --sort | --skip | --limit | --fields | --without) [ "$COMP_CWORD" -le "$front" ] || return ;; esac
    if [ "$COMP_CWORD" -ge "$front" ]; then
        # shellcheck disable=SC2086
        _fallowtime_among "$word" $options
        case ${COMP_WORDS[2]},$COMP_CWORD,$word in import,4,-*) ;; import,4,*) _fallowtime_files "$word" ;; esac
    elif [ "$COMP_CWORD" -eq 3 ]; then
        case ${COMP_WORDS[2]} in
        backup | import-all | export-all) _fallowtime_files "$word" ;;
        *) _fallowtime_collections "$1" "${COMP_WORDS[1]}" "$word" ;;
        esac
    fi
}

complete -F _fallowtime fallowtime
