# shellcheck shell=sh disable=SC2086,SC2154
# What the script fallowtime does beside the program: it lays out what is printed at a terminal, opens the file that is imported, walks
# the folder of a dump, starts an editor and a prompt. It calls the program for each step, whose words are the program's affair, and so
# are refusals. It is read by `.`, behind tools/program.sh, with `root`, and `program` set.
fail() { note "$1"; exit 1; }

# Whether the terminal has colours, and they are wanted.
has_colours() {
    [ -z "${NO_COLOR-}" ] && [ "${TERM:-dumb}" != dumb ] && [ "$(tput colors 2>/dev/null || echo 8)" -ge 8 ]
}

# Lays out lines of JSON, for a terminal if standard output is one.
lay_out() {
    set --
    if [ -t 1 ]; then
        set -- -v terminal=1
        ! has_colours || set -- -v terminal=1 -v colours=1
    fi
    LC_ALL=C awk "$@" -f "$root/tools/layout.awk"
}

# Prints what `find` and `get` print laid out, at a terminal or if the words have the option --pretty, which the program hasn't.
lay_out_found() {
    case " $* " in *" --pretty "*) ;; *) [ -t 1 ] || return 0 ;; esac
    is_wanted=
    is_bytes=
    options=4
    [ "$2" = find ] || options=5
    place=0
    option=
    for word do
        shift
        place=$((place + 1))
        if [ "$place" -ge "$options" ] && [ -z "$option" ]; then
            case $word in
            --pretty) is_wanted=yes; continue ;;
            --bson) is_bytes=yes ;;
            --sort | --skip | --limit | --fields | --without | --wait) option=$word ;;
            esac
        else
            option=
        fi
        set -- "$@" "$word"
    done
    # Bytes aren't laid out: the program knows no --pretty, and refuses it.
    case $is_wanted,$is_bytes in yes,yes) run "$@" --pretty ;; ,yes) show_bytes "$@" ;; esac
    [ -n "$is_wanted" ] || [ -t 1 ] || return 0
    { status=$({ { "$program" "$@" 3>&- 4>&-; echo "$?" >&3; } | lay_out >&4 3>&- 4>&-; } 3>&1); } 4>&1
    exit "${status:-1}"
}

# Writes bytes to a terminal, as was asked for, and says what they are.
show_bytes() {
    "$program" "$@"
    status=$?
    [ "$status" -ne 0 ] || [ ! -t 1 ] || [ ! -t 2 ] || echo >&2
    [ "$status" -ne 0 ] || [ ! -t 1 ] ||
        say "what is written is BSON, for a file: fallowtime FILE export COLL > COLL.bson; without --bson, find and get print documents"
    exit "$status"
}

# Whether the words are so many, or two more, --wait and a number, which `wait` then is.
has_words() {
    wanted=$1
    shift
    wait=
    [ $# -ne "$wanted" ] || return 0
    [ $# -eq $((wanted + 2)) ] || return
    shift "$wanted"
    case $1,$2 in --wait, | --wait,*[!0-9]*) return 1 ;; --wait,*) wait="--wait $2" ;; *) return 1 ;; esac
}

# Makes standard input the file that is to be imported.
open_input() {
    [ ! -d "$1" ] || fail "$1 is a folder: import-all takes all of a dump's folder"
    [ -e "$1" ] || fail "$1 isn't there"
    # (where that fails, the shell would end)
    { command exec <"$1"; } 2>/dev/null || fail "$1 can't be read"
}

# How the first bytes of standard input, if it is a file, say that it is packed, and what unpacks it. gzip's could begin BSON.
packing() {
    [ -f /dev/stdin ] || return 0
    case $(head -c 6 /dev/stdin 2>/dev/null | od -An -tx1 | tr -d ' \n') in
    1f8b*) echo "gzip: gunzip -c" ;;
    504b0304*) echo "zip: unzip -p" ;;
    28b52ffd*) echo "zstd: zstd -dc" ;;
    425a68*) echo "bzip2: bunzip2 -c" ;;
    fd377a585a00) echo "xz: xz -dc" ;;
    efbbbf*) echo mark ;;
    esac
}

# What makes lines of JSON of a table, each value as a text.
of_table="python3 -c 'import csv,json,sys; [print(json.dumps(row)) for row in csv.DictReader(sys.stdin)]' < TABLE.csv | fallowtime FILE import COLL --json"

# Fails if standard input is a file that has no documents as `import` reads them, with the option that is given or without.
see_documents() {
    packed=$(packing)
    case $packed,${1-} in
    ,*) ;;
    mark,--json) fail "the file begins with a byte order mark: tail -c +4 FILE.json | fallowtime FILE import COLL --json" ;;
    mark, | gzip*,) ;;
    *) fail "the documents are packed by $packed PACKED | fallowtime FILE import COLL${1:+ $1}" ;;
    esac
    [ -n "${1-}" ] && [ -f /dev/stdin ] || return 0
    # (other control characters than tabs are in no table)
    case $(head -c 4096 /dev/stdin 2>/dev/null | tr '\000\t\r' '\001, ' | sed -n 's/^ *//; /./{ p; q; }') in
    "["* | "{"* | *[[:cntrl:]]*) ;;
    *[,\;]*) fail "the first line is no document; of a table: $of_table" ;;
    esac
}

# If standard input is a file whose text begins with a bracket, an array of documents, or with a document over several lines, makes it
# lines of documents.
open_items() {
    [ -f /dev/stdin ] || return 0
    case $(head -c 4096 /dev/stdin 2>/dev/null | tr '\000\t\r' '\001  ' | sed -n 's/^ *//; s/ *$//; /./{ p; q; }') in
    "["*) is_bare=0 ;;
    "{"*"}") return 0 ;;
    "{"*) is_bare=1 ;;
    *) return 0 ;;
    esac
    # (of a line that is longer than that the end isn't seen)
    [ "$is_bare" = 0 ] || [ "$(head -c 4096 /dev/stdin | wc -l)" -gt 0 ] || return 0
    lines=$(mktemp) || fail "no file can be made among the temporary files"
    tr '\000' '\001' | LC_ALL=C awk -v is_bare="$is_bare" -f "$root/tools/items.awk" >"$lines" || { rm -f "$lines"; fail "$lines can't be written"; }
    exec <"$lines"
    rm -f "$lines"
}

# A word as the shell has to be given it.
quoted() { printf " '%s'" "$(printf '%s\n' "$1" | sed "s/'/'\\\\''/g")"; }

# Imports lines of JSON so many at a time, each batch in one step, and prints after each how many documents are in. It ends with the first
# batch that is refused.
import_batches() {
    number=$1
    shift
    filter=
    for word in "$program" "$@"; do filter=$filter$(quoted "$word"); done
    {
        status=$({
            { SHELL=/bin/sh split -l "$number" --filter="$filter 2>&5 3>&- 4>&- 5>&-" - 2>/dev/null 4>&-; echo "$?" >&3; } |
                LC_ALL=C awk '{ print sum += $1; fflush() }' >&4 3>&- 4>&- 5>&-
        } 3>&1)
    } 4>&1 5>&2
    exit "${status:-1}"
}

# Takes the option --batch and its number, which the program hasn't, out of the options of an import, and sets `batch` and `options`.
take_batch() {
    batch=
    options=
    while [ $# -gt 0 ]; do
        case $1,${2-} in
        --batch, | --batch,*[!0-9]* | --batch,0*) options="$options --batch" ;;
        --batch,*) [ -z "$batch" ] || options="$options --batch"; batch=$2; shift ;;
        *) options=$options$(quoted "$1") ;;
        esac
        shift
    done
}

# Imports from a file that is named behind the collection: of JSON, if its name says so.
import_file() {
    [ $# -ge 3 ] || return 0
    store=$1
    collection=$3
    shift 3
    file=-
    case ${1---} in --*) ;; *) file=$1; shift ;; esac
    [ "$file" = - ] || open_input "$file"
    case $file," $* " in
    *,*" --json "*) ;;
    *.json,* | *.jsonl,* | *.ndjson,*) set -- "$@" --json ;;
    esac
    case $file in *.csv | *.tsv) fail "a table isn't read: $of_table" ;; esac
    case " $* " in *" --json "*) see_documents --json; open_items ;; *) see_documents ;; esac
    # (a terminal or /dev/null is no input, and a file of that name is one)
    [ ! -c /dev/stdin ] || [ ! -f "$collection" ] || fail "COLL is missing in front of the file: fallowtime FILE import COLL $collection"
    [ ! -t 0 ] || say "documents are read from the terminal, until Ctrl-D; import COLL FILE reads a file"
    take_batch "$@"
    eval "set -- $options"
    case $batch," $* " in
    ,*) ;;
    *" --json "*) import_batches "$batch" "$store" import "$collection" "$@" ;;
    *) fail "--batch takes lines of JSON: bson_json --canonical < FILE.bson | fallowtime FILE import COLL --json --batch N" ;;
    esac
    run "$store" import "$collection" "$@"
}

# The name of a file as mongodump makes it of a collection's: what stands for something else in a path is % and two digits, and so is a
# dot in front, by which a file is hidden.
name_of_file() {
    printf '%s\n' "$1" | LC_ALL=C awk '
        BEGIN { for (i = 1; i < 256; i++) escaped[sprintf("%c", i)] = sprintf("%%%02X", i) }
        {
            for (i = 1; i <= length($0); i++) {
                mark = substr($0, i, 1)
                name = name (mark ~ /[A-Za-z0-9_~$&+=:@-]/ || mark == "." && i > 1 ? mark : escaped[mark])
            }
            print name
        }'
}
name_of_collection() {
    printf '%s\n' "$1" | LC_ALL=C awk '
        BEGIN { for (i = 1; i < 256; i++) byte[sprintf("%%%02X", i)] = byte[sprintf("%%%02x", i)] = sprintf("%c", i) }
        {
            while (place = index($0, "%")) {
                digits = substr($0, place, 3)
                name = name substr($0, 1, place - 1) (digits in byte ? byte[digits] : digits)
                $0 = substr($0, place + 3)
            }
            print name $0
        }'
}

# Fails if a folder has no file that import-all takes, or one that it can't take.
see_dump() {
    [ -d "$1" ] || fail "$1 is no folder"
    for file in "$1"/*.bson.gz; do
        [ ! -e "$file" ] || fail "$file is packed: gunzip $1/*.gz unpacks all"
    done
    for file in "$1"/*.bson; do
        [ ! -e "$file" ] || [ -r "$file" ] || fail "$file can't be read"
        [ ! -e "$file" ] || return 0
    done
    for file in "$1"/*/*.bson; do
        [ ! -e "$file" ] || fail "$1 has no .bson, but ${file%/*} has: a dump has a folder for each database"
    done
    fail "$1 has no .bson"
}

# Puts the documents of each COLL.bson of a folder into the collection of that name, and prints the names and how many these are.
import_all() {
    store=$1
    folder=${3%/}
    see_dump "$folder"
    for file in "$folder"/*.bson; do
        collection=${file##*/}
        collection=$(name_of_collection "${collection%.bson}")
        count=$("$program" "$store" import "$collection" $wait <"$file") || {
            status=$?
            note "$file isn't in, and nothing behind it; what is listed is in"
            exit "$status"
        }
        printf '%s %s\n' "$collection" "$count"
    done
    exit 0
}

# What mongorestore reads beside the documents: the name of the collection, and its index, which every one has.
print_metadata() {
    printf '{"options":{},"indexes":[{"v":{"$numberInt":"2"},"key":{"_id":{"$numberInt":"1"}},"name":"_id_"}],"collectionName":"%s","type":"collection"}\n' \
        "$(printf '%s\n' "$1" | sed 's/[\\"]/\\&/g')"
}

# Writes each collection into a folder as COLL.bson, with COLL.metadata.json, all as they are at one moment, and prints the names and how
# many documents these are. No file is written over.
export_all() {
    store=$1
    folder=${3%/}
    [ -e "$store" ] || exec "$program" "$store" collections
    [ -d "$folder" ] || mkdir -- "$folder" 2>/dev/null || fail "the folder $folder can't be made"
    work=$(mktemp -d "$folder/.export.XXXXXX" 2>/dev/null) || fail "no file can be made in $folder"
    trap 'rm -rf "$work"' EXIT
    trap 'exit 129' HUP
    trap 'exit 130' INT
    trap 'exit 143' TERM
    "$program" "$store" backup "$work/store.db" $wait && "$program" "$work/store.db" collections >"$work/names" || exit
    while IFS= read -r collection; do
        case $collection in \"*) fail "the collection $collection has no name that a file could have: export writes it" ;; esac
        file=$(name_of_file "$collection")
        for ending in bson metadata.json; do
            [ ! -e "$folder/$file.$ending" ] || fail "$folder/$file.$ending is there already"
        done
        "$program" "$work/store.db" export "$collection" >"$work/$file.bson" || exit
        print_metadata "$collection" >"$work/$file.metadata.json" || exit
    done <"$work/names"
    while IFS= read -r collection; do
        file=$(name_of_file "$collection")
        mv "$work/$file.metadata.json" "$work/$file.bson" "$folder" || exit
        printf '%s %s\n' "$collection" "$("$program" "$work/store.db" count "$collection")"
    done <"$work/names"
    exit 0
}

# What was written in the editor stays in a file, which is named.
keep() {
    trap - EXIT
    rm -f "$work"/new.db*
    [ -z "${1-}" ] || note "$1"
    fail "nothing was changed; what you wrote is in $work/document.json"
}

# Opens a document in the editor, as canonical Extended JSON, and puts what comes of it in its place. That it is a document with the
# same _id is seen by a store of its own.
edit() {
    store=$1
    collection=$3
    id=$4
    old=$("$program" "$store" get "$collection" "$id" --canonical) || exit
    work=$(mktemp -d) || fail "no folder can be made among the temporary files"
    trap 'rm -rf "$work"' EXIT
    printf '%s\n' "$old" | lay_out >"$work/document.json"
    # (a word for a program has at most 128 KiB)
    [ "$(wc -c <"$work/document.json")" -lt 120000 ] || fail "the document has more than 120 kB: export and import take it"
    sh -c "${VISUAL:-${EDITOR:-vi}} \"\$1\"" sh "$work/document.json" || keep "the editor ended with status $?"
    new=$(cat "$work/document.json")
    "$program" "$work/new.db" put edited "$new" || keep
    found=$("$program" "$work/new.db" get edited "$id" --canonical 2>/dev/null) || keep "the _id of a document stays"
    [ "$found" != "$old" ] || exit 0
    [ "$("$program" "$store" get "$collection" "$id" --canonical)" = "$old" ] || keep "the document was changed meanwhile"
    "$program" "$store" replace "$collection" "$new" $wait || keep
    exit 0
}

# Ends as the prompt does, if there is a terminal to read from: by bash, which lets lines be edited, if it is here.
start_prompt() {
    [ -t 0 ] && [ -t 1 ] || return 0
    case $1 in */* | *.*) ;; *) [ -e "$1" ] || return 0 ;; esac
    shell='sh'
    ! command -v bash >/dev/null || shell=bash
    exec "$shell" "$root/tools/prompt.sh" "$root" "$@"
}
