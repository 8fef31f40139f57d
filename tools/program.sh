# shellcheck shell=sh
# What the scripts at the top have in common: where the program is, what it was built from, which one runs, and how signals reach it.
# They read it by `.`, with `root`, the folder of the checkout, and `name`, their own name, set.
#
# There is one program, of the crate bson_store_cli, and it acts by the name under which it is started. So it is there under three
# names: in target/quick as ./quick builds it, without a proof, and in crates/bson_store_cli/out as ./prove does. Beside each is its
# record, bson_store.build: the version, the commit, how it was built, and the sources. What ./install puts elsewhere has it in the
# folder program, and neither sources nor the scripts that build.
crate=bson_store_cli
names="bson_store bson_json fallowtime"
quick_folder=$root/target/quick
proved_folder=$root/crates/$crate/out
installed_folder=$root/program

# A line on standard error, or one that is only for the eye.
note() { printf '%s\n' "$name: $1" >&2; }
say() { if [ -t 2 ]; then note "$1"; fi; }

# Sets `waiting` to the number of words in front of FILE: the two of --wait SECONDS, or none.
count_waiting() {
    waiting=0
    [ "${1-}" = --wait ] || return 0
    case ${2-} in '' | *[!0-9]*) ;; *) waiting=2 ;; esac
}

# The sources that go into the program of a crate: the lines of crates.txt of the crate and of those below it, and the files in their
# folders src, each with " newer" behind it if it is newer than the file that is given, if one is.
sources() {
    # shellcheck disable=SC2046
    (cd "$root" && find crates/*/src -type f ${2:+-newer "$2" -printf '%p newer\n' -o -type f} -printf '%p\n') 2>/dev/null |
        awk -v top="$1" '
            FILENAME != "-" { lines[++count] = $0; next }
            { split($0, parts, "/"); files[parts[2]] = files[parts[2]] $0 "\n" }
            END {
                taken[top]
                for (i = count; i > 0; i--) {
                    words = split(lines[i], uses, " ")
                    sub(/:$/, "", uses[1])
                    if (!(uses[1] in taken)) continue
                    printf "%s\n%s", lines[i], files[uses[1]]
                    for (j = 2; j <= words; j++) taken[uses[j]]
                }
            }' "$root/crates.txt" -
}

# Prints one source that was edited, came or went since a program was built, if there is one: this repository's, or that of a crate
# that is named. Of a program without a record only what is newer is known. Where there are no sources nothing is newer.
changed() {
    [ -e "$root/crates.txt" ] || return 0
    record=${1%/*}/${2:-bson_store}.build
    [ -e "$record" ] || record=/dev/null
    sources "${2:-$crate}" "$1" | awk -v record="$record" '
        BEGIN { while ((getline line < record) > 0) if (is_listed) { listed[line]; count++ } else is_listed = line == "sources" }
        function report(line) { print line ~ /\// ? line : "crates.txt"; is_done = 1; exit }
        sub(/ newer$/, "") || count && !($0 in listed) { report($0) }
        { delete listed[$0] }
        END { if (!is_done) for (line in listed) report(line) }'
}

# The record of a program that is about to be built, in the way that is given: this repository's, or that of a crate that is named.
describe() {
    commit=
    if [ -e "$root/.git" ]; then commit=$(git -C "$root" rev-parse --short HEAD 2>/dev/null); fi
    if [ -n "$commit" ] && [ -n "$(git -C "$root" status --porcelain -- crates.txt 'crates/*/src' 2>/dev/null)" ]; then
        commit="$commit with edits"
    fi
    printf '%s\n' "version $(cat "$root/VERSION" 2>/dev/null)" "commit ${commit:-unknown}" "built $1" sources
    sources "${2:-$crate}"
}

# Gives the program that lies in a folder its names, beside it.
link_names() {
    for other in $names; do
        [ "$1/$2" -ef "$1/$other" ] || ln -f "$1/$2" "$1/$other" 2>/dev/null || cp -p "$1/$2" "$1/$other" || return
    done
}

# What would end this script is kept in `received`, and passed on to the process `child`, if there is one. What a script starts
# beside itself ignores INT and QUIT, so it always gets TERM.
receive() {
    received=$1
    [ -z "$child" ] || kill -TERM "$child" 2>/dev/null
}
keep_signals() {
    received=
    child=
    for signal in HUP INT QUIT TERM; do
        # shellcheck disable=SC2064
        trap "receive $signal" "$signal"
    done
}

# Waits for the process `child`, which was started behind `keep_signals`, and returns its status, or ends as this script was to end;
# a `watcher`, if there is one, is ended first.
guard() {
    [ -z "$received" ] || kill -TERM "$child" 2>/dev/null
    while
        wait "$child"
        status=$?
        [ -n "$received" ] && kill -0 "$child" 2>/dev/null
    do :; done
    if [ -n "${watcher-}" ]; then
        kill "$watcher" 2>/dev/null
        wait "$watcher" 2>/dev/null
    fi
    trap - HUP INT QUIT TERM
    [ -z "$received" ] || kill -s "$received" "$$"
    return "$status"
}

# Ends the process `child` when the process that started this script is gone, if that one asked for it and is still there: the
# package for Python does, since nobody waits for what is built for it when it has ended. It ends with the process `child`, too: the
# signal by which `guard` ends it may come before it can see one.
stay_with_parent() {
    while [ "$(sed -n 's/^PPid:[[:space:]]*//p' "/proc/$$/status")" = "$PPID" ]; do
        kill -0 "$child" 2>/dev/null || return 0
        sleep 1 &
        wait "$!"
    done
    kill -TERM "$child"
}

# Sets `program` to the program that runs, and `change` to a source that changed since it was built: the installed one; the proved
# one, except where its sources were edited since and the quick one is younger; the quick one. There may be none.
find_program() {
    change=
    program=$installed_folder/$name
    [ ! -x "$program" ] || return 0
    program=$quick_folder/$name
    # shellcheck disable=SC3013
    if [ -x "$proved_folder/$name" ]; then
        change=$(changed "$proved_folder/$name")
        if [ -z "$change" ] || [ ! -x "$program" ] || [ "$proved_folder/$name" -nt "$program" ]; then
            program=$proved_folder/$name
            return
        fi
    fi
    [ -x "$program" ] || return
    change=$(changed "$program")
}

# The same, and builds one if there is none. The one warning about its age is given here, on a terminal or not.
choose() {
    find_program || {
        [ -x "$root/quick" ] || { note "there is no program in $installed_folder: install it anew"; exit 125; }
        keep_signals
        "$root/quick" </dev/null >/dev/null &
        child=$!
        if [ "${FALLOWTIME_PARENT-}" = "$PPID" ] && [ -r "/proc/$$/status" ]; then
            stay_with_parent </dev/null >/dev/null 2>&1 &
            watcher=$!
        fi
        guard || exit 125
        watcher=
        find_program || exit 125
        say "it tests itself as it runs, but isn't proved on this machine: ./prove does that, in an hour or two"
    }
    [ -z "$change" ] ||
        note "sources changed since this program was built ($change): ./quick builds it anew, in minutes, ./prove proves it too"
}

# Ends as `fallowtime --explain ..` does, which says what a refusal of each of the three means.
explain() {
    name=fallowtime
    choose
    exec "$program" "$@"
}

# Prints a line of the record of the program that was found: its version, its commit, or how it was built.
recorded() { sed -n "s/^$1 //p;/^sources\$/q" "${program%/*}/bson_store.build" 2>/dev/null; }

# Says which program runs. Nothing is built for it.
version() {
    if ! find_program; then
        echo "$name $(cat "$root/VERSION") (not built yet)"
        return
    fi
    case $program in "$proved_folder"/*) built=proved ;; "$quick_folder"/*) built=quick ;; *) built=$(recorded built) ;; esac
    number=$(recorded version)
    commit=$(recorded commit)
    echo "$name ${number:-$(cat "$root/VERSION")} (commit ${commit:-unknown}, ${built:-unknown}${change:+, sources are newer})"
}

# Whether there is a terminal to say on how much of something long is done.
can_watch() { [ -t 2 ] && { command : 3<&0; } 2>/dev/null && [ "${TERM:-dumb}" != dumb ] && [ -r /proc/self/io ]; }

# Says each second what a process has read and written, of which the system keeps count: on the line below the one where the cursor
# is, so that what the program prints comes to stand above. It is deleted at the end.
watch() {
    is_shown=
    trap '[ -z "$is_shown" ] || printf "\033[J" >&2; exit' TERM
    while
        sleep 1 >/dev/null 2>&1 &
        wait "$!"
        read=$(sed -n 's/^rchar: //p' "/proc/$1/io" 2>/dev/null) && [ -n "$read" ]
    do
        written=$(sed -n 's/^wchar: //p' "/proc/$1/io" 2>/dev/null)
        printf '\n\033[K%s\033[A\r' "$name: $((read / 1048576)) MB read, $((${written:-0} / 1048576)) MB written" >&2
        is_shown=yes
    done
}

# Runs the program with these words while it is watched, and returns its status.
run_watched() {
    keep_signals
    { "$program" "$@" <&3 3<&- & } 3<&0
    child=$!
    watch "$child" </dev/null >/dev/null &
    watcher=$!
    guard
}
