#!/bin/bash
# Runs the commands that README.md and docs/USING.md, PROGRAMS.md and FILES.md show, and compares what they print with what the pages
# say.
#
#     tests/readme.sh PROGRAM [PAGE.md ..]
#     tests/readme.sh FOLDER [PAGE.md ..]
#     tests/readme.sh --programs [PAGE.md ..]
#
# In a block ```console each line `$ COMMAND` is run (a line that ends in \ goes on in the next one), and the lines below it, up to
# the next `$`, are what it prints on standard output and standard error. One shell runs all commands of a page. It starts in an
# empty folder that has what the commands need of a checkout: the scripts `fallowtime`, `bson_store` and `bson_json`,
# which start PROGRAM, and the folders `samples`, `tools` and `python`; it is on the path. With a FOLDER, that of the programs
# of an installation, that is on the path, and there is nothing else than the samples that were installed, and with them the folder
# `python`, as pip doesn't put the package there. Blocks of other kinds aren't run: ```sh is for what takes hours,
# a network or a toolchain. The lines of each block ```rust stand one after the other in a source of crates/ or cases/, those of
# ```antt in a proof there, apart from their indentation and the comments behind them.
#
# A block ```rust,main is a whole program; above it is its line of crates.txt, and below it a block ```text with what it prints.
# With --programs these are built by `./quick`, each as a crate in a clone of the last commit, in some minutes; not in the gate.
#
# The status is 0 if all pages are as printed, else 1.
set -u
root=$(cd -- "$(dirname -- "$0")/.." && pwd)
if [ "${1-}" != --programs ]; then
    [ -x "${1-}" ] || { echo "readme.sh: no program: tests/readme.sh PROGRAM [PAGE.md ..]" >&2; exit 1; }
    program=$(readlink -f -- "$1")
fi
shift
[ $# -gt 0 ] || set -- "$root/README.md" "$root/docs/USING.md" "$root/docs/PROGRAMS.md" "$root/docs/FILES.md"
work=$(mktemp -d) || exit 1
trap 'rm -rf "$work"' EXIT
status=0

# The lines of all blocks of a kind.
blocks() { awk -v "kind=\`\`\`$1" '$0 == kind { inside = 1; next } /^```/ { inside = 0 } inside' "$2"; }

# A script that prints each command and runs it. The status of the one before it stays.
script() {
    # shellcheck disable=SC2016
    echo 'print_command() { local status=$?; cat; return "$status"; }'
    awk '
        goes_on || /^\$ / {
            printf "print_command <<\\END_OF_COMMAND\n%s\nEND_OF_COMMAND\n", $0
            text = text (goes_on ? $0 : substr($0, 3)) "\n"
            goes_on = /\\$/
            if (!goes_on) { printf "%s", text; text = "" }
        }'
}

# A source without indentation, and without comments behind code.
plain() { sed -e 's/^ *//' -e 's|  *// .*$||' -e '/^$/d' "$@"; }

run_page() {
    local folder=$work/page path=$program
    rm -rf "$folder" && mkdir -p "$folder/tmp" "$folder/checkout"
    if [ ! -d "$program" ]; then
        path=$folder/checkout
        local name
        mkdir "$path/program"
        for name in bson_store bson_json fallowtime; do cp "$root/$name" "$path" && cp "$program" "$path/program/$name"; done
        cp -r "$root/samples" "$root/tools" "$root/python" "$path"
    elif [ -e "$program/../share/doc/fallowtime/samples" ]; then
        cp -r "$program/../share/doc/fallowtime/samples" "$root/python" "$folder/checkout"
    fi
    blocks console "$1" >"$folder/printed"
    script <"$folder/printed" >"$folder/script"
    (cd "$folder/checkout" && PATH=$path:$PATH HOME=$folder/tmp TMPDIR=$folder/tmp LC_ALL=C.UTF-8 bash "$folder/script" >"$folder/found" 2>&1 </dev/null)
    diff "$folder/printed" "$folder/found" >"$folder/differences" && return
    echo "readme.sh: $1: a command printed other lines (<: the page, >: the program)"
    cat "$folder/differences"
    status=1
}

# Each block of a kind of code by itself, looked for in the files of the crates with that ending.
find_code() {
    blocks "$1" "$3" | grep -q . || return
    [ -e "$work/sources.$2" ] || find "$root/crates" "$root/cases" \( -name "*.$2" -o -name "*.$2.txt" \) -not -path '*/out/*' -exec cat {} + | plain >"$work/sources.$2"
    awk -v "folder=$work" -v "kind=\`\`\`$1" '
        /^```/ { if (inside) close(file); inside = 0 }
        inside { print > file }
        $0 == kind { inside = 1; file = folder "/block." (++number) }' "$3"
    local block
    for block in "$work"/block.*; do
        # Each file is one record, as no source has a character 1.
        awk 'BEGIN { RS = "\001" } NR == 1 { wanted = "\n" $0; next } { exit index("\n" $0, wanted) == 0 }' \
            <(plain "$block") "$work/sources.$2" && continue
        echo "readme.sh: $3: no file of crates/ has these lines:"
        cat "$block"
        status=1
    done
    rm -f "$work"/block.*
}

# The whole programs of a page, each in a clone with its line in crates.txt.
try_programs() {
    git clone -q "$root" "$work/clone" || exit 1
    awk -v "clone=$work/clone" '
        match($0, /my_[a-z]+: [a-z_ ]+/) { line = substr($0, RSTART, RLENGTH) }
        /^```$/ { file = "" }
        file { print > file }
        /^```rust,main$/ {
            name = substr(line, 1, index(line, ":") - 1)
            system("mkdir -p " clone "/crates/" name "/src")
            file = clone "/crates/" name "/src/main.rt"
            print line >> (clone "/crates.txt")
            is_waiting = 1
        }
        /^```text$/ && is_waiting { file = clone "/crates/" name "/printed"; is_waiting = 0 }' "$1"
    local crate
    for crate in "$work"/clone/crates/my_*; do
        [ -e "$crate" ] || continue
        (cd "$work/clone" && ./quick "${crate##*/}" 2>"$crate/log" && cd "$crate" && ../../target/quick/"${crate##*/}" </dev/null >found 2>>log)
        diff "$crate/printed" "$crate/found" && echo "readme.sh: $1: ${crate##*/} prints what the page says" && continue
        tail -n 5 "$crate/log"
        status=1
    done
    rm -rf "$work/clone"
}

if [ -z "${program-}" ]; then
    for page; do try_programs "$page"; done
    exit "$status"
fi
for page; do
    run_page "$page"
    find_code rust rt "$page"
    find_code antt antt "$page"
    [ "$status" -ne 0 ] || echo "readme.sh: $page is as printed ($(blocks console "$page" | grep -c '^\$ ') commands)"
done
exit "$status"
