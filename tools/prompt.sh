# shellcheck shell=sh disable=SC3045
# The prompt of `fallowtime FILE` at a terminal: each line is the words of a command over FILE, which the script does as if they had been
# typed behind `fallowtime FILE`, or a request as a session takes it. By bash a line can be edited, and those before it come back.
#
#     prompt.sh ROOT FILE [--wait SECONDS]
set -u
root=$1
file=$2
shift 2
wait=$*
fallowtime=$root/fallowtime
prompt="fallowtime> "

# Reads a line by a shell of its own, which ends if that line is given up.
type_line() {
    if [ -n "${BASH_VERSION-}" ]; then
        IFS= read -r -e -p "$prompt" line
    else
        printf '%s' "$prompt" >&2
        IFS= read -r line
    fi && printf '%s' "$line"
}

# Sets `line` to what is typed, to nothing if it is given up, or fails at the end.
read_line() {
    line=$(type_line)
    case $? in
    0) [ -z "${BASH_VERSION-}" ] || history -s -- "$line" ;;
    1) return 1 ;;
    *) line= ;;
    esac
}

# The first names, without characters that a terminal may obey.
list() {
    [ -n "$1" ] || { echo "no documents"; return; }
    printf '%s\n' "$1" | LC_ALL=C awk '
        NR > 12 { line = line ", .."; exit }
        { gsub(/\177|\302[\200-\237]/, "?"); line = line (NR > 1 ? ", " : "") $0 }
        END { print line }'
}

# What there is, in a line.
greet() {
    if [ ! -e "$file" ]; then
        there="isn't there, the first document makes it"
    else
        # shellcheck disable=SC2086
        names=$("$fallowtime" "$file" collections $wait) || exit
        there="has $(list "$names")"
    fi
    printf '%s %s; .help says what a line may be, .quit ends\n' "$file" "$there"
}

help() {
    if [ $# -eq 0 ]; then
        cat <<'END_OF_HELP'
A line is a command without `fallowtime FILE` in front:

    find orders {"price":{"$gt":10}} --sort price:-1 --limit 3
    import 'old orders' orders.bson

Words are written as for a shell, but JSON that begins with { or [ needs no quotes. A line that begins with one of these
is a request of a session, and is answered as there: ["count","orders"]. .help COMMAND says what a command takes, and
.quit or Ctrl-D ends.

END_OF_HELP
    fi
    "$fallowtime" help "$@"
}

# Does what the words ask for.
obey() {
    case ${1-} in
    '') ;;
    .quit | .exit | quit | exit) exit ;;
    .help | help) shift; help "$@" ;;
    --explain | version | --version) "$fallowtime" "$@" ;;
    *)
        # shellcheck disable=SC2086
        case " $* " in *" --wait "*) "$fallowtime" "$file" "$@" ;; *) "$fallowtime" "$file" "$@" $wait ;; esac
        ;;
    esac
}

greet
# What is interrupted is what was started, or the line, and not the prompt.
trap echo INT
while read_line; do
    case $line in
    "["* | "{"*)
        # shellcheck disable=SC2086
        printf '%s\n' "$line" | "$fallowtime" "$file" $wait
        ;;
    *)
        eval "set -- $(printf '%s\n' "$line" | LC_ALL=C awk -f "$root/tools/words.awk")"
        obey "$@"
        ;;
    esac
done
echo
