# Lays out lines of JSON, as the program prints them, for the eye: a member or an item a line. What Extended JSON wraps, as
# {"$oid":".."}, stays on one line. Without the spaces that come in, and the colours, it is the text that came.
#
#     LC_ALL=C awk -v colours=1 -v terminal=1 -f layout.awk
#
# With `colours` keys and texts have colours. With `terminal` the characters from U+007F to U+009F, which a terminal may obey, become
# what JSON has for them, as the program does it itself where it prints at a terminal.
BEGIN {
    for (i = 0; i < 32; i++) obeyed[sprintf("\302%c", 128 + i)] = sprintf("\\u%04x", 128 + i)
    if (colours) {
        key_colour = "\033[1;34m"
        text_colour = "\033[32m"
        plain = "\033[0m"
    }
}

# Whether a piece of a text ends in a backslash that belongs to the quote behind it.
function is_quoting(piece) { return match(piece, /\\+$/) && RLENGTH % 2 }

# A new line of so many levels.
function new_line(levels) {
    while (length(spaces) < 2 * levels) spaces = spaces "                "
    printf "\n%s", substr(spaces, 1, 2 * levels)
}

# Begins a line behind a bracket that was opened, except for what Extended JSON wraps: a document whose first key begins with $. `piece`
# is the beginning of the text that follows, if one does.
function begin_within(piece) {
    if (!is_opened) return
    is_opened = 0
    if (wrapped) return
    if (is_object[level] && substr(piece, 1, 1) == "$") wrapped = level
    else new_line(level)
}

function open(bracket) {
    begin_within("")
    printf "%s", bracket
    is_object[++level] = is_key = bracket == "{"
    is_opened = 1
}

function close_with(bracket) {
    if (!is_opened && !wrapped) new_line(level - 1)
    is_opened = 0
    if (level == wrapped) wrapped = 0
    level--
    printf "%s", bracket
}

# What is between two texts.
function lay_out(marks,    i, mark) {
    for (i = 1; i <= length(marks); i++) {
        mark = substr(marks, i, 1)
        if (mark == "{" || mark == "[") open(mark)
        else if (mark == "}" || mark == "]") close_with(mark)
        else if (mark == ":") {
            printf ": "
            is_key = 0
        } else if (mark == ",") {
            is_key = is_object[level]
            printf ","
            if (wrapped) printf " "
            else new_line(level)
        } else {
            begin_within("")
            printf "%s", mark
        }
    }
}

# The text that begins with a piece, to its closing quote. Returns the number of its last piece.
function print_text(number) {
    begin_within(pieces[number])
    printf "%s\"", is_key ? key_colour : text_colour
    while (is_quoting(pieces[number])) printf "%s\"", pieces[number++]
    printf "%s\"%s", pieces[number], plain
    return number
}

terminal && /[\177\302]/ {
    gsub(/\177/, "\\u007f")
    for (one in obeyed) gsub(one, obeyed[one])
}

{
    count = split($0, pieces, "\"")
    level = wrapped = is_opened = 0
    if (count) lay_out(pieces[1])
    for (number = 2; number <= count; number++) {
        number = print_text(number)
        lay_out(pieces[++number])
    }
    printf "\n"
}
