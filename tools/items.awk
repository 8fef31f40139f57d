# Makes lines of an array of JSON, an item each, for a program that reads lines; with -v is_bare=1 of documents one after the other, over
# several lines each. If it is more or less than one array, or than whole documents, the last line is no JSON. Spaces and ends of lines
# in front of an item go, and other ends of lines become spaces.
BEGIN { level = is_bare + 0 }

# Whether a piece of a text ends in a backslash that belongs to the quote behind it.

function is_quoting(piece) { return match(piece, /\\+$/) && RLENGTH % 2 }

function put(text) {
    if (!is_begun) sub(/^[ \t\r]+/, "", text)
    if (text == "") return
    is_begun = 1
    is_more = is_ended
    printf "%s", text
}

# Ends the line of an item, or of none where one has to be.
function end_item() {
    print (is_begun ? "" : ",")
    is_begun = 0
    count++
}

# What is between two texts.
function part(marks,    from, i, mark) {
    from = 1
    for (i = 1; i <= length(marks); i++) {
        mark = substr(marks, i, 1)
        if (mark !~ /[][{},]/ || is_ended) continue
        if (is_bare && level == 2 && mark == "}") {
            put(substr(marks, from, i + 1 - from))
            from = i + 1
            level = 1
            end_item()
            continue
        }
        if (mark == "," && level > 1 || (mark == "{" || mark == "[") && level++ > 0 || (mark == "}" || mark == "]") && --level > 0) continue
        put(substr(marks, from, i - from))
        from = i + 1
        if (mark == ",") end_item()
        else if (level == 0) {
            if (is_begun || count) end_item()
            is_ended = 1
            is_more = mark == "}"
        }
    }
    put(substr(marks, from))
}

{
    number = split($0, pieces, "\"")
    if (is_begun) printf " "
    if (number) part(pieces[1])
    for (i = 2; i <= number; i++) {
        put("\"")
        while (is_quoting(pieces[i])) printf "%s\"", pieces[i++]
        printf "%s\"", pieces[i]
        part(pieces[++i])
    }
}

END {
    if (is_begun) print ""
    if (is_bare ? level != 1 : !is_ended || is_more) print "["
}
