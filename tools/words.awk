# Splits the lines that are typed at the prompt into words as a shell does, by spaces, quotes and backslashes, but for JSON that begins
# with { or [, which needs no quotes, and prints them as a shell reads them. What they mean is the program's affair.
function quoted(word) {
    gsub(/'/, "'\\''", word)
    return "'" word "'"
}

# Where the JSON ends that begins at a place of the line: at its last bracket, or with the line.
function end_of_json(place,    mark, levels, is_in_text) {
    for (; place < length($0); place++) {
        mark = substr($0, place, 1)
        if (is_in_text && mark == "\\") place++
        else if (mark == "\"") is_in_text = !is_in_text
        else if (!is_in_text && mark ~ /[{[]/) levels++
        else if (!is_in_text && mark ~ /[]}]/ && --levels == 0) break
    }
    return place
}

# Adds to the word what stands in quotes from a place on, and returns where they end.
function take_quoted(place, quote,    mark) {
    while (++place <= length($0) && (mark = substr($0, place, 1)) != quote) {
        if (quote == "\"" && mark == "\\" && substr($0, place + 1, 1) ~ /["\\]/) mark = substr($0, ++place, 1)
        word = word mark
    }
    return place
}

function end_word() {
    if (is_begun) words = words " " quoted(word)
    word = ""
    is_begun = 0
}

{
    words = ""
    for (place = 1; place <= length($0); place++) {
        mark = substr($0, place, 1)
        if (mark ~ /[ \t]/) {
            end_word()
            continue
        }
        if (!is_begun && mark ~ /[{[]/) {
            end = end_of_json(place)
            word = substr($0, place, end - place + 1)
            place = end
        } else if (mark == "'" || mark == "\"") place = take_quoted(place, mark)
        else word = word (mark == "\\" ? substr($0, ++place, 1) : mark)
        is_begun = 1
    }
    end_word()
    print words
}
