# The first file is the rules. Each line of the others is a text behind a name and a tab: what the text has in
# quotation marks must stand in the rules, whatever the spaces and the marks for bold and code. A first letter may be
# large or small.
function plain(text) {
    gsub(/[*`]/, "", text)
    gsub(/[ \t\n]+/, " ", text)
    return text
}
function stands(quote) {
    return index(rules, quote) || index(rules, toupper(substr(quote, 1, 1)) substr(quote, 2)) ||
           index(rules, tolower(substr(quote, 1, 1)) substr(quote, 2))
}
FNR == NR {
    rules = rules " " $0
    next
}
FNR == 1 { rules = plain(rules) }
{
    tab = index($0, "\t")
    parts = split(substr($0, tab + 1), part, "\"")
    for (i = 2; i < parts; i += 2) {
        quoted++
        if (!stands(plain(part[i])))
            wrong(substr($0, 1, tab - 1) ": quotes what the rules don't say: " plain(part[i]))
    }
}
END { finish(quoted) }
