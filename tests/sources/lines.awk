# Prints the lines that no source may have, with the reason. Lengths are in characters: the bytes that go on a
# character are not counted, so this wants LC_ALL=C. In C a comment is what begins with /* and all up to */. In a
# page, prose is what is neither a row of a table nor indented by four spaces.
function tell(what) {
    wrong(FILENAME ":" FNR ": " what)
}
FNR == 1 {
    is_antt = FILENAME ~ /\.antt$/
    is_rattle = FILENAME ~ /\.rt$/
    is_page = FILENAME ~ /\.md$/
    is_c = FILENAME ~ /\.[ch]$/
    inside = 0
}
{
    lines++
    text = $0
    gsub(/[\200-\277]/, "", text)
    if (is_c) {
        is_comment = inside || text ~ /^ *\/\*/
        if (text ~ /\/\*/)
            inside = 1
        if (text ~ /\*\//)
            inside = 0
    } else if (is_page) {
        is_comment = text !~ /^(\||    )/
    } else {
        is_comment = text ~ (is_rattle ? "^ *//" : is_antt ? "^ *--" : "^ *#")
    }
}
is_comment && length(text) > 120 { tell("prose of more than 120 columns") }
!(is_antt || is_rattle) { next }
FNR == 1 && FILENAME !~ /\/Lib\.antt$/ && !is_comment { tell("no sentence at the head") }
text ~ /Assumes nothing|These are no calls|This is no call/ { tell("a refrain: docs/DEVELOPING.md says it once") }
is_comment { next }
FILENAME !~ /\/proofs\// && length(text) > 160 { tell("a line of more than 160 columns") }
is_antt && text ~ /(^|[^A-Za-z-])axiom([^A-Za-z-]|$)|Prim\.Axiom|allow-axioms/ { tell("an axiom") }
is_antt && text ~ /(^|[ (,;=])\?/ { tell("a hole in a proof") }
is_rattle && text ~ /extern "C" *(\{|$)/ { tell("a foreign function with a contract that nothing proves") }
is_rattle && text ~ /^ *(pub )?(extern "C" )?fn / { is_call = text ~ /^ *pub / && FILENAME !~ /\/inner(\/|\.rt$)/ }
is_rattle && text ~ /^\{/ { is_call = 0 }
is_rattle && is_call && text ~ /requires \{/ { tell("a call that asks something of its caller") }
END { finish(lines) }
