# Prints what the sources say of the calls, one fact a line with tabs between its fields: "call CRATE NAME SIGNATURE",
# "type TEXT", "refusal NUMBER CASE" from a crate's src/lib.rt, and "order CALL NUMBERS" from the first demand.
function one_line(text) {
    gsub(/[ \t\n]+/, " ", text)
    sub(/^ /, "", text)
    sub(/ $/, "", text)
    return text
}
function print_call(text,    name) {
    name = text
    sub(/.*fn /, "", name)
    sub(/[(<].*/, "", name)
    print "call\t" crate "\t" name "\t" one_line(text)
}
BEGIN { OFS = "\t" }
FNR == 1 {
    crate = FILENAME
    sub(/^crates\//, "", crate)
    sub(/\/.*/, "", crate)
}
/^[ ]*(\/\/|--)/ { next }
FILENAME ~ /Demand1/ {
    if (match($0, /^  pub [a-z0-9_]+ :/))
        call = substr($0, RSTART + 6, RLENGTH - 8)
    if (match($0, /Refusing \([0-9][^)]*\)/)) {
        order = substr($0, RSTART + 10, RLENGTH - 11)
        sub(/ ∷ \[\]/, "", order)
        gsub(/ ∷ /, ", ", order)
        print "order", call, order
    }
    next
}
/^pub (extern "C" )?fn / { signature = "" ; reading = 1 }
reading {
    signature = signature " " $0
    if ($0 ~ /->/) {
        print_call(signature)
        reading = 0
    }
}
/^pub (enum|struct) / { type = ""; typing = 1 }
typing {
    type = type " " $0
    if ($0 ~ /^}|;$/) {
        print "type", one_line(type)
        typing = 0
    }
}
match($0, /Refusal::[A-Za-z]+/) {
    case_name = substr($0, RSTART + 9, RLENGTH - 9)
    if (match($0, /Numbers\([0-9]+/))
        print "refusal", substr($0, RSTART + 8, RLENGTH - 8), case_name
}
