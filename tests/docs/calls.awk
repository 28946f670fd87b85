# Reads the facts that facts.awk prints, then docs/CALLS.md and docs/RULES.md, and prints where they differ.
# docs/CALLS.md has an entry for each call and no other, with its signature, every type that is named there, every
# refusal's number, and under "Refuses" the numbers in their order. docs/RULES.md has a row for each call that refuses,
# with its order, and each number among its refusals.

# Whose row a call has in docs/RULES.md: a call for C has that of its Rattle call, and check_shell that of count.
function row(call) {
    sub(/^aldrynja_/, "", call)
    return call == "check_shell" ? "count" : call
}
# The name by which the first demand has the call of a row: both conversions are one there, and both calls of one line.
function demanded(call) {
    call = row(call)
    if (call == "to_states_first" || call == "to_cell_by_cell")
        return "convert"
    return call == "last_line" || call == "refused_line" ? "line" : call
}
function refuses(call) {
    call = demanded(call)
    return call in order ? order[call] : "nothing"
}
BEGIN { FS = "\t" }
$1 == "call" { signature[$2 "::" $3] = $4; next }
$1 == "type" { type[$2] = 1; next }
$1 == "refusal" { refusal[$2, $3] = 1; number[$2] = 1; next }
$1 == "order" { order[$2] = $3; next }
FILENAME ~ /CALLS/ && /^### `/ {
    entry = substr($0, 6, length($0) - 6)
    entries++
    if (!(entry in signature))
        wrong("docs/CALLS.md: " entry " is no call")
    seen[entry] = 1
}
FILENAME ~ /CALLS/ && /^- Refuses: / {
    told[entry] = substr($0, 12)
    sub(/[.,] [A-Za-z].*|\.$/, "", told[entry])
}
FILENAME ~ /CALLS/ && /^    / { code = code " " $0 }
FILENAME ~ /CALLS/ && /^\| [0-9]+ \| `/ { split($0, cell, /[ |`]+/); shown[cell[2], cell[3]] = 1 }
/^## / { section = $0 }
section == "## Order of checks" && /^\| [a-z_]+ \| [0-9]/ { split($0, cell, / ?\| ?/); rule[cell[2]] = cell[3] }
section == "## Refusal numbers" && /^\| [0-9]+ \| / { split($0, cell, / ?\| ?/); listed[cell[2]] = 1 }
function check_calls(    each, name) {
    for (each in signature) {
        name = each
        sub(/.*::/, "", name)
        if (!(each in seen))
            wrong("docs/CALLS.md: no entry for " each)
        if (!index(code, signature[each]))
            wrong("docs/CALLS.md: " each " is " signature[each])
        if (told[each] != refuses(name))
            wrong("docs/CALLS.md: " each " refuses " refuses(name) ", not " told[each])
        if (refuses(name) != "nothing" && !(row(name) in rule))
            wrong("docs/RULES.md: has no order of " row(name))
    }
    for (each in type) {
        name = each
        gsub(/^pub [a-z]+ |[^A-Za-z].*/, "", name)
        if (code ~ "[^A-Za-z]" name "[^A-Za-z]" && !index(code, each))
            wrong("docs/CALLS.md: has not " each)
    }
}
function check_orders(    each, ordered) {
    for (each in rule) {
        ordered[demanded(each)] = 1
        if (rule[each] != refuses(each))
            wrong("docs/RULES.md: the order of " each " is " refuses(each) ", not " rule[each])
    }
    for (each in order)
        if (!(each in ordered))
            wrong("docs/RULES.md: has no order of " each)
}
function check_refusals(    each) {
    for (each in refusal)
        if (!(each in shown))
            wrong("docs/CALLS.md: the number of a refusal is missing")
    for (each in shown)
        if (!(each in refusal))
            wrong("docs/CALLS.md: a refusal has another number")
    for (each in number)
        if (!(each in listed))
            wrong("docs/RULES.md: refusal " each " is missing")
    for (each in listed)
        if (!(each in number))
            wrong("docs/RULES.md: no call refuses with " each)
}
END {
    gsub(/[ ]+/, " ", code)
    check_calls()
    check_orders()
    check_refusals()
    finish(entries)
}
