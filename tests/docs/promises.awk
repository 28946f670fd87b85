# Reads the words of each crate, "CRATE WORD" a line, then docs/PROMISES.md. A name in backticks must be a word of its
# crate: the one that stands right before the name, or before the names that the name follows. What is wrong is printed.
# Paths and edits are printed too, as "path PATH" and "edit CRATE/EDIT": they must exist.
function look(name) {
    if (name in crate) {
        here = name
    } else if (name ~ /\// && name !~ / /) {
        print "path " name
    } else if (name ~ /^[A-Za-z][A-Za-z0-9_:-]*$/ && name !~ /^(i32|requires|stdin|stdout)$/) {
        if (here == "" && substr(name, 1, index(name, "::") - 1) in crate)
            here = substr(name, 1, index(name, "::") - 1)
        sub(/.*::/, "", name)
        names++
        if (!((here, name) in word))
            print "wrong docs/PROMISES.md:" FNR ": no " name " in the crate '" here "'"
    }
}
function look_at_line(line,    parts, part, i, words, each) {
    parts = split(line, part, "`")
    for (i = 1; i <= parts; i++) {
        if (i % 2 == 0) {
            look(part[i])
        } else {
            words = split(part[i], each, " ")
            sub(/[:;,]$/, "", each[words])
            if (each[words] in crate)
                here = each[words]
        }
    }
}
FNR == NR {
    crate[$1] = 1
    word[$1, $2] = 1
    next
}
/^\*\*|^- |^$/ {
    here = ""
    edits = 0
}
/^\*\*/ { promise = 1 }
/^- |^$/ { promise = 0 }
/^- (Guarded by|Tried as):/ { edits = 1 }
edits {
    gsub(/^- (Guarded by|Tried as):|,/, " ")
    for (i = 1; i <= NF; i++)
        print "edit " $i
    next
}
!promise { look_at_line($0) }
END { print "names " names }
