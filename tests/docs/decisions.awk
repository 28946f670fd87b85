# Prints what is wrong in docs/DECISIONS.md: the points are numbered from 1 on, each once; each has a state; and each
# point that another one names is there.
function name_all(text, pattern,    name) {
    while (match(text, pattern)) {
        name = substr(text, RSTART, RLENGTH)
        sub(/.* /, "", name)
        named[name] = 1
        text = substr(text, RSTART + RLENGTH)
    }
}
match($0, /^\*\*[0-9]+\.\*\* /) {
    point = substr($0, 3, RLENGTH - 6)
    if (point in there)
        wrong("docs/DECISIONS.md: point " point " stands twice")
    there[point] = 1
    points++
    if ($0 !~ /^\*\*[0-9]+\.\*\* \*(In force|Overtaken by [0-9])/)
        wrong("docs/DECISIONS.md: point " point " has no state")
    state = substr($0, RLENGTH + 2)
    sub(/\*.*/, "", state)
    name_all(state, "[0-9]+")
}
{ name_all($0, "points? [0-9]+") }
END {
    for (i = 1; i <= points; i++)
        if (!(i in there))
            wrong("docs/DECISIONS.md: point " i " is missing")
    for (name in named)
        if (!(name in there))
            wrong("docs/DECISIONS.md: no point " name)
    finish(points)
}
