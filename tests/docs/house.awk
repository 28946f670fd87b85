# Reads crates.txt, then docs/DEVELOPING.md, and prints where the house that the page draws is not that of crates.txt.
# A crate that stands on none of the repository's is on floor 0; another one is a floor above the highest that it
# stands on.
function floor(crate,    used, uses, i, most) {
    if (crate in known)
        return known[crate]
    most = -1
    uses = split(below[crate], used, " ")
    for (i = 1; i <= uses; i++)
        if (used[i] in below && floor(used[i]) > most)
            most = floor(used[i])
    known[crate] = most + 1
    return known[crate]
}
/^#/ && FNR == NR { next }
FNR == NR {
    crate = $1
    sub(/:$/, "", crate)
    sub(/^[^:]*:/, "")
    below[crate] = $0
    next
}
/^## / { drawing = $0 == "## The house" }
drawing && /^    / {
    if ($1 ~ /^[0-9]+$/) {
        here = $1
        sub(/^ *[0-9]+/, "")
    }
    if (!($1 in below))
        wrong("docs/DEVELOPING.md: draws " $1 ", which is no crate")
    else if (floor($1) != here)
        wrong("docs/DEVELOPING.md: " $1 " stands on floor " floor($1) ", not " here)
    drawn[$1] = 1
    number++
}
END {
    for (crate in below)
        if (!(crate in drawn))
            wrong("docs/DEVELOPING.md: does not draw " crate)
    finish(number)
}
