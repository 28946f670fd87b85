# Prints what the pages lead to, one a line: "link PAGE TARGET" for a link, "path PAGE PATH" for a path in backticks.
# What has a word in capitals in the place of a name, or a star, is a pattern and no path. Commands and what they
# print stand in lines that begin with four spaces, and are left out.
/^    / { next }
{
    line = $0
    while (match(line, /\]\([^)]*\)/)) {
        print "link", FILENAME, substr(line, RSTART + 2, RLENGTH - 3)
        line = substr(line, RSTART + RLENGTH)
    }
    parts = split($0, part, "`")
    for (i = 2; i <= parts; i += 2)
        if (part[i] ~ /^[A-Za-z0-9_.][A-Za-z0-9_.-]*\/[A-Za-z0-9_.\/-]*$/ && part[i] !~ /(^|\/)[A-Z]+(\/|$)/)
            print "path", FILENAME, part[i]
}
