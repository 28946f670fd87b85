# Prints the comments of the files that are given, a block a line behind the name of its file: lines in // and --, lines
# in # of a script or an edit, and what stands between /* and */.
function flush() {
    if (block != "")
        print file "\t" block
    block = ""
}
FNR == 1 {
    flush()
    file = FILENAME
    inside = 0
    mark = file ~ /\.rt$/ ? "^[ ]*//" : file ~ /\.antt$/ ? "^[ ]*--" : file ~ /\.[ch]$/ ? "" : "^[ ]*#"
}
mark != "" {
    if (sub(mark, ""))
        block = block " " $0
    else
        flush()
    next
}
{
    while (length($0) > 0) {
        at = index($0, inside ? "*/" : "/*")
        if (inside)
            block = block " " (at ? substr($0, 1, at - 1) : $0)
        if (!at)
            break
        $0 = substr($0, at + 2)
        inside = !inside
        if (!inside)
            flush()
    }
}
END { flush() }
