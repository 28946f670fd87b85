# Prints the sentences of docs/PROMISES.md, one a line behind the name of the page and a tab: what stands in bold.
/^\*\*/ { sentence = "" ; reading = 1 }
reading {
    sentence = sentence " " $0
    if ($0 ~ /\*\*$/) {
        print FILENAME "\t" sentence
        reading = 0
    }
}
