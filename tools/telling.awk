# How a check in awk ends: wrong() tells a fault, and finish() gives the status, and where nothing was wrong the number
# of what was looked at, in the file `counted`.
function wrong(what) {
    print what
    differs = 1
}
function finish(number) {
    if (!differs)
        print number > counted
    exit differs
}
