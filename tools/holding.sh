# Functions that start a program in a folder, and hold what comes of it to what is expected, to be sourced by a bash
# script at the top of the repository. tools/kit.sh is sourced here too.
#
#   build_second FOLDER            compiles to FOLDER what calls nothing under test: of the second program its rules,
#                                  draws and kinds, of the listing's test what other tests use; and links the
#                                  independent listing program FOLDER/lister, and FOLDER/pieces
#   start PROGRAM FOLDER           the program, started in the folder
#   run_in PROGRAM FOLDER FILE     the same: what it prints goes to FILE, and its status to `status`
#   ended WHICH                    the program that was run last has ended well; `held` counts these
#   hold WHICH EXPECTED GOT        the same, and it printed what is expected
#   hold_files WHICH EXPECTED GOT WORD ..  two files, or all of two folders; the words are of diff
#   feed PIECES FROM PIPE SIZE ..  hands a file over through a named pipe in pieces, while the script goes on
#
# A difference is told, and ends the script.
# shellcheck shell=bash
. tools/kit.sh
export -f kit_folder kit_run
kit_home=$(kit_folder)
export kit_home
held=0
status=0 # of the program that was run last

build_second() {
    kit_compile_folders "$1" tests/second/{rules,draws,kinds} tests/listing/{text,making}
    kit_compile "$1/listing" tests/listing/*.c
    kit_link "$1/lister" "$1"/{listing/lister.o,text/*.o,rules/*.o}
    kit_link "$1/pieces" "$1/listing/pieces.o"
}

# Only a wrong program writes very much, or takes long.
start() {
    cd "$2" && ulimit -c 0 -f 20000 && exec timeout 300 bash -c "kit_run ${1@Q}"
}

run_in() {
    status=0
    (start "$1" "$2") > "$3" || status=$?
}

# The rules say nothing of a status, but what was ended by a signal, or by the time, did not end well.
ended() {
    held=$((held + 1))
    if [ "$status" -gt 123 ]; then
        printf '%s: ended with status %d\n' "$1" "$status"
        exit 1
    fi
}

# Both have the same bytes; or the first line that differs, or is not there, and the end.
hold() {
    local expected got line=0 wanted came
    ended "$1"
    if cmp -s "$2" "$3"; then
        return
    fi
    mapfile expected < "$2"
    mapfile got < "$3"
    while [ "$line" -lt ${#expected[@]} ] && [ "${expected[line]}" = "${got[line]-}" ]; do
        line=$((line + 1))
    done
    wanted=${expected[line]-} came=${got[line]-}
    printf '%s: line %d: expected %s, got %s\n' "$1" $((line + 1)) "${wanted@Q}" "${came@Q}"
    exit 1
}

hold_files() {
    if ! diff -r "${@:4}" "$2" "$3"; then
        printf '%s\n' "$1"
        exit 1
    fi
}

# When the program has ended, the script removes a pipe that it has not opened, so that nobody waits there.
feed() {
    mkfifo "$3"
    kit_run "$@" &
}
