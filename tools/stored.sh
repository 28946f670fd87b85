# A function that holds calls to the cases that are stored with a test, to be sourced by a bash script at the top of the
# repository. tools/kit.sh is sourced here too.
#
#   hold_stored NAME CASES             our archive, target/staticlib/libprobe.a, which `tools/archive probe` proves and
#                                      writes first
#   hold_stored NAME CASES ARCHIVE     another one with the calls of tests/second/probe.h
#
# The program of tests/NAME is linked with the archive, and with those folders of the second program that call nothing
# under test. The status is 0 only if every case of tests/NAME/cases.txt agreed, and if there are as many as are told.
# shellcheck shell=bash
. tools/kit.sh

hold_stored() {
    local name=$1 cases=$2 archive=${3-} built=target/$1
    if [ -z "$archive" ]; then
        kit_archive probe
        archive=target/staticlib/libprobe.a
    fi
    rm -rf "$built"
    kit_compile_folders "$built" tests/second/{rules,draws,kinds} tests/fields
    kit_compile "$built" "tests/$name"/*.c
    kit_link "$built/$name" "$built"/*.o "$built"/{fields,kinds,draws,rules}/*.o "$archive"
    kit_run "$built/$name" "tests/$name/cases.txt" "$cases"
}
