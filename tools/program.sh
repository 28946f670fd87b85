# A function that runs a program of the repository in a folder, to be sourced by a bash script at its top, which has
# set `top` to the repository's own folder.
#
#   program_run NAME FOLDER [DIR]       the program of crates/NAME in DIR, or in FOLDER if no DIR is given
#
# What the program stands on is proved first, and the program built, where that has not been done or a file has
# changed since; standard error tells how far it is. What the program prints alone goes to standard output.
# shellcheck shell=bash
. "$top/tools/kit.sh"

# Of what the prover writes the lines on each function that is proved are shown; if it fails, all of it is.
program_prove() {
    local name=$1 script=$2
    local said=target/$name.log
    mkdir -p target
    if [ ! -x "target/bin/$name" ]; then
        printf '%s: proving and building the program; this takes a few minutes, once\n' "$script" >&2
    fi
    if ! kit_program "$name" 2>&1 | tee "$said" | awk '/^fn .*: proved$/ { print; fflush() }' >&2; then
        cat "$said" >&2
        exit 1
    fi
}

program_run() {
    local name=$1 folder=${3-$2} script
    script=$(basename "$0")
    if [ $# -gt 3 ]; then
        printf '%s [DIR]\n' "$script" >&2
        exit 2
    fi
    if [ ! -d "$folder" ]; then
        printf '%s: %s is no folder\n' "$script" "$folder" >&2
        exit 1
    fi
    folder=$(cd "$folder" && pwd)
    cd "$top"
    program_prove "$name" "$script"
    cd "$folder"
    kit_run "$top/target/bin/$name"
}
