# Functions that build and run programs, to be sourced by a bash script. They use the compiler, the linker, the loader
# and the C library of the kit, found from `rt doc`: nothing is installed, and no path is fixed. Programs are for
# x86-64.
#
#   kit_compile FOLDER FILE.c ..        compiles each FILE.c to FOLDER/FILE.o; a warning is an error
#   kit_compile_folders FOLDER FROM ..  compiles each folder FROM: the files of tests/second/rules to FOLDER/rules
#   kit_link PROGRAM FILE ..            links objects and archives, in that order, with the C library
#   kit_run PROGRAM WORD ..             runs a program; the status is the program's own
#   kit_archive NAME                    proves the library NAME_c, the exports of NAME for C, and writes its archive to
#                                       target/staticlib/libNAME.a, unless no file has changed since
#   kit_program NAME ..                 proves each program and builds it to target/bin/NAME, unless no file has changed
#   kit_level                           the optimisation that kit_compile asks for, -O2 unless the script sets it
#   kit_home                            what kit_folder prints, if the script has asked already
# shellcheck shell=bash

# The folder of the guide is the kit.
kit_folder() {
    local guide
    if [ -n "${kit_home-}" ]; then
        printf '%s\n' "$kit_home"
        return
    fi
    guide=$(rt doc) || return
    dirname "$guide"
}

# The kit has no headers of a C library: tools/headers has what the programs use of them, and -nostdinc keeps the
# machine's headers out. The folder include/ of the repository is searched too, so the script runs at its top.
kit_compile() {
    local kit folder=$1 file
    kit=$(kit_folder) || return
    shift
    mkdir -p "$folder" || return
    for file in "$@"; do
        "$kit/toolchain/bin/clang" --target=x86_64-unknown-linux-gnu -std=c11 "${kit_level:--O2}" -ffreestanding -nostdinc -fPIC \
            -isystem tools/headers -I include \
            -Wall -Wextra -Wpedantic -Wconversion -Wsign-conversion -Wshadow -Wundef -Wvla \
            -Wstrict-prototypes -Wmissing-prototypes -Wmissing-variable-declarations -Werror \
            -c "$file" -o "$folder/$(basename "$file" .c).o" || return
    done
}

kit_compile_folders() {
    local folder=$1 from
    shift
    for from in "$@"; do
        kit_compile "$folder/$(basename "$from")" "$from"/*.c || return
    done
}

# The linker says a line when all is well; it is shown only when it is not.
kit_link() {
    local kit program=$1 said
    kit=$(kit_folder) || return
    shift
    if ! said=$("$kit/bin/rattle-link" --target x86_64-unknown-linux-gnu --toolchain "$kit/toolchain" -o "$program" "$@" 2>&1); then
        printf '%s\n' "$said" >&2
        return 1
    fi
}

kit_run() {
    local kit program=$1
    kit=$(kit_folder) || return
    shift
    "$kit/toolchain/lib/ld-linux-x86-64.so.2" --library-path "$kit/toolchain/lib" "$program" "$@"
}

# kit_is_old FILE: the file is not there, or a source or the kit has changed since. A folder is newer, too, where a file
# was added or removed.
kit_is_old() {
    local kit
    kit=$(kit_folder) || return
    [ ! -e "$1" ] || [ -n "$(find crates/*/{src,specs,proofs} crates.txt "$kit/KIT-ID" -newer "$1" -print -quit 2>&-)" ]
}

# kit_built MADE FILE: what was made becomes the file, as old as the sources were when the making began.
kit_built() {
    mkdir -p "$(dirname "$2")" && cp "$1" "$2" && touch -r target/begun "$2"
}

kit_begin() {
    mkdir -p target && touch target/begun
}

kit_archive() {
    local archive=target/staticlib/lib$1.a made=crates/$1_c/out/lib$1_c.a
    if kit_is_old "$archive"; then
        kit_begin || return
        rm -f "$made"
        (cd "crates/$1_c" && rt check && rt lib) || return
        kit_built "$made" "$archive" || return
    fi
}

# `rt run` builds a program and starts it where it has no files, so that it writes none. Its status is the program's.
kit_program() {
    local name made
    for name in "$@"; do
        made=crates/$name/out/$name
        if kit_is_old "target/bin/$name"; then
            kit_begin || return
            rm -f "$made"
            (cd "crates/$name" && rt check && { rt run < /dev/null > /dev/null || [ -x "out/$name" ]; }) || return
            kit_built "$made" "target/bin/$name" || return
        fi
    done
}
