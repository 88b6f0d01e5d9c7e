# shellcheck shell=bash disable=SC2154 # oracle/run sets here and work
# Sourced by oracle/run: the measured errors of our four functions, by a program in C.

# Links the program with libexports.a in folder $1 by the compiler $2, other words passed on.
build_accuracy() {
    local folder=$1 compiler=$2
    shift 2
    mkdir -p "$work"
    "$compiler" -std=gnu11 -O2 -Wall -Wextra -Werror "$@" -o "$work/accuracy" "$here"/accuracy/*.c \
        "$folder/libexports.a" -lquadmath -lm || fail "the measuring program does not build (it takes gcc with libquadmath)"
}

# Builds and runs it: here where the processor can run the archive, else as a whole under an emulator.
measure_accuracy() {
    local folder emulator
    folder=$(archive_folder)
    if archive_is_native "$folder"; then
        build_accuracy "$folder" "${ORACLE_GCC:-gcc}"
        "$work/accuracy"
    else
        emulator=$(find_emulator)
        build_accuracy "$folder" "${ORACLE_GCC:-x86_64-linux-gnu-gcc}" -static
        "$emulator" "$work/accuracy"
    fi
}
