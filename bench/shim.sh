# shellcheck shell=bash disable=SC2154 # bench/run sets root
# Sourced by bench/run: builds shim.c, shim_voice.c and shim_sound.c, which reach our functions with structs by value.

# Writes libshim.a of the shims $2 and on to folder $1. On x86-64 every C compiler passes structs as our archives do.
build_shim() {
    local out=$1 name objects=()
    shift
    mkdir -p "$out"
    for name; do
        "${CC:-cc}" -std=c11 -Wall -Wextra -Werror -O3 -fPIC -c "$root/bench/$name.c" -o "$out/$name.o" || fail "$name.c does not build"
        objects+=("$out/$name.o")
    done
    rm -f "$out/libshim.a"
    ar rcs "$out/libshim.a" "${objects[@]}"
}
