# shellcheck shell=bash disable=SC2154 # oracle/run sets here and work
# Sourced by oracle/run: how x86-64 code is built and run where the processor is another.

# An emulator of x86-64: the one that is asked for, or one on the path.
find_emulator() {
    local found=${ORACLE_EMULATOR:-}
    [ -n "$found" ] || found=$(command -v qemu-x86_64) || true
    [ -x "$found" ] || fail "the archives are not for this processor, and there is no emulator ${found:-qemu-x86_64}: set ORACLE_EMULATOR"
    printf '%s\n' "$found"
}

# Links the archives in folder $1 with the bridge, a small x86-64 program that the driver talks to.
build_bridge() {
    local name libraries=()
    for name in "${archives[@]}"; do
        libraries+=("$1/lib$name.a")
    done
    "${ORACLE_CC:-clang}" --target=x86_64-linux-gnu -fuse-ld=lld -O2 -Wall -Wextra -Werror -ffreestanding -fno-stack-protector \
        -nostdlib -static -o "$work/bridge" "$here"/{bridge,bridge_spectrum,bridge_filter,bridge_voice,bridge_rest,bridge_sound,memory}.c "${libraries[@]}" || fail "the bridge does not build"
}
