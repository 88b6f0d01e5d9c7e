# shellcheck shell=bash disable=SC2154 # the sourcing script sets tool and root
# Sourced by oracle/run, bench/run and bindings/run: the static libraries of our functions, and cargo without extra flags.

# Ends the script with a message and status 2: nothing was compared or measured.
fail() {
    printf '%s: %s\n' "$tool" "$*" >&2
    exit 2
}

# The crates whose static libraries are linked. A script that needs fewer names them itself.
archives=(exports export_mel export_pairs export_preparing export_filters export_voice export_sound)

# The folder of the archives: EXPORTS_DIR, or one in which copies of those that `rt lib` wrote stand together.
archive_folder() {
    local folder=${EXPORTS_DIR:-} name made
    if [ -z "$folder" ]; then
        folder=$root/target/archives
        mkdir -p "$folder"
        for name in "${archives[@]}"; do
            made=$root/crates/$name/out/lib$name.a
            [ -f "$made" ] || fail "no lib$name.a: run 'rt lib' in crates/$name, or set EXPORTS_DIR"
            cmp -s "$made" "$folder/lib$name.a" || cp "$made" "$folder"
        done
    fi
    for name in "${archives[@]}"; do
        [ -f "$folder/lib$name.a" ] || fail "no lib$name.a in $folder"
    done
    (cd "$folder" && pwd -P)
}

# Whether this machine's processor runs the archives in folder $1. `rt` writes x86-64 only.
archive_is_native() {
    local machine
    command -v readelf >/dev/null || fail "readelf (binutils) is needed, to tell whose code the archives are"
    machine=$(LC_ALL=C readelf -h "$1/lib${archives[0]}.a" 2>/dev/null | sed -n 's/^ *Machine: *//p' | sort -u) || true
    [[ $(uname -m):$machine == x86_64:*X86-64 ]]
}

# Ends the script where the processor does not run the archives in folder $1.
need_native() {
    archive_is_native "$1" || fail "the archives are x86-64 code and this processor is not: it is not served"
}

# cargo build of the package in folder $1 into folder $2, other words passed on, with no compiler
# flags of the caller's: an empty CARGO_ENCODED_RUSTFLAGS outranks every other place that could set some.
cargo_release() {
    local package=$1 out=$2
    shift 2
    env -u RUSTFLAGS -u CARGO_BUILD_RUSTFLAGS -u CARGO_BUILD_TARGET -u CARGO_TARGET_DIR CARGO_ENCODED_RUSTFLAGS= \
        cargo build --release --offline --quiet --manifest-path "$package/Cargo.toml" --target-dir "$out" "$@"
}
