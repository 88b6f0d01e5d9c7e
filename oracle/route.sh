# shellcheck shell=bash disable=SC2154 # oracle/run sets here and package
# Sourced by oracle/run: makes the routed copy of the pinned Rust, a crate of its own beside the unchanged one.

# Puts text $4 in the place of text $3 in line $2 of file $1. The text must stand there, and only once.
edit_line() {
    local file=$1 number=$2 old=$3 new=$4 lines line before after
    mapfile -t lines <"$file"
    line=${lines[number - 1]:-}
    before=${line%%"$old"*}
    after=${line#*"$old"}
    if [ "$before" = "$line" ] || [ "${after#*"$old"}" != "$after" ]; then
        fail "line $number of $file does not have this text exactly once: $old"
    fi
    lines[number - 1]=$before$new$after
    printf '%s\n' "${lines[@]}" >"$file"
}

# Makes every edit of the list in the copy in folder $1.
make_edits() {
    local file number old new
    while IFS='|' read -r file number old new; do
        edit_line "$1/$file" "$number" "$old" "$new"
    done < <(grep -v '^#' "$here/routed/edits.txt")
}

# The edits must be all that is needed: no such call, under any name, is left in folder $1. The root stays.
check_none_left() {
    local name='a?(sin|cos|tan)h?|sin_cos|atan2|cbrt|exp2?|exp_m1|hypot|ln|ln_1p|log|log2|log10|pow[fi]'
    if grep -nP "(?<!crate::routes::)\b($name)\(" "$1"/src/vocoder/*.rs >&2; then
        fail "the routed copy has a call that is not routed"
    fi
}

# The routed mod.rs of folder $1 as the driver includes it, where the files that it declares are modules of the driver's own: without
# these nine declarations, and without the three lines that may stand only at the head of a file or go with a declaration.
lay_out_vocoder() {
    local whole=$1/src/vocoder/mod.rs part=$1/src/vocoder/vocoder.rs
    grep -vE '^(//!|#!\[allow|#\[macro_use\]$|mod [a-z]+;$)' "$whole" >"$part"
    [ $(($(wc -l <"$whole") - $(wc -l <"$part"))) = 12 ] || fail "$whole does not have nine modules and three more such lines"
}

# Lays out the routed crate, from the copies that check_pin has held to the pinned ones.
lay_out_routed() {
    local copy=$package/routed
    mkdir -p "$copy/src"
    cp "$here/routed/Cargo.toml" "$copy/"
    cp -r "$package/src/constants.rs" "$package/src/vocoder" "$here"/routed/*.rs "$copy/src/"
    make_edits "$copy"
    check_none_left "$copy"
    lay_out_vocoder "$copy"
}
