#!/bin/sh
# Tries the programs of must-not-compile/, which use a message set as its types do not allow.
# Fails unless each is refused with the error that its first line tells and with no other,
# and unless the sound one, whose first line is `// compiles`, compiles and ends with status 0.
# Nothing is proved: the types alone refuse them. It works on a copy of the sources, so that
# it needs nothing built and the repository stays as it is.
set -u
root=$(CDPATH='' cd -- "$(dirname -- "$0")/.." && pwd) || exit 1
work=$(mktemp -d) || exit 1
TMPDIR=$work
export TMPDIR
names=
running=
refused=0
compiled=0
failed=0

clean() {
    # shellcheck disable=SC2086 # one word a process
    [ -z "$running" ] || kill $running 2>/dev/null
    wait
    rm -rf "$work"
}
trap clean EXIT
trap 'exit 143' TERM INT HUP

# Copies the sources of the crates.
copy_crates() {
    cp "$root/crates.txt" "$work" || exit 1
    for folder in "$root"/crates/*/src; do
        crate=$work/crates/$(basename "${folder%/src}")
        { mkdir -p "$crate" && cp -R "$folder" "$crate"; } || exit 1
    done
}

# Makes a crate of each program: the program `judge-drawn-up` is the crate `judge_drawn_up`.
add_programs() {
    for file in "$root"/must-not-compile/*.rt.txt; do
        name=$(basename "$file" .rt.txt | tr - _)
        { mkdir -p "$work/crates/$name/src" && cp "$file" "$work/crates/$name/src/main.rt"; } || exit 1
        echo "$name: parts models store rules set" >>"$work/crates.txt"
        names="$names $name"
    done
}

# Compiles all programs, and runs what compiles, side by side.
try_all() {
    for name in $names; do
        (cd "$work/crates/$name" && exec rt try) </dev/null >"$work/$name.said" 2>&1 &
        running="$running $!"
    done
    wait
    running=
}

# Whether the program was refused with this error, maybe in several places, and with no other.
is_refused() {
    grep -F ': error' "$work/$1.said" >"$work/errors" && ! grep -qvF -e "$2" "$work/errors"
}

# Says whether what became of a program is what its first line tells.
look_at() {
    line=$(head -n 1 "$work/crates/$1/src/main.rt")
    error=${line#// error: }
    if [ "$error" != "$line" ] && [ -n "$error" ] && is_refused "$1" "$error"; then
        refused=$((refused + 1))
        echo "$1: refused, as it must be: $error"
    elif [ "$line" = '// compiles' ] && grep -q '^run=ended status=0 ' "$work/$1.said"; then
        compiled=$((compiled + 1))
        echo "$1: compiles, as it must"
    else
        failed=$((failed + 1))
        echo "$1: WRONG: its first line is: $line"
        sed 's/^/    /' "$work/$1.said"
    fi
}

copy_crates
add_programs
try_all
for name in $names; do
    look_at "$name"
done
if [ "$failed" -ne 0 ] || [ "$refused" -eq 0 ] || [ "$compiled" -eq 0 ]; then
    echo "$failed programs are wrong, $refused were refused as they must be, $compiled compiled as they must" >&2
    exit 1
fi
echo "$refused programs must not compile, none did"
