# shellcheck shell=sh
# What the scripts of bench/ share. A script sources this file and then calls `begin`.
# It needs a POSIX shell, rustc, awk, sed and sort.

# begin PATH PROGRAM..: sets the path of our program, makes a folder for the output, builds these programs
# of bench/peers there, and changes to it
begin() {
    ours=$(cd "$(dirname "$1")" && pwd)/$(basename "$1")
    if [ ! -x "$ours" ]; then
        echo "$ours can't be run" >&2
        exit 2
    fi
    shift
    work=${TMPDIR:-/tmp}/cif-bench.$$
    mkdir -m 700 "$work" || exit 2
    trap 'rm -rf "$work"' 0
    trap 'exit 2' 1 2 15
    for program in "$@"; do
        rustc --edition 2021 -O --out-dir "$work" "$here/peers/$program.rs" || exit 2
    done
    cd "$work" || exit 2
}

# noted NAME COMMAND..: runs the command, and adds what it prints to the file NAME
noted() {
    name=$1
    shift
    if ! "$@" >> "$name"; then
        echo "$name failed" >&2
        exit 1
    fi
}

# what_is NAME FILE: the values after the name in what a program has printed
what_is() {
    sed -n "s/^$1 //p" "$2"
}

# least NAME FILE: the least of these values
least() {
    what_is "$1" "$2" | sort -n | head -n 1
}

# agreed COUNT FILE..: fails unless the files have COUNT different lines besides those of times and memory, and so
# unless all runs have made the same
agreed() {
    count=$1
    shift
    if [ "$(sed -E '/^((user_|processor_)?nanoseconds|peak_bytes) /d' "$@" | sort -u | wc -l)" -ne "$count" ]; then
        echo "the runs made different things" >&2
        exit 1
    fi
}
