# shellcheck shell=sh
# What the runners of tests/ share. A runner sets $here to its folder, sources this file and then calls `begin`.
# It needs a POSIX shell, cmp, find, grep, python3 and sed.

# begin PATH_TO_CIF: names the program, and a folder for what it writes
begin() {
    cif=$(cd "$(dirname "$1")" && pwd)/$(basename "$1")
    if [ ! -x "$cif" ]; then
        echo "$cif can't be run" >&2
        exit 2
    fi
    work=${TMPDIR:-/tmp}/cif-tests.$$
    mkdir -m 700 "$work" || exit 2
    trap 'rm -rf "$work"' 0
    trap 'exit 2' 1 2 15
    passed=0
    failed=0
    skipped=0
}

# unpack FILE..: makes a folder of each row in the files, and sets $rows to the folder that has them; $form_1 has a copy in
# form 1 of each row of both forms
unpack() {
    rows=$work/rows
    form_1=$work/form-1
    "$here/../row_files.py" "$rows" "$form_1" "$@" || exit 2
    if [ "$(cat "$@" | grep -c '^== ')" -ne "$(find "$rows" -name args | wc -l)" ]; then
        echo "not each row has a folder" >&2
        exit 2
    fi
}

# each_row FUNCTION: calls the function for each row; for a row of both forms, also for its copy in form 1
each_row() {
    for each in "$rows"/*/ "$form_1"/*/; do
        if [ -d "$each" ]; then
            "$1" "${each%/}"
        fi
    done
}

# in_row FOLDER COMMAND..: runs the command in the folder of a row, with the row's arguments added;
# sets $work/stdout, $work/stderr and $status, and $work/told to what a preloaded library says
in_row() {
    row=$1
    shift
    while IFS= read -r word || [ -n "$word" ]; do
        set -- "$@" "$word"
    done < "$row/args"
    input=/dev/null
    if [ -e "$row/stdin" ]; then
        input=$row/stdin
    fi
    (cd "$row" && exec "$@") < "$input" > "$work/stdout" 2> "$work/stderr" 9> "$work/told"
    status=$?
}

# same WANT GOT: whether the two files have the same bytes; if WANT doesn't exist, any text will do
same() {
    [ ! -e "$1" ] || cmp -s "$1" "$2"
}

# answers FOLDER: whether $work/stdout, $work/stderr and $status are those of the folder
answers() {
    echo "$status" > "$work/status"
    same "$1/stdout" "$work/stdout" && same "$1/stderr" "$work/stderr" && same "$1/status" "$work/status"
}

# shown FILE LINE: prints the line and the next between bars, with a ? for each unprintable byte
shown() {
    LC_ALL=C sed -n -e "$2,$(($2 + 1)){" -e 's/[^ -~]/?/g' -e 's/^/    |/' -e 's/$/|/' -e p -e '}' "$1"
}

# told_apart NAME WANT GOT: prints where the two files first differ, if they do
told_apart() {
    if same "$2" "$3"; then
        return
    fi
    line=$(cmp "$2" "$3" 2>&1 | sed -n 's/.*line \([0-9][0-9]*\).*/\1/p')
    line=${line:-1}
    echo "  $1, from line $line: wanted (of $(wc -c < "$2") bytes)"
    shown "$2" "$line"
    echo "  $1, from line $line: got (of $(wc -c < "$3") bytes)"
    shown "$3" "$line"
}

# differences FOLDER: prints how $work/stdout, $work/stderr and $status differ from the folder's
differences() {
    told_apart status "$1/status" "$work/status"
    told_apart stdout "$1/stdout" "$work/stdout"
    told_apart stderr "$1/stderr" "$work/stderr"
}

pass() {
    passed=$((passed + 1))
}

fail() {
    failed=$((failed + 1))
}

# skip COUNT: counts tests that can't be made here; whoever calls it says why
skip() {
    skipped=$((skipped + $1))
}

# end: prints the counts; the status is 0 if none failed, and some ran or were skipped
end() {
    if [ "$skipped" -eq 0 ]; then
        echo "$passed passed, $failed failed"
    else
        echo "$passed passed, $failed failed, $skipped skipped"
    fi
    [ "$failed" -eq 0 ] && [ $((passed + skipped)) -gt 0 ]
}

# preload SOURCE: builds a library from the C file, which includes nothing, with the compiler of the kit, or of the machine
# where there is no kit; sets $library to its path. The status is 1 where there is no compiler.
preload() {
    library=$work/$(basename "$1" .c).so
    if command -v rt > /dev/null; then
        tools=$(dirname "$(rt doc)")/toolchain/bin
        set -- "$1" "$tools/clang" --ld-path="$tools/ld.lld"
    elif command -v cc > /dev/null; then
        set -- "$1" cc
    else
        return 1
    fi
    source=$1
    shift
    if ! "$@" -shared -fPIC -O1 -nostdlib -o "$library" "$source"; then
        echo "$source can't be built" >&2
        exit 2
    fi
}
