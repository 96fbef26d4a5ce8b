# shellcheck shell=sh
# The trials of tests/process/run with standard streams, devices, fifos and limits. They also need cat, cp, dd, env,
# mkfifo, timeout and wc.

# by_hand COMMAND: runs the shell's command on the row, for ten seconds at most; its arguments are the program and the
# row's arguments, $PEER is a name for a fifo or a file, and $LIBRARY is the library
by_hand() {
    run_row timeout 10 env PEER="$work/peer" LIBRARY="$library" sh -c "$1" sh "$cif"
}

# new_row NEW STATUS LINE ARGUMENT..: makes a row with this status, this fault line if it isn't empty, no output, and
# these arguments
new_row() {
    mkdir "$1"
    : > "$1/stdout"
    echo "$2" > "$1/status"
    if [ -n "$3" ]; then
        echo "$3" > "$1/stderr"
    else
        : > "$1/stderr"
    fi
    new=$1
    shift 3
    printf '%s\n' "$@" > "$new/args"
}

# outputs ROW: the row's standard output can't be written to, or it has no standard error
outputs() {
    choose "$1"
    by_hand 'exec "$@" >&-'
    owes "no standard output" gives_fault '' 4 "$WRITE_FAULT"
    by_hand 'exec "$@" 2>&-'
    owes "no standard error" gives_answer ''
    by_hand 'exec "$@" >&- 2>&-'
    owes "no standard output and no standard error" gives_silence 4
    by_hand 'exec "$@" 1< args'
    owes "a standard output that can only be read" gives_fault '' 4 "$WRITE_FAULT"
    by_hand 'exec "$@" > /dev/full'
    owes "a full device" gives_fault '' 4 "$WRITE_FAULT"
    mkfifo "$work/peer"
    by_hand 'exec 3<> "$PEER" > "$PEER" 3>&-; exec env LD_PRELOAD="$LIBRARY" "$@"'
    owes "an output whose reader has closed it" gives_fault '*' 4 "$WRITE_FAULT"
    rm "$work/peer"
}

# inputs ROW: the row's standard input can't be read
inputs() {
    choose "$1"
    by_hand 'exec "$@" <&-'
    owes "no standard input" gives_fault '' 4 "$READ_FAULT"
    by_hand 'exec "$@" <&- >&-'
    owes "no standard input and no standard output" gives_fault '' 4 "$READ_FAULT"
    by_hand 'exec "$@" <&- >&- 2>&-'
    owes "no standard streams" gives_silence 4
    by_hand 'exec "$@" < .'
    owes "a standard input that is a folder" gives_fault '' 4 "$READ_FAULT"
    by_hand 'exec "$@" 0> /dev/null'
    owes "a standard input that can only be written" gives_fault '' 4 "$READ_FAULT"
}

# files ROW: the row opens its files in place of closed standard streams
files() {
    choose "$1"
    by_hand 'exec "$@" <&-'
    owes "a file and no standard input" gives_answer ''
    by_hand 'exec "$@" <&- 2>&-'
    owes "a file, no standard input and no standard error" gives_answer ''
    by_hand 'exec "$@" <&- >&-'
    owes "a file, no standard input and no standard output" gives_fault '' 4 "$WRITE_FAULT"
    by_hand 'exec "$@" <&- >&- 2>&-'
    owes "a file and no standard streams" gives_silence 4
}

# refusals ROW: the row is refused, and standard streams are closed
refusals() {
    choose "$1"
    by_hand 'exec "$@" >&-'
    owes "refused, and no standard output" gives_answer ''
    by_hand 'exec "$@" 2>&-'
    owes "refused, and no standard error" gives_silence 3
}

# unchanged ROW NAME COPY: whether the file that the runs read is unchanged
unchanged() {
    choose "$1"
    owes "the file $2 has changed" cmp -s "$row/$2" "$3"
}

# zeros ROW BEFORE TOLD [MOST]: the row reads BEFORE bytes, about which the library says TOLD, and then endless zeros. It
# needs MOST of these, 82 if that isn't given, and takes no more than fit a buffer.
zeros() {
    choose "$1"
    by_hand 'exec "$@"'
    owes "zeros" gives_answer ''
    most=${4:-82}
    hostile HOSTILE_CALL=read HOSTILE_AFTER=$(($2 + most - 1)) HOSTILE_ERROR=$EIO
    owes "$((most - 1)) zeros" gives_fault "${3}re" 4 "$READ_FAULT"
    hostile HOSTILE_CALL=read HOSTILE_AFTER=$(($2 + most)) HOSTILE_ERROR=$EIO
    owes "$most zeros" gives_answer "${3}r"
    hostile HOSTILE_CALL=read HOSTILE_AFTER=$(($2 + 65536)) HOSTILE_ERROR=$EIO
    owes "65,536 zeros" gives_answer "$3"
}

# fed ROW NAME COMMAND: the row's file of this name is a fifo, and the shell's command, whose $1 is a copy of the file,
# writes to it
fed() {
    choose "$1"
    mv "$row/$2" "$work/fed"
    mkfifo "$row/$2"
    sh -c "$3" sh "$work/fed" > "$row/$2" 2> /dev/null &
    writer=$!
    by_hand 'exec "$@"'
    kill $writer 2> /dev/null
    wait $writer 2> /dev/null
    rm "$row/$2"
    mv "$work/fed" "$row/$2"
}

# whole_fed ROW NAME: the file comes whole, and it comes line by line
whole_fed() {
    fed "$1" "$2" 'cat "$1"'
    owes "$2 is a fifo" gives_answer ''
    fed "$1" "$2" 'while IFS= read -r line; do printf "%s\n" "$line"; done < "$1"'
    owes "$2 is a fifo that gives a line at a time" gives_answer ''
}

# part_fed ROW NAME COUNT: only COUNT bytes of the file, which is accepted, come through a fifo
part_fed() {
    fed "$1" "$2" "dd if=\"\$1\" bs=$3 count=1"
    cut_fault "$3" "$(bytes "$2")" 81
    owes "$2 is a fifo that gives $3 bytes" gives_fault '' 3 "$fault"
}

# endless_fed ROW NAME: endless zeros come through a fifo
endless_fed() {
    fed "$1" "$2" 'cat /dev/zero'
    owes "$2 is a fifo that gives zeros" gives_fault '' 3 "cif: line 1: BadLength"
}

# await LETTER: waits until the library says the letter on descriptor 8
await() {
    while :; do
        letter=$(timeout 10 dd bs=1 count=1 2> /dev/null <&8)
        case $letter in
        "$1") return 0 ;;
        '') return 1 ;;
        esac
    done
}

# in_turn FIFO LEFT RIGHT: writes one file to the fifo, and when that is read to its end the other, and closes the fifo
# when it was opened again
in_turn() {
    cat "$2" > "$1"
    await z || return 1
    { cat "$3" && await o; } > "$1"
}

# one_fifo ROW: the row's left and right come through one fifo
one_fifo() {
    mkdir "$work/one"
    cp "$1/stdout" "$1/stderr" "$1/status" "$work/one"
    { sed -n 1p "$1/args" && printf '%s\n' fifo fifo; } > "$work/one/args"
    choose "$work/one"
    mkfifo "$row/fifo"
    rm -f "$work/told" "$work/turned"
    mkfifo "$work/told"
    exec 8<> "$work/told"
    { in_turn "$row/fifo" "$1/left" "$1/right" && : > "$work/turned"; } &
    writer=$!
    in_row "$row" timeout 10 env LD_PRELOAD="$library" "$cif"
    # The writer may still be reading what the library said.
    seconds=0
    until [ -e "$work/turned" ] || [ $seconds -eq 10 ]; do
        sleep 1
        seconds=$((seconds + 1))
    done
    kill $writer 2> /dev/null
    wait $writer 2> /dev/null
    exec 8>&-
    told=
    owes "left and right are one fifo: $(basename "$1")" gives_answer ''
    owes "each has a writer in its turn: $(basename "$1")" [ -e "$work/turned" ]
    rm -r "$work/one" "$work/told"
}

# reader_leaves ROW: the reader of a long answer closes it after the first line
reader_leaves() {
    choose "$1"
    mkfifo "$work/peer"
    sh -c 'IFS= read -r line' < "$work/peer" &
    reader=$!
    by_hand 'exec env LD_PRELOAD="$LIBRARY" "$@" > "$PEER"'
    kill $reader 2> /dev/null
    wait $reader 2> /dev/null
    read_one=$?
    owes "an output that is closed after a line" gives_fault '*' 4 "$WRITE_FAULT"
    owes "a line of the output was read" [ $read_one -eq 0 ]
    rm "$work/peer"
}

# full_disk ROW: the file of the answer can't grow to all of it
full_disk() {
    choose "$1"
    by_hand 'trap "" XFSZ; ulimit -f 1; exec "$@" > "$PEER"'
    grown=$(wc -c < "$work/peer")
    owes "a file that can't grow" gives_fault '' 4 "$WRITE_FAULT"
    owes "it has a prefix of the answer" is_prefix "$grown" "$row/stdout" "$work/peer"
    owes "it has a part of the answer" [ "$grown" -lt "$(bytes stdout)" ]
    rm "$work/peer"
}

# small_stack ROW: the stack is limited to 64 kilobytes
small_stack() {
    choose "$1"
    by_hand 'ulimit -s 64; exec "$@"'
    owes "a stack of 64 kilobytes" gives_answer ''
}

# each_space FIRST STEP ROW: runs the row with FIRST kilobytes of address space, and STEP more each time, until it gives
# its answer; before that there isn't enough memory, or not enough to load the program
each_space() {
    choose "$3"
    kbytes=$1
    refused=0
    while :; do
        by_hand "ulimit -v $kbytes; exec \"\$@\""
        if gives_answer '' || [ "$kbytes" -ge 65536 ]; then
            break
        fi
        if [ $status -ne 127 ]; then
            owes "$kbytes kilobytes aren't enough" gives_fault '' 4 "cif: Memory"
            refused=$((refused + 1))
        fi
        kbytes=$((kbytes + $2))
    done
    owes "$kbytes kilobytes are enough" gives_answer ''
    owes "some memory was refused" [ $refused -gt 0 ]
}
