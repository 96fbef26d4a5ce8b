# shellcheck shell=sh
# The trials of tests/process/run with the preloaded library. They also need cp, dd, env, tr and wc.

READ_FAULT="cif: ReadFault"
WRITE_FAULT="cif: WriteFault"

# The names of the inputs that a row may have
INPUTS="stdin extract left right holidays full update-1 update-2"

# The errors that a call fails with, by their numbers
EINTR=4
EIO=5
ENOSPC=28
EPIPE=32
ERRORS="$EIO $ENOSPC $EPIPE $EINTR"

# choose ROW: sets the row of the next runs, and the status that it expects
choose() {
    row=$1
    IFS= read -r wanted < "$row/status"
}

# bytes NAME: the size of the row's file
bytes() {
    wc -c < "$row/$1"
}

# calls CALL MOST: how many calls the row takes if each moves at most MOST bytes; one more read finds the end of each
# input
calls() {
    count=0
    case $1 in
    write)
        count=$((($(bytes stdout) + $2 - 1) / $2))
        ;;
    read)
        for name in $INPUTS; do
            if [ -e "$row/$name" ]; then
                count=$((count + ($(bytes "$name") + $2 - 1) / $2 + 1))
            fi
        done
        ;;
    open)
        for name in ${INPUTS#stdin}; do
            if [ -e "$row/$name" ]; then
                count=$((count + 1))
            fi
        done
        ;;
    esac
    echo "$count"
}

# by_file ROW NEW: makes a row like ROW whose FILE `extract` is the standard input of ROW
by_file() {
    cp -R "$1" "$2"
    mv "$2/stdin" "$2/extract"
    echo extract >> "$2/args"
}

# These are checked after a run: $status, $work/stdout, $work/stderr, and $told, which is what the library says.

# run_row COMMAND..: runs the command on the row
run_row() {
    in_row "$row" "$@"
    told=
    IFS= read -r told < "$work/told" || :
}

# hostile SETTING..: runs the program on the row, with these settings for the library
hostile() {
    run_row env LD_PRELOAD="$library" "$@" "$cif"
}

# owes WHAT CHECK..: whether the last run was as it should be
owes() {
    what=$1
    shift
    if "$@"; then
        pass
    else
        fail
        echo "$(basename "$row"), $what: status $status, and the library says '$told'"
        shown "$work/stdout" 1
        shown "$work/stderr" 1
    fi
}

# tells PATTERN: whether the library says so
tells() {
    # shellcheck disable=SC2254 # it is a pattern
    case $told in
    $1) ;;
    *) return 1 ;;
    esac
}

# says LINE: whether the standard error is this one line
says() {
    line=
    more=
    { IFS= read -r line && ! IFS= read -r more; } < "$work/stderr"
    [ $? -eq 0 ] && [ "$line" = "$1" ] && [ -z "$more" ]
}

# alike NAME: whether the run gave what the row has under this name, if it has anything
alike() {
    if [ -s "$row/$1" ] || [ -s "$work/$1" ]; then
        same "$row/$1" "$work/$1"
    fi
}

# gives_answer PATTERN: the row's answer
gives_answer() {
    tells "$1" && [ "$status" = "$wanted" ] && alike stdout && alike stderr
}

# gives_fault PATTERN STATUS LINE: the fault, and nothing on the standard output
gives_fault() {
    tells "$1" && [ "$status" = "$2" ] && [ ! -s "$work/stdout" ] && says "$3"
}

# is_prefix COUNT WHOLE PART: whether the part is the first COUNT bytes of the whole
is_prefix() {
    : > "$work/prefix"
    if [ "$1" -gt 0 ]; then
        dd if="$2" of="$work/prefix" bs="$1" count=1 2> /dev/null
    fi
    cmp -s "$work/prefix" "$3"
}

# gives_prefix PATTERN COUNT: the first COUNT bytes of the row's answer, and then the output failed
gives_prefix() {
    tells "$1" && [ "$status" = 4 ] && says "$WRITE_FAULT" && is_prefix "$2" "$row/stdout" "$work/stdout"
}

# gives_cut_line PATTERN COUNT: the row's status, and the first COUNT bytes of its fault line
gives_cut_line() {
    tells "$1" && [ "$status" = "$wanted" ] && [ ! -s "$work/stdout" ] &&
        is_prefix "$2" "$row/stderr" "$work/stderr"
}

# gives_output PATTERN: the row's answer, but nothing on the standard error
gives_output() {
    tells "$1" && [ "$status" = "$wanted" ] && alike stdout && [ ! -s "$work/stderr" ]
}

# gives_silence STATUS: the status, and nothing on the standard output
gives_silence() {
    [ "$status" = "$1" ] && [ ! -s "$work/stdout" ]
}

# no_failure: the row's answer, as no call failed
no_failure() {
    ! tells '*e*' && gives_answer '*'
}

# fail_read ERROR NTH, fail_open ERROR NTH, fail_write ERROR NTH: what is expected if the call with this number fails
# with the error, and each moves 64 bytes
fail_read() {
    gives_fault '*e' 4 "$READ_FAULT"
}

fail_open() {
    if [ "$1" = $EINTR ]; then
        gives_answer '*ea*'
    else
        gives_fault '*e' 4 "$READ_FAULT"
    fi
}

fail_write() {
    if [ "$1" = $EINTR ]; then
        gives_answer '*ea*'
    else
        gives_prefix '*e' $((($2 - 1) * 64))
    fi
}

# each_call CALL ROW: each such call of the row fails, with each error; a write also accepts no byte
each_call() {
    choose "$2"
    on=
    errors=$ERRORS
    if [ "$1" = write ]; then
        on=1
        errors="$ERRORS 0"
    fi
    count=$(calls "$1" 64)
    for error in $errors; do
        nth=1
        while [ "$nth" -le "$count" ]; do
            hostile HOSTILE_CALL="$1" ${on:+HOSTILE_ON=$on} HOSTILE_MOST=64 HOSTILE_NTH=$nth HOSTILE_ERROR="$error"
            owes "$1 $nth fails with error $error" "fail_$1" "$error" "$nth"
            nth=$((nth + 1))
        done
    done
    hostile HOSTILE_CALL="$1" ${on:+HOSTILE_ON=$on} HOSTILE_MOST=64 HOSTILE_NTH=$nth HOSTILE_ERROR=$EIO
    owes "there is no $1 $nth" no_failure
}

# each_split CALL ROW [PATTERN]: the row's reads of its standard input, or its writes, are cut after the first byte, after
# the second, and so on, and then continue; the library says PATTERN, or `rz` of a row with one input
each_split() {
    choose "$2"
    split=1
    last=$(bytes stdin)
    pattern=${3-rz}
    if [ "$1" = write ]; then
        last=$(bytes stdout)
        pattern=w
    fi
    while [ $split -lt "$last" ]; do
        hostile HOSTILE_CALL="$1" HOSTILE_AFTER=$split
        owes "$1s are cut at byte $split" gives_answer "$pattern"
        split=$((split + 1))
    done
}

# each_failing_read ROW: reading the row's inputs fails before their first byte, before their second, and so on, and at
# their end
each_failing_read() {
    choose "$1"
    at=0
    last=0
    for name in $INPUTS; do
        if [ -e "$row/$name" ]; then
            last=$((last + $(bytes "$name")))
        fi
    done
    while [ $at -le "$last" ]; do
        hostile HOSTILE_CALL=read HOSTILE_AFTER=$at HOSTILE_ERROR=$EIO
        owes "reading fails at byte $at" gives_fault '*e' 4 "$READ_FAULT"
        at=$((at + 1))
    done
}

# each_failing_write ROW: the output is full before the answer's first byte, before its second, and so on
each_failing_write() {
    choose "$1"
    at=0
    last=$(bytes stdout)
    while [ $at -lt "$last" ]; do
        hostile HOSTILE_CALL=write HOSTILE_ON=1 HOSTILE_AFTER=$at HOSTILE_ERROR=$ENOSPC
        owes "the output is full at byte $at" gives_prefix '*e' $at
        at=$((at + 1))
    done
    hostile HOSTILE_CALL=write HOSTILE_ON=1 HOSTILE_AFTER=$at HOSTILE_ERROR=$ENOSPC
    owes "the output has room for the answer" gives_answer ''
}

# each_cut_line ROW: no byte of the row's fault line can be written, or only the first, and so on
each_cut_line() {
    choose "$1"
    at=0
    last=$(bytes stderr)
    while [ $at -lt "$last" ]; do
        for error in $ERRORS; do
            hostile HOSTILE_CALL=write HOSTILE_ON=2 HOSTILE_AFTER=$at HOSTILE_ERROR="$error"
            owes "the fault line fails at byte $at with error $error" gives_cut_line '*e' $at
        done
        at=$((at + 1))
    done
}

# unheard ROW: the lines that the row has for standard error, besides its answer, can't be written
unheard() {
    choose "$1"
    for error in $ERRORS; do
        hostile HOSTILE_CALL=write HOSTILE_ON=2 HOSTILE_NTH=1 HOSTILE_ERROR="$error"
        owes "standard error fails with error $error" gives_output e
    done
}

# each_undecided ROW DECIDED FROM TO: the first DECIDED bytes of the input decide the row's refusal; reading fails after
# FROM bytes, after one more, and so on up to TO
each_undecided() {
    choose "$1"
    at=$3
    while [ $at -le "$4" ]; do
        hostile HOSTILE_CALL=read HOSTILE_AFTER=$at HOSTILE_ERROR=$EIO
        if [ $at -lt "$2" ]; then
            owes "reading fails at byte $at" gives_fault '*e' 4 "$READ_FAULT"
        else
            owes "reading fails at byte $at" gives_answer 'r*'
        fi
        at=$((at + 1))
    done
}

# cut_fault COUNT SIZE WIDTH: the fault line of an accepted input of SIZE bytes, in lines of 80 columns that have WIDTH
# bytes with their endings, if only the first COUNT bytes come; none if it is still accepted
cut_fault() {
    lines=$(($1 / $3))
    rest=$(($1 % $3))
    if [ "$1" -eq "$2" ] || { [ $rest -eq 80 ] && [ $(($1 + $3 - 80)) -ge "$2" ]; }; then
        fault=
    elif [ $rest -eq 0 ]; then
        fault="cif: line $((lines + 1)): Truncated"
    elif [ $rest -eq 80 ]; then
        fault="cif: line $((lines + 2)): Truncated"
    else
        fault="cif: line $((lines + 1)): BadLength"
    fi
}

# each_end ROW NAME WIDTH [PATTERN]: the row's first input, which is accepted, ends before its first byte, before its second,
# and so on; where it ends within a line, the library says PATTERN, or `rz`
each_end() {
    choose "$1"
    at=0
    last=$(bytes "$2")
    while [ $at -le "$last" ]; do
        hostile HOSTILE_CALL=read HOSTILE_AFTER=$at HOSTILE_ERROR=0
        cut_fault $at "$last" "$3"
        if [ -z "$fault" ]; then
            owes "the input ends at byte $at" gives_answer 'rz*'
        elif [ $at -eq 0 ]; then
            owes "the input ends at byte $at" gives_fault z 3 "$fault"
        elif [ $rest -eq 80 ]; then
            owes "the input ends at byte $at" gives_fault 'rz*' 3 "$fault"
        else
            owes "the input ends at byte $at" gives_fault "${4-rz}" 3 "$fault"
        fi
        at=$((at + 1))
    done
}

# reads_stdin: whether the row reads its standard input: it names it, or names no file but that of the holidays
reads_stdin() {
    if grep -qx -e - "$row/args"; then
        return 0
    fi
    while IFS= read -r word; do
        if [ "$word" != holidays ] && [ -e "$row/$word" ]; then
            return 1
        fi
    done < "$row/args"
}

# bytewise ROW: each read and each write of the row moves one byte; if its inputs are accepted, and nothing goes to the
# standard error, the library says so for each call
bytewise() {
    choose "$1"
    hostile HOSTILE_MOST=1
    owes "each call moves one byte" gives_answer '*[rwz]'
    if [ "$wanted" -gt 1 ] || [ ! -e "$row/stdout" ] || [ -s "$row/stderr" ]; then
        return
    fi
    count=0
    for file in "$row"/*; do
        case ${file##*/} in
        args | stderr | status | stdout-in-form-1) ;;
        stdout)
            if [ -s "$file" ]; then
                count=$((count + $(bytes stdout) - 1))
            fi
            ;;
        stdin)
            if reads_stdin; then
                count=$((count + $(bytes stdin)))
            fi
            ;;
        *) count=$((count + $(bytes "${file##*/}"))) ;;
        esac
    done
    owes "each of $count calls moves one byte" [ "$(tr -cd rw < "$work/told" | wc -c)" -eq $count ]
}

# second_write ROW: the second write of an answer that takes more than one fails, with each error
second_write() {
    choose "$1"
    for error in $ERRORS; do
        hostile HOSTILE_CALL=write HOSTILE_ON=1 HOSTILE_NTH=2 HOSTILE_ERROR="$error"
        if [ "$error" = $EINTR ]; then
            owes "write 2 fails with error $error" gives_answer 'ea'
        else
            went=$(wc -c < "$work/stdout")
            owes "write 2 fails with error $error" gives_prefix e "$went"
            owes "write 1 took a part of the answer" [ "$went" -gt 0 ]
            owes "write 1 took no more" [ "$went" -lt "$(bytes stdout)" ]
        fi
    done
}
