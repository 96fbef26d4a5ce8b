#!/bin/sh
# Installs cif and the programs of python/bin/ below a prefix, or removes them: `install.sh --help` has the details.
#
# All files are copied first, each into its folder, and then renamed. If anything fails, the files that were there
# before are put back. What an installation that was killed has left, `NAME.cif-new.PID` and `NAME.cif-old.PID`, the next one
# removes, or --uninstall. No path goes through `$(..)`, which would lose a line feed at its end.
set -u
umask 022
case $0 in
-*/*) top=./${0%/*} ;;
*/*) top=${0%/*} ;;
*) top=. ;;
esac

usage() {
    cat << 'END'
usage: install.sh PREFIX [PATH_TO_CIF]
       install.sh --uninstall PREFIX
       install.sh --help
END
}

help() {
    usage
    cat << 'END'

Installs cif and the programs of python/bin/, their manual pages and their
completions for bash, zsh and fish below PREFIX, a folder such as /usr/local or
"$HOME/.local". All but cif are Python, of which they need 3.11 or later.

PATH_TO_CIF is the program. Without it, the program is `cif` beside this script,
as in an unpacked package, or else dist/cif, as in a clone of the repository.

--uninstall removes these files, and what an installation that was killed has
left. It leaves the folders.

If DESTDIR is set, every path begins with it, and PREFIX has to be absolute.
END
}

# each STEP: calls STEP for each file, with its source, its mode and its place, until a call fails
each() {
    "$1" "$cif" 755 "$base/bin/cif" || return
    for file in "$top"/man/*; do
        "$1" "$file" 644 "$base/share/man/man1/${file##*/}" || return
    done
    for file in "$top"/completions/*; do
        place=${file##*/}
        case $place in
        *.bash) place=bash-completion/completions/${place%.bash} ;;
        *.fish) place=fish/vendor_completions.d/$place ;;
        *) place=zsh/site-functions/$place ;;
        esac
        "$1" "$file" 644 "$base/share/$place" || return
    done
    for file in "$top"/python/bin/cif-*; do
        "$1" "$file" 755 "$base/bin/${file##*/}" || return
    done
    for file in "$top"/python/cif_timetable/*.* "$top"/python/cif_timetable/*/*.* "$top"/python/cif_timetable/*/*/*.*; do
        "$1" "$file" 644 "$base/share/cif/${file#"$top"/python/}" || return
    done
}

report() {
    printf 'install.sh: %s\n' "$*" >&2
    return 1
}

# folder PATH: makes the folder and its missing parents; $made_1 to $made_$made are those that it made
folder() {
    [ -d "$1" ] && return
    case $1 in
    ?*/*) folder "${1%/*}" || return ;;
    esac
    # `a/.` and `a/..` are there once `a` is.
    [ -d "$1" ] && return
    mkdir -- "$1" || return
    made=$((made + 1))
    eval "made_$made=\$1"
}

copy() {
    folder "${3%/*}" && cp -- "$1" "$3.cif-new.$$" && chmod -- "$2" "$3.cif-new.$$"
}

keep_old() {
    if [ -e "$3" ] && [ ! -f "$3" ]; then
        report "$3 isn't a file"
    elif [ -e "$3" ] || [ -L "$3" ]; then
        cp -pP -- "$3" "$3.cif-old.$$"
    fi
}

rename() {
    mv -f -- "$3.cif-new.$$" "$3"
}

undo() {
    if [ "$renaming" = no ] || [ -e "$3.cif-new.$$" ]; then
        rm -f -- "$3.cif-new.$$" "$3.cif-old.$$"
    elif [ -e "$3.cif-old.$$" ] || [ -L "$3.cif-old.$$" ]; then
        mv -f -- "$3.cif-old.$$" "$3" || report "the older file is $3.cif-old.$$"
    else
        rm -f -- "$3"
    fi
    return 0
}

# runs PID: whether this is another installation that still runs
runs() {
    [ "$1" != $$ ] && grep -aqs 'install\.sh' "/proc/$1/cmdline"
}

# clear_left: removes the older file, and what installations that were killed have left there
clear_left() {
    for left in "$3".cif-old.[0-9]* "$3".cif-new.[0-9]*; do
        if { [ -f "$left" ] || [ -L "$left" ]; } && ! runs "${left##*.}"; then
            found=yes
            rm -f -- "$left" || status=1
        fi
    done
}

name_place() {
    printf '%s\n' "$3"
}

# remove: removes what it can of the files, so that no call of it fails
remove() {
    clear_left "$@"
    if [ -f "$3" ] || [ -L "$3" ]; then
        found=yes
        rm -f -- "$3" && name_place "$@" || status=1
    elif [ -e "$3" ]; then
        report "$3 isn't a file" || status=1
    fi
}

give_up() {
    trap '' 1 2 15
    each undo
    while [ "$made" -gt 0 ]; do
        eval "rmdir -- \"\$made_$made\"" 2> /dev/null
        made=$((made - 1))
    done
    report "nothing is installed"
    exit 1
}

most=2
step=install
case ${1-} in
--help)
    help
    exit
    ;;
--uninstall)
    shift
    most=1
    step=uninstall
    ;;
esac
case ${1-} in
'' | -*) set -- ;;
esac
if [ $# -lt 1 ] || [ $# -gt $most ]; then
    usage >&2
    exit 2
fi
case ${DESTDIR:+set}$1 in
set/*) ;;
set*)
    report "PREFIX has to be absolute, as DESTDIR is set"
    exit 2
    ;;
esac
base=${DESTDIR-}${1%/}
cif=${2-$top/cif}
if [ $# -eq 1 ] && [ ! -e "$cif" ]; then
    cif=$top/dist/cif
fi
case $cif in
*/*) ;;
*) cif=./$cif ;;
esac

if [ $step = uninstall ]; then
    found=no
    status=0
    each remove
    if [ $found = no ] && [ $status -eq 0 ]; then
        report "cif isn't installed below ${base:-/}" || status=1
    fi
    exit $status
fi
if [ ! -f "$cif" ] || [ ! -x "$cif" ]; then
    report "there is no program $cif: give its path after PREFIX"
    exit 1
fi
case $("$cif" --version 2> /dev/null < /dev/null) in
'cif '[0-9]*) ;;
*)
    report "$cif isn't cif: --version doesn't print its name and version"
    exit 1
    ;;
esac
made=0
renaming=no
stopped=no
trap 'stopped=yes' 1 2 15
if ! each copy || ! each keep_old || [ $stopped = yes ]; then
    give_up
fi
renaming=yes
if ! each rename || [ $stopped = yes ]; then
    give_up
fi
trap '' 1 2 15
each clear_left
each name_place || :
