#!/bin/sh
# package.sh FOLDER [PATH_TO_CIF]
#
# Writes the packages of the program into FOLDER:
#
#   cif-VERSION-x86_64-linux.tar.gz  the programs, install.sh and what it installs, the documents and the examples
#   cif_VERSION_amd64.deb            for Debian: what install.sh installs, below /usr, with the licence, the documents
#                                    and the examples
#   cif-VERSION.sha256               the SHA-256 of both, for `sha256sum -c`
#
# PATH_TO_CIF is the program. Without it, that is dist/cif. VERSION is what the program
# prints. The Debian package depends on the packages of the libraries that `ldd` lists, and recommends Python, which
# the programs of python/bin/ need. Every time stamp is that of the program, or SOURCE_DATE_EPOCH, so the same files give the same bytes.
# Debian's base system has all that this needs.
#
# If anything fails, the files of FOLDER are as they were before.
set -eu
umask 022
export LC_ALL=C
unset CDPATH
case $0 in
-*/*) top=./${0%/*} ;;
*/*) top=${0%/*} ;;
*) top=. ;;
esac
case ${1-} in
'' | -*) set -- ;;
esac
if [ $# -lt 1 ] || [ $# -gt 2 ]; then
    echo "usage: package.sh FOLDER [PATH_TO_CIF]" >&2
    exit 2
fi
folder=${1%/}
own=
packages=
work=$(mktemp -d)

# finish STATUS: unless it is 0, puts back the files of FOLDER; then it removes what this run has written elsewhere
finish() {
    trap '' 1 2 15
    for file in $packages; do
        if [ "$1" -eq 0 ] || [ -e "$own/new/$file" ]; then
            :
        elif [ -e "$own/old/$file" ] || [ -L "$own/old/$file" ]; then
            mv -f -- "$own/old/$file" "$folder/$file"
        else
            rm -f -- "$folder/$file"
        fi
    done
    rm -rf -- "$work" ${own:+"$own"}
    if [ "$1" -ne 0 ]; then
        echo "package.sh: no package is made" >&2
    fi
}
trap 'finish $?' 0
trap 'exit 1' 1 2 15

# The files of the Debian package. install.sh refuses a program that isn't cif.
root=$work/root
DESTDIR=$root "$top/install.sh" /usr "${2-$top/dist/cif}" > /dev/null
cif=$root/usr/bin/cif
version=$("$cif" --version)
version=${version#cif }
time=${SOURCE_DATE_EPOCH:-$(stat -c %Y -- "${2-$top/dist/cif}")}

# put MODE PLACE FILE..: copies the files into the folder PLACE
put() {
    mode=$1
    place=$2
    shift 2
    mkdir -p "$place"
    install -m "$mode" "$@" "$place"
}

# dependencies: the packages of the libraries, one per line, with the oldest version of libc6 that has all the symbols
dependencies() {
    ldd -v "$cif" > "$work/ldd"
    libc=$(awk -v program="$cif:" '/:$/ { own = substr($0, 2) == program } own { print $2 }' "$work/ldd" |
        sed -n 's/^(GLIBC_\([0-9.]*\))$/\1/p' | sort -V | tail -n 1)
    awk '$2 == "=>" { print $3 }' "$work/ldd" > "$work/libraries"
    # dpkg may know a library of /lib as one of /usr/lib.
    while IFS= read -r library; do
        dpkg-query -S "$library" 2> /dev/null || dpkg-query -S "/usr$library"
    done < "$work/libraries" > "$work/owners"
    sed -e 's/[:,].*//' -e "s/^libc6\$/libc6 (>= $libc)/" "$work/owners" | sort -u
}

# put_documents PLACE: copies the documents and the examples, so that each link of a document leads to a file
put_documents() {
    put 644 "$1" "$top/README.md" "$top/CHANGELOG.md" "$top/CONTRIBUTING.md" "$top/LICENSE"
    put 644 "$1/docs" "$top"/docs/*.md "$top"/docs/*.png
    put 644 "$1/bench" "$top/bench/README.md"
    put 644 "$1/examples" "$top"/examples/*
}

# Debian's zsh doesn't look in site-functions below /usr/share.
put 644 "$root/usr/share/zsh/vendor-completions" "$root"/usr/share/zsh/site-functions/*
rm -r "$root/usr/share/zsh/site-functions"
gzip -9n "$root"/usr/share/man/man1/*
put_documents "$root/usr/share/doc/cif"
install -m 644 "$top/LICENSE" "$root/usr/share/doc/cif/copyright"
# Debian's Python imports from there.
mkdir -p "$root/usr/lib/python3/dist-packages"
ln -s ../../../share/cif/cif_timetable "$root/usr/lib/python3/dist-packages/cif_timetable"
dependencies > "$work/dependencies"
size=$(du -sk "$root/usr" | cut -f 1)
mkdir "$root/DEBIAN"
(cd "$root" && find usr -type f -exec md5sum {} +) | sort -k 2 > "$root/DEBIAN/md5sums"
cat > "$root/DEBIAN/control" << END
Package: cif
Version: $version
Architecture: amd64
Maintainer: The Colteapot authors
Installed-Size: $size
Depends: $(paste -s -d , "$work/dependencies" | sed 's/,/, /g')
Recommends: python3 (>= 3.11)
Suggests: python3-flask, python3-waitress
Section: utils
Priority: optional
Description: work out what runs on each date of a CIF timetable extract
 cif reads full extracts of the CIF timetable format, works out what runs on
 each date of the extract's window, and writes that down as an extract that
 needs no further rules. It also lists how two extracts differ, what runs on
 a day, and why a train runs or doesn't. cif-gtfs makes a GTFS feed of an
 extract, cif-sql a database, cif-board pages to look at it, and cif-report a
 page of what changed between two.
 cif-feed does all of this every night, from a published feed.
END
deb=cif_${version}_amd64.deb
SOURCE_DATE_EPOCH=$time dpkg-deb --root-owner-group -Zxz --build "$root" "$work/$deb" > /dev/null

name=cif-$version-x86_64-linux
put 755 "$work/$name" "$cif" "$top/install.sh"
put_documents "$work/$name"
put 644 "$work/$name/man" "$top"/man/*
put 644 "$work/$name/completions" "$top"/completions/*
put 644 "$work/$name" "$top/pyproject.toml" "$top/hatch_build.py"
put 755 "$work/$name/python/bin" "$top"/python/bin/cif-*
put 644 "$work/$name/python/cif_timetable" "$top"/python/cif_timetable/*.*
for package in "$top"/python/cif_timetable/*/; do
    package=${package%/}
    put 644 "$work/$name/python/cif_timetable/${package##*/}" "$package"/*.*
done
for folder_of in "$top"/python/cif_timetable/board/*/; do
    folder_of=${folder_of%/}
    put 644 "$work/$name/python/cif_timetable/board/${folder_of##*/}" "$folder_of"/*.*
done
tar --sort=name --owner=0 --group=0 --numeric-owner --mtime="@$time" -C "$work" -cf "$work/$name.tar" "$name"
gzip -9n "$work/$name.tar"

(cd "$work" && sha256sum "$name.tar.gz" "$deb") > "$work/cif-$version.sha256"
set -- "$name.tar.gz" "$deb" "cif-$version.sha256"

# The packages, and the files in their places, are copied first, so that nothing is left to do but to rename.
mkdir -p -- "$folder/"
own=$(mktemp -d -- "$folder/.cif.XXXXXX")
mkdir "$own/new" "$own/old"
for file; do
    cp -- "$work/$file" "$own/new"
    if [ -e "$folder/$file" ] && [ ! -f "$folder/$file" ]; then
        echo "package.sh: $folder/$file isn't a file" >&2
        exit 1
    elif [ -e "$folder/$file" ] || [ -L "$folder/$file" ]; then
        cp -pP -- "$folder/$file" "$own/old"
    fi
done
packages=$*
for file; do
    mv -f -- "$own/new/$file" "$folder/$file"
    printf '%s\n' "$folder/$file"
done
