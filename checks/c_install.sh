#!/usr/bin/env bash
# Installs the library of C that stands in FOLDER under PREFIX: c_install.sh FOLDER PREFIX [DESTDIR]. c_install.sh --remove PREFIX
# [DESTDIR] removes just the files that this puts there, and of the folders those that are its own, where nothing else stands in them.
# A FOLDER or DESTDIR that does not begin at the root is taken from where the caller stands.
set -euo pipefail
usage='usage: checks/c_install.sh FOLDER PREFIX [DESTDIR], or checks/c_install.sh --remove PREFIX [DESTDIR]'
given=${1:?$usage}
prefix=${2:?$usage}
[[ $prefix = /* ]] || { echo "c_install.sh: PREFIX is $prefix, and no path from the root" >&2; exit 1; }
folder=$(realpath -m -- "$given")
to=${3:+$(realpath -m -- "$3")}$prefix
cd "$(dirname "${BASH_SOURCE[0]}")/.."
major=$(sed -n 's/^#define WQ_MAJOR \([0-9]*\).*/\1/p' include/wq.h)
shared=libyeangvos.so.$major

# put MODE PLACE FILE..: the files in that folder under PREFIX. put_text PLACE: a file there, of what comes on standard input.
# put_link NAME PLACE: a link there. One list both installs and removes, so that the two never differ.
if [ "$given" = --remove ]; then
    put() {
        local file
        for file in "${@:3}"; do rm -f -- "$to/$2/${file##*/}"; done
    }
    put_text() { rm -f -- "$to/$1"; }
    put_link() { rm -f -- "$to/$2"; }
else
    for file in libyeangvos.a "$shared"; do # before anything is installed
        [ -e "$folder/$file" ] || { echo "c_install.sh: $folder has no $file" >&2; exit 1; }
    done
    put() { install -D -m "$1" -t "$to/$2" "${@:3}"; }
    put_text() { install -D -m 644 /dev/stdin "$to/$1"; }
    put_link() { ln -sf "$1" "$to/$2"; }
fi
put 644 include include/wq.h include/wq_worker.h include/wq_pure.h
put 644 lib "$folder/libyeangvos.a"
put 755 lib "$folder/$shared"
put_link "$shared" lib/libyeangvos.so # which the linker looks for; a program is linked to the other name
put 644 share/yeangvos/python include/wq.py
put 644 share/man/man3 man/*.3
# each other name that a page begins with is a link to it
for page in man/*.3; do
    for name in $(sed -n '/^\.SH NAME/,/^\.SH SYNOPSIS/p' "$page" | sed 's/\\-.*//' | grep -oE 'wq_[a-z_]+'); do
        [ "man/$name.3" = "$page" ] || put_text "share/man/man3/$name.3" <<<".so man3/${page#man/}"
    done
done
put 644 share/doc/yeangvos docs/C.md
put 644 share/doc/yeangvos/examples/c examples/c/logger.c examples/c/logger.py examples/c/sensors.c
# what pkg-config and the shell that its flags go to would take for something else
escaped=$(sed "s/[ '\"#\\]/\\\\&/g" <<<"$prefix")
put_text lib/pkgconfig/yeangvos.pc <<TEXT
prefix=$escaped
libdir=\${prefix}/lib
includedir=\${prefix}/include

Name: yeangvos
Description: proved ordered workqueues
Version: $major
Cflags: -I\${includedir} -pthread
Libs: -L\${libdir} -lyeangvos -pthread
TEXT
if [ "$given" = --remove ]; then
    for own in share/yeangvos/python share/yeangvos share/doc/yeangvos/examples/c share/doc/yeangvos/examples share/doc/yeangvos; do
        [ ! -d "$to/$own" ] || rmdir --ignore-fail-on-non-empty "$to/$own"
    done
fi
