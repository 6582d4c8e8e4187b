#!/usr/bin/env bash
# Whether the program that the repository carries is of the sources that stand here, by `SOURCES`.
set -u
here=$(dirname "$(readlink -f "$0")")
[ -x "$here/worddd" ] && [ -r "$here/SOURCES" ] &&
    "$here/sources.sh" "$(head -n 1 "$here/SOURCES")" | cmp -s - "$here/SOURCES"
