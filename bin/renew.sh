#!/usr/bin/env bash
# Makes a program the one that the repository carries: the one that was built here last, or that of the argument, which was
# built of the same sources. One that is older than a source is refused.
set -eu
cd "$(dirname "$(readlink -f "$0")")/.."
program=${1:-crates/worddd_cli/out/worddd_cli}
newer=$(find crates.txt crates/*/src crates/*/specs crates/*/proofs -type f -newer "$program" -print -quit)
if [ -n "$newer" ]; then
    echo "$program is older than $newer" >&2
    exit 1
fi
cp "$program" bin/worddd
bin/sources.sh "$(rt version)" >bin/SOURCES
