#!/usr/bin/env bash
# Prints what names the sources of a program: the kit that builds it, which is the argument, and a checksum over this line,
# `crates.txt`, and each source, specification and proof.
set -eu
cd "$(dirname "$(readlink -f "$0")")/.."
export LC_ALL=C
{
    echo "$1"
    sha256sum crates.txt
    find crates/*/src crates/*/specs crates/*/proofs -type f -print0 2>/dev/null | sort -z | xargs -0 sha256sum
} | sha256sum | { read -r sum _; printf '%s\n%s\n' "$1" "$sum"; }
