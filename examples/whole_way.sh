#!/bin/sh
# Builds the programs, runs first_read.sh in a temporary directory and shows what it prints. The first build proves each program
# and all crates below it, where that isn't kept from before.
set -eu
top=$(cd "$(dirname "$0")/.." && pwd)
work=$(mktemp -d)
trap 'rm -rf "$work"' EXIT

# `rt run` builds, and then runs on these words, which are none of the program's forms.
for name in guest mkguest mkframes; do
    if ! (cd "$top/crates/$name" && rt run -- nothing >"$work/build" 2>&1) && ! [ -x "$top/crates/$name/out/$name" ]; then
        cat "$work/build" >&2
        exit 1
    fi
done
cd "$work"
PATH=$top/crates/guest/out:$top/crates/mkguest/out:$top/crates/mkframes/out:$PATH sh "$top/examples/first_read.sh"
