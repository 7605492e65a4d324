#!/bin/sh
# Writes the stored list of the oracle's answers, pairs.bin and groups.bin, or checks that what is
# stored is what this command writes. oracle/README.md has their layout.
#   scripts/store-answers.sh           writes
#   scripts/store-answers.sh --check   compares
set -eu
. "$(dirname "$0")/settings.sh"
seed=20261115
pairs=$root/crates/replay/data/pairs.bin
groups=$root/oracle/stored/groups.bin
fresh=$root/target/oracle/stored
need_tool python3
need_archive
if [ "${1:-}" != --check ] || [ ! -x "$root/target/oracle/judge" ]; then "$root/oracle/build.sh" "$PUBLISHED" "$ARCHIVE"; fi
mkdir -p "$fresh"
"$root/target/oracle/judge" store "$fresh" $seed
if [ "${1:-}" = --check ]; then
    cmp "$fresh/pairs.bin" "$pairs"
    cmp "$fresh/groups.bin" "$groups"
    echo "the stored list is what this command writes"
else
    cp "$fresh/pairs.bin" "$pairs"
    cp "$fresh/groups.bin" "$groups"
    python3 -B "$root/tests/group_cases.py"
fi
