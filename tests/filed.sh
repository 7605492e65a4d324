#!/bin/sh
# Builds hosts/c/file.c, and has tests/filed.py file groups with it and send them through both programs.
set -eu
. "$(dirname "$0")/../scripts/settings.sh"
need_tool python3
need_archive
need_program
need_program_filed
file=$root/target/hosts/file
compile_c "$root/hosts/c/file.c" "$file"
python3 -B "$root/tests/filed.py" "$PROGRAM" "$PROGRAM_FILED" "$file" "$root/example/group" "$root/crates/overlap/stdin"
