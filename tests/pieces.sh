#!/bin/sh
# The program reads a pipe that brings its input in pieces, as one in which it stands whole.
set -eu
. "$(dirname "$0")/../scripts/settings.sh"
need_tool python3
need_program
out=$root/target/tests
mkdir -p "$out"
for input in "$root/crates/overlap/stdin" "$root/example/group"; do
    "$PROGRAM" <"$input" >"$out/whole"
    python3 -c '
import sys, time
data = open(sys.argv[1], "rb").read()
for at in range(0, len(data), max(1, len(data) // 7)):
    sys.stdout.buffer.write(data[at:at + max(1, len(data) // 7)])
    sys.stdout.buffer.flush()
    time.sleep(0.02)
' "$input" | "$PROGRAM" >"$out/pieces"
    cmp "$out/whole" "$out/pieces"
done
echo "input in pieces is answered as input in one"
