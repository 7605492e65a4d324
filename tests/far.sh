#!/bin/sh
# hosts/far, on any machine: the C programs of tests/ over it, threads and processes that call at once, and what it
# says of a server that isn't there and of an archive that does wrong.
set -eu
. "$(dirname "$0")/../scripts/settings.sh"
need "$ARCHIVE" "sh scripts/make.sh overlap_c"
out=$root/target/tests/far
mkdir -p "$out"

ARCHIVE=$(sh "$root/scripts/far.sh" "$ARCHIVE")
for name in judged filed; do
    compile_c "$root/tests/c/$name.c" "$out/$name" "$root/tests/c/${name}"_*.c
    "$out/$name"
done
compile_c "$root/tests/c/far.c" "$out/far"
"$out/far"
echo "two threads, and two processes, have their own answers"

fails() { # PROGRAM CALL LINE: it ends with status 3, and LINE is the last that it says
    status=0
    "$1" "$2" 2>"$out/said" || status=$?
    said=$(tail -n 1 "$out/said")
    case $status,$said in
    3,"far: $3"*) echo "as it should: far: $3" ;;
    *) echo "expected status 3 and: far: $3"; echo "got status $status and: $said"; exit 1 ;;
    esac
}
compile_x86 "$root/tests/c/far_wrong.c" "$out/wrong.o"
"$(kit)/bin/llvm-ar" rcs "$out/wrong.a" "$out/wrong.o"
ARCHIVE=$(sh "$root/scripts/far.sh" "$out/wrong.a")
far=$(dirname "$ARCHIVE")
trap 'rm -r "$far"' EXIT
compile_c "$root/tests/c/far.c" "$out/wrong"
fails "$out/wrong" pair "the call wrote beside a buffer"
fails "$out/wrong" reason "the call wrote into a buffer that it may only read"
fails "$out/wrong" filed "the call wrote into a buffer that it may only read"
fails "$out/wrong" trailer "the server ended before it gave an answer"

rm "$far/start"
fails "$out/wrong" pair "can't start the server"
printf '#!/bin/sh\nexit 1\n' >"$far/start"
chmod +x "$far/start"
fails "$out/wrong" pair "the server ended before it gave an answer"
