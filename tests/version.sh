#!/bin/sh
# A host of version 1 of overlap.h, whose overlap_call takes no cap (tests/c/version_1.c). Its object must not link with the
# archive, nor with hosts/far, for the name overlap_call alone; its source must not compile with the header.
set -eu
. "$(dirname "$0")/../scripts/settings.sh"
need "$ARCHIVE" "sh scripts/make.sh overlap_c"
need_tool "$CC" rt
export LC_ALL=C                       # the linker's words
source=$root/tests/c/version_1.c
out=$root/target/tests/version
mkdir -p "$out"

wrong() { echo "$*"; exit 1; }
compile() { # OUTPUT FLAG..: natively
    object=$1
    shift
    "$CC" -std=c11 -Wall -Wextra -Werror -I "$root/include" "$@" -c "$source" -o "$object"
}
with_cc() { # OUTPUT OBJECT..: links natively
    program=$1
    shift
    "$CC" "$@" -o "$program"
}

# The linker refuses the object, and overlap_call is all that it misses. That goes by no other name: told that this is
# overlap_call_2, it links. `flag` is how the linker is told.
refused() { # ARCHIVE OBJECT LINKER
    case $3 in with_cc) flag=-Wl, ;; *) flag= ;; esac
    if "$3" "$out/program" "$2" "$1" >"$out/said" 2>&1; then wrong "a host of version 1 links with $1"; fi
    missed=$(sed -nE "s/.*undefined (reference to|symbol:) [\`']?([A-Za-z0-9_.]+).*/\2/p" "$out/said" | sort -u)
    [ "$missed" = overlap_call ] || wrong "not for overlap_call alone: $(cat "$out/said")"
    "$3" "$out/program" "$2" "${flag}--defsym=overlap_call=overlap_call_2" "$1" || wrong "nor does it link with overlap_call_2 of $1"
}
named() { # ARCHIVE: it has the call by its new name, and not by the old one
    command -v nm >/dev/null || { echo "NOT RUN: the names in $1, as there is no nm"; return; }
    names=$(nm -g --defined-only "$1" | sed -n 's/^[0-9a-f]* [A-Z] //p')
    echo "$names" | grep -qx overlap_call_2 || wrong "$1 has no overlap_call_2: $names"
    if echo "$names" | grep -qx overlap_call; then wrong "$1 has overlap_call: $names"; fi
}

stand_in=$(sh "$root/scripts/far.sh" "$ARCHIVE")
compile "$out/native.o"
compile_x86 "$source" "$out/x86.o"
refused "$ARCHIVE" "$out/x86.o" link_x86
refused "$stand_in" "$out/native.o" with_cc
if native; then refused "$ARCHIVE" "$out/native.o" with_cc; fi
named "$ARCHIVE"
named "$stand_in"
echo "an object of version 1 doesn't link with the archive nor with hosts/far: overlap_call is undefined there, and nothing else"

# Both checks find an archive that has the call by both names, and one that has it by neither.
both=$out/both.a neither=$out/neither.a
echo 'unsigned overlap_call(void) { return 0; }' | "$CC" -x c -c -o "$out/old_call.o" -
cp "$stand_in" "$both"
"$(kit)/bin/llvm-ar" r "$both" "$out/old_call.o"
rm -f "$neither"
"$(kit)/bin/llvm-ar" rcs "$neither"
for archive in "$both" "$neither"; do
    if (refused "$archive" "$out/native.o" with_cc) >"$out/found" 2>&1; then wrong "$archive isn't found by linking"; fi
    if (named "$archive") >"$out/found" && command -v nm >/dev/null; then wrong "$archive isn't found by its names"; fi
done

# The source, with the header: refused by the number of arguments, and before that by a guard of its own; and with the
# change that overlap.h asks for, an object that links.
if compile "$out/changed.o" -DHEADER 2>"$out/said"; then wrong "a source of version 1 compiles with overlap.h"; fi
grep -q 'error: too few arguments' "$out/said" || wrong "a source of version 1 has another fault: $(cat "$out/said")"
if compile "$out/changed.o" -DHEADER -DGUARD 2>"$out/said"; then wrong "the guard of a host of version 1 lets overlap.h pass"; fi
grep -q 'error: .*written for version 1 of overlap.h' "$out/said" || wrong "the guard doesn't refuse overlap.h: $(cat "$out/said")"
compile "$out/changed.o" -DHEADER -DCHANGED
with_cc "$out/program" "$out/changed.o" "$stand_in"
"$out/program" || wrong "changed as overlap.h asks, a host of version 1 has the answer $?"
echo "a source of version 1 doesn't compile with overlap.h; with OVERLAP_CAP_MAX for the cap it does, and runs"
