#!/bin/sh
# Makes, of the archive, one of the same calls that links natively, and prints its name. hosts/far/far.c says how it
# works. It takes the kit's tools and the C compiler of this machine; on x86-64 too, where only tests/far.sh wants it.
#   scripts/far.sh ARCHIVE
set -eu
. "$(dirname "$0")/settings.sh"
archive=$1 source=$root/hosts/far/far.c
case $archive in "$root"/target/far/*) echo "$archive"; exit ;; esac
need_tool "$CC" rt
kit=$(kit)

# A folder for each archive, by all that goes into it. What is made is moved there at once: other scripts may be here too.
far=$root/target/far/$({ cat "$archive" "$source" "$root/include/overlap.h" "$0"; echo "$root $kit $CC"; } | sha256sum | cut -c 1-16)
if [ ! -e "$far/liboverlap_c.a" ]; then
    mkdir -p "$far"
    new=$(mktemp -d "$far/new.XXXXXX")
    trap 'rm -rf "$new"' EXIT
    compile_x86 "$source" "$new/server.o" -DSERVER
    link_x86 "$new/server" "$new/server.o" "$archive"
    mv "$new/server" "$far/server"
    start_script "$far/server" "$far/start"
    "$CC" -std=c11 -O2 -Wall -Wextra -Werror -fPIC -I "$root/include" -DFAR="\"$far/start\"" -c "$source" -o "$new/far.o"
    "$kit/bin/llvm-ar" rcs "$new/liboverlap_c.a" "$new/far.o"
    mv "$new/liboverlap_c.a" "$far/liboverlap_c.a"
fi
echo "$far/liboverlap_c.a"
