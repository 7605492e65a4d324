#!/bin/sh
# Installs the archive for other programs: PREFIX/lib/liboverlap_c.a, PREFIX/include/overlap.h,
# PREFIX/lib/pkgconfig/overlap.pc, and the licences in PREFIX/share/doc/overlap.
#   scripts/install.sh [PREFIX]          PREFIX is /usr/local unless given; DESTDIR, where set, goes before it
# A program then compiles with: cc program.c $(pkg-config --cflags --libs overlap)
# For a shared object, in PREFIX/lib: cc -shared -o liboverlap.so -Wl,--whole-archive liboverlap_c.a -Wl,--no-whole-archive
set -eu
unset CDPATH
. "$(dirname "$0")/settings.sh"
native || { echo "install.sh: the archive is x86-64 code; on this machine use scripts/here.sh archive for trials" >&2; exit 1; }
[ $# -le 1 ] || { echo "install.sh: [PREFIX]" >&2; exit 2; }
need_archive
prefix=${1:-/usr/local}
case $prefix in /*) ;; *) prefix=$PWD/$prefix ;; esac
to=${DESTDIR:-}$prefix
version=$(sed -n 's/^#define OVERLAP_VERSION //p' "$root/include/overlap.h")

mkdir -p "$to/lib/pkgconfig" "$to/include" "$to/share/doc/overlap"
install -m 644 "$ARCHIVE" "$to/lib/liboverlap_c.a"
install -m 644 "$root/include/overlap.h" "$to/include/overlap.h"
install -m 644 "$root/LICENSE" "$root/NOTICE" "$to/share/doc/overlap"
cat >"$to/lib/pkgconfig/overlap.pc" <<END_OF_PC
prefix=$prefix
libdir=\${prefix}/lib
includedir=\${prefix}/include

Name: overlap
Description: The overlap-consensus step on pairs of BAM records, proved
Version: $version
Cflags: -I\${includedir}
Libs: -L\${libdir} -loverlap_c
END_OF_PC
echo "installed liboverlap_c.a, overlap.h (version $version), overlap.pc and the licences in $to"
