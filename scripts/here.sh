#!/bin/sh
# What stands in target/, as it can be used on this machine, be it x86-64 or not.
#   scripts/here.sh archive                 names the archive to link: target/staticlib/liboverlap_c.a, or a native one (hosts/far)
#   scripts/here.sh overlap [WORD..]        starts target/bin/overlap, where need be under the kit's emulator
#   scripts/here.sh overlap_filed [WORD..]  starts target/bin/overlap_filed
set -eu
. "$(dirname "$0")/settings.sh"
what=${1:-}
[ $# = 0 ] || shift
case $what in
archive) need_archive; echo "$ARCHIVE" ;;
overlap) need_program; exec "$PROGRAM" "$@" ;;
overlap_filed) need_program_filed; exec "$PROGRAM_FILED" "$@" ;;
*) echo "here.sh: name one of archive, overlap, overlap_filed" >&2; exit 2 ;;
esac
