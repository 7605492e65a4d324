#!/bin/sh
# Debian's htslib as an outside judge of the definitions. Installs libhts-dev where it is missing, with the rights
# of root, and says so where it can't; no part of the gate.
#   scripts/judge-htslib.sh [PAIRS [SEED]]
set -eu
. "$(dirname "$0")/settings.sh"
need_archive
pairs=${1:-100000}
seed=${2:-$(date +%s)}
has_htslib() { echo '#include <htslib/sam.h>' | "$CC" -E - >/dev/null 2>&1; }
install_htslib() {
    command -v apt-get >/dev/null && [ "$(id -u)" = 0 ] || return 1
    apt-get update && apt-get install -y --no-install-recommends libhts-dev
}
need_tool "$CC"
has_htslib || install_htslib || missing "htslib with its headers" "apt-get install libhts-dev, as root on Debian, with the network at hand"
out=$root/target/htslib
compile_c "$root/oracle/htslib.c" "$out/judge" -lhts
cd "$out"
./judge "$seed" "$pairs"
rm -f before.bam after.bam
