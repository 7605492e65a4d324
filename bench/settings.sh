# shellcheck shell=sh
# Read by the scripts of this folder: the settings of scripts/settings.sh, and how instructions are counted.
#   COUNT   callgrind, on an x86-64 machine, or icount, on any: icount.c under qemu-user, which counts x86-64 programs.
#           Then times are left out, and the Rust's instructions: on another machine rustc makes no x86-64 program.
#   QEMU    for icount, an emulator of x86-64 that takes plugins: that of Debian's package qemu-user
# The word `page` behind a script's name writes its figures into docs/SPEED.md, where nothing was left out of them.
. "$(dirname "$0")/../scripts/settings.sh"
COUNT=${COUNT:-$(native && echo callgrind || echo icount)}
QEMU=${QEMU:-qemu-x86_64}
out=$root/target/bench
page=${1:-}
export COUNT QEMU

counts_only() { [ "$COUNT" = icount ]; }
left_out() { echo "# left out, as wherever the processor isn't x86-64: $1"; } # WHAT
show() { # NAME COMMAND..: what the command prints, on the page too if that was asked for
    place=$1
    shift
    "$@" >"$out/$place.md"
    python3 -B "$(dirname "$0")/page.py" "$place" "$page" <"$out/$place.md"
}
if counts_only; then
    KIT=$(kit)
    export KIT
    [ -z "$page" ] || { echo "$(basename "$0"): docs/SPEED.md takes figures of an x86-64 machine, by callgrind, alone" >&2; exit 2; }
elif [ "$COUNT" != callgrind ] || ! native; then
    echo "$(basename "$0"): COUNT is icount, or callgrind on an x86-64 machine; not $COUNT here" >&2
    exit 2
fi
