#!/bin/sh
# The exported calls on a pair and the program against the published Rust and a model of the paper's rules.
#
#   scripts/differential.sh [gate|pairs|groups|full|lists] [SEED] [FOLDER]
#
# gate   (default) a fresh run of about a minute; SEED is the time unless given, and is printed
# pairs  the part of it that needs the archive alone
# groups the other part, which needs the program; the judge is as `pairs` built it
# full   the same at length: 197 million pairs and 120,000 groups in six to fourteen minutes
# lists  all lists of up to three operations of lengths 1 and 2 in both reads: 225 million pairs
#
# FOLDER is that of the published Rust (default ../shared/docs/src beside the repository). Where
# it isn't at hand the run says so and compares nothing.
set -eu
. "$(dirname "$0")/settings.sh"
size=gate seed=$(date +%s)
for word; do
    case $word in
    gate | pairs | groups | full | lists) size=$word ;;
    *[!0-9]*) PUBLISHED=$word ;;
    *) seed=$word ;;
    esac
done
not_compared() { # WHY
    echo "NOT COMPARED with the published Rust: $1."
    echo "The stored list of its answers stands in."
    exit 0
}
[ -f "$PUBLISHED/crates/fgumi-consensus/src/overlapping.rs" ] || not_compared "it isn't at hand (looked in $PUBLISHED)"
have_rustc || not_compared "a rustc that knows edition 2024 isn't at hand; get it by: $GET_RUSTC"
need_archive
case $size in
gate | pairs | groups) pairs=1000000 few=300000 groups=15000 ;;
full) pairs=16000000 few=3000000 groups=120000 ;;
esac
mates=2                                   # operations of the mate of a read of four, some of length 0
native || groups=$((${groups:-0} / 5)) mates=1     # a program is started for each group, and a pair goes through hosts/far
judge=$root/target/oracle/judge
if [ "$size" != groups ] || [ ! -x "$judge" ]; then "$root/oracle/build.sh" "$PUBLISHED" "$ARCHIVE"; fi
echo "seed $seed"
if [ "$size" = lists ]; then
    exec "$judge" short 3 3 2 "$seed"
fi
if [ "$size" != groups ]; then
    "$judge" classes >"$root/target/oracle/classes.out"
    echo "the smallest inputs of the known classes do what docs/DIFFERENCES.md says"
    "$judge" limits
    "$judge" random "$seed" "$pairs"
    "$judge" damaged "$seed" "$few"
    "$judge" extremes "$seed" "$few"
    "$judge" codes "$seed" $((few / 3))
    "$judge" caps "$seed" "$few"
    "$judge" short 3 3 1 "$seed"
    "$judge" short 2 2 2 "$seed"
    "$judge" zeros 4 $mates "$seed"
    "$judge" zeros $mates 4 "$seed"
fi
if [ "$size" = full ]; then
    "$judge" short 3 2 2 "$seed"
    "$judge" short 2 3 2 "$seed"
    "$judge" zeros 4 3 "$seed"
    "$judge" zeros 3 4 "$seed"
fi
if [ "$size" != pairs ]; then
    need_program
    "$judge" group-limits "$PROGRAM"
    "$judge" groups "$PROGRAM" "$seed" "$groups"
    "$root/scripts/store-answers.sh" --check
fi
